# Whatever comes from outside is printed with its control bytes escaped: names, words, headings, a decoder's lines. No
# run writes a control byte but a line feed, nor a mark that turns the direction of writing.
import csv
import io
import json
import os
import random
import struct
import subprocess
from common import PROGRAMS, capture, check, counted, expect, good, read, write, y4m
from decoder import ffmpeg_is
from show import made

# As it comes, and as it is printed.
NASTY = [
    (b"\x1b[2J\x1b]0;owned\x07", r"\x1b[2J\x1b]0;owned\x07"),
    (b"a\rb\bc\x7f", r"a\x0db\x08c\x7f"),
    ("\u009b31m\u0085".encode(), r"\xc2\x9b31m\xc2\x85"),
    ("\u202egpj.\u2066\u200f".encode(), r"\xe2\x80\xaegpj.\xe2\x81\xa6\xe2\x80\x8f"),
    (b"\xff\xc3\xe2\x82", r"\xff\xc3\xe2\x82"),
    ("Bühne \\x1b 夜".encode(), "Bühne \\x1b 夜"),
]
MEASURE = ["measure", "capture.pcap", "whole.y4m"]
DECODE = ["measure", "capture.pcap", "-o", "out", "--pid", "256"]
LINES = [(b"two\nlines\tof it", r"two\x0alines\x09of it")]


def on_page(raw):
    """As a page's title has it: controls, and bytes that are no UTF-8, are replaced; what is hidden is escaped."""
    escaped = lambda letter: "".join("\\x%02x" % byte for byte in letter.encode())
    letters = ("\ufffd" if ord(c) < 32 or 127 <= ord(c) < 160 else c for c in raw.decode(errors="replace"))
    return "".join(escaped(c) if c in "\u202e\u2066\u200f" else c for c in letters)


def plain(name, *texts):
    """No byte that steers a terminal."""
    for text in texts:
        letters = text.decode(errors="surrogateescape")
        wrong = [letter for letter in letters if letter != "\n" and (
            ord(letter) < 32 or 127 <= ord(letter) < 160 or letter in "\u061c\u200e\u200f\u2028\u2029"
            or "\u202a" <= letter <= "\u202e" or "\u2066" <= letter <= "\u2069" or "\ud800" <= letter <= "\udfff")]
        check(not wrong, "%s: %r in %r" % (name, wrong, text))


def told(name, shown, *words, status=None, **how):
    """A run, which says the name as it may be printed."""
    done = subprocess.run([PROGRAMS["carolsedge"], *words], capture_output=True, timeout=60, **how)
    check(status is None or done.returncode == status, "%s: %s" % (name, done))
    plain("%s: %r" % (name, words), done.stdout, done.stderr)
    check(shown in (done.stdout + done.stderr).decode(), "%s: %r is not said: %s" % (name, shown, done))
    expect.count += 1
    return done


def names(record):
    for raw, shown in NASTY + LINES:
        there, missing = b"record " + raw, b"no " + raw
        write(there, record)
        for form in ([], ["--lines"], ["--json"], ["--csv"]):
            done = subprocess.run([PROGRAMS["carolsedge"], "show", there, *form], capture_output=True)
            plain("show", done.stdout, done.stderr)
        told("show", "Record record " + shown, "show", there, status=0)
        told("page", "<title>Record record %s</title>" % on_page(raw), "page", there, status=0)
        told("verify", "record %s: not sealed: " % shown, "verify", there, status=1)
        for words in (["show", missing], ["verify", missing], ["sheet", missing], ["page", missing],
                      ["shelf", "check", missing], ["survey", missing], ["loss", "--record", missing, "--keys", there],
                      ["rtp", missing, "--port", "1"], ["measure", missing, "-o", "out"]):
            told("no file", "no %s: No such file" % shown, *words, status=2)
        told("no record", shown, "shelf", "check", there, status=1)
        told("a capture", shown, "survey", there, status=1)
        told("a folder", shown, *MEASURE, "-o", raw + b"/out", "--pid", "256", status=2)
        # A word is no option's value, nor a subcommand.
        for words in ([raw], ["help", raw], ["show", there, raw], ["show", b"--" + raw], ["explain", raw],
                      ["gaps", raw], ["shelf", raw], ["shelf", "take", there, raw], ["rtp", there, b"--port=" + raw],
                      ["measure", "capture.pcap", "-o", "out", b"--size=" + raw],
                      ["measure", "capture.pcap", "-o", "out", b"--pid", raw]):
            told("a word", shown, *words, status=2)
        out = b"out " + raw
        told("a record", "out %s: " % shown, *MEASURE, "-o", out, "--pid", "256", status=0)
        os.remove(out)


def headings():
    """A y4m heading: of a file, and of a decoder."""
    for raw, shown in NASTY:
        one = raw.replace(b" ", b"_")
        for field, said in ((b"C" + one, "its format "), (b"W3" + one, "no number in W3")):
            whole = b"YUV4MPEG2 W30 H30 F25:1 %s\nFRAME\n" % field + bytes(900)
            write("bad.y4m", whole)
            shown_field = said + shown.replace(" ", "_")
            for pictures in (["bad.y4m"], []):
                told("a heading", shown_field, "measure", "capture.pcap", *pictures, "-o", "out", "--pid", "256",
                     status=2, **ffmpeg_is("cat >/dev/null; cat $HERE/bad.y4m"))


def decoders():
    """What a decoder says."""
    for raw, shown in NASTY:
        write("says", raw)
        for status, script in ((1, "cat $HERE/says >&2; exit 1"),
                               (2, "cat $HERE/whole.y4m; cat $HERE/says >&2; exit 1"),
                               (2, "printf '[x @ 0x1] [error] ' >&2; cat $HERE/says >&2; kill -KILL $$")):
            told("a decoder", shown, *DECODE, status=status, **ffmpeg_is("cat >/dev/null; " + script))
    # More than is looked at, and no line feed in it.
    told("a long line", "ffmpeg decoded no picture: aaaa", *DECODE, status=1,
         **ffmpeg_is("cat >/dev/null; head -c 50000000 /dev/zero | tr '\\0' a >&2; exit 1"))


def figures():
    """No field of CSV begins a formula, whatever the index's bits are; JSON can be read."""
    for bits in (0xBFF0000000000000, 0xFFF0000000000000, 0x7FF0000000000000, 0x7FF8000000000000, 0x8000000000000000,
                 0x4008000000000000, 0xFFFFFFFFFFFFFFFF, 0):
        write("forged", made(random.Random(4), bits))
        text = expect("forged", 0, None, [], "show", "forged", "--csv")[1].decode()
        fields = [field for row in csv.reader(io.StringIO(text)) for field in row]
        check(not [field for field in fields if field[:1] in tuple("=+-@\t\r")], "a formula: %s" % fields[:30])
        index = dict(zip(*list(csv.reader(io.StringIO(text)))[:2]))["index"]
        value = struct.unpack("<d", struct.pack("<Q", bits))[0]
        kept = value == value and abs(value) != float("inf") and bits < 1 << 63
        check((index != "" and float(index) == value) if kept else index == "", "index %X: %r" % (bits, index))
        json.loads(expect("forged", 0, None, [], "show", "forged", "--json")[1])


def test():
    write("capture.pcap", capture(good(4)))
    write("whole.y4m", y4m(bytes(4 * 900), 30, 30, "mono"))
    names(made(random.Random(1)))
    headings()
    decoders()
    figures()
    return "escapes: %d runs: names, words, headings, a decoder's lines; no formula in CSV" % counted()
