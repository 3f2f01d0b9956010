# The stream in a capture is decoded by ffmpeg. A stand-in shows what ffmpeg is given and how its troubles end; the
# real one is used where it is installed.
import os
import random
import shutil
import signal
import struct
import subprocess
import time
from captures import mixed
from common import (PROGRAMS, capture, carrying, check, counted, expect, good, proved, read, run, same_record, stream,
                    streams, write, y4m)

OUT = ["-o", "record", "--pid", "256"]
# What the stand-in does: keeps its words and its input, gives the file `gives`, says and ends as it is told.
STAND_IN = """#!/bin/sh
echo "$@" >"$HERE/words"
echo $$ >"$HERE/pid"
case $WAY in
  together) cat "$HERE/gives" & cat >"$HERE/got"; wait ;;
  deaf) cat "$HERE/gives" ;;
  *) cat >"$HERE/got"; cat "$HERE/gives" ;;
esac
[ -z "$SAYS" ] || echo "$SAYS" >&2
exit ${STATUS:-0}
"""


def transport(data):
    """The transport packets of a capture, by the rule, without a look at our programs."""
    at, out = 24, b""
    while at < len(data):
        length = struct.unpack_from("<I", data, at + 8)[0]
        f = data[at + 16 : at + 16 + length]
        at += 16 + length
        if length < 42 or f[12:15] != b"\x08\x00\x45" or (f[20] * 256 + f[21]) & 0x3FFF or f[23] != 17:
            continue
        t, u = f[16] * 256 + f[17], f[38] * 256 + f[39]
        if t != u + 20 or length < 14 + t or u <= 8 or (u - 8) % 188:
            continue
        cells = [f[i : i + 188] for i in range(42, 34 + u, 188)]
        out += b"".join(cell for cell in cells if cell[0] == 0x47)
    return out


def stand_in(**told):
    path = os.path.abspath("stand-in") + ":" + os.environ["PATH"]
    return {"env": dict(os.environ, PATH=path, HERE=os.getcwd(), **told)}


def given():
    """Everything that ffmpeg is given, and what comes of its pictures."""
    for name, width, height, d, pid in streams():
        cap, luma = stream(name, ".pcap"), stream(name, ".y")
        record, sealed = proved(width, height, d, pid, cap, luma)
        write("gives", y4m(read(luma), width, height, "mono", rate="1000000:%d" % d))
        for way in ("after", "together"):
            for words, data in (([cap], b""), (["-"], read(cap))):
                words += ["-o", "record", "--pid", str(pid)]
                expect(name, 0, sealed, None, "measure", *words, stdin=data, **stand_in(WAY=way))
                same_record(name + ", decoded", record)
                check(read("got") == transport(read(cap)), name + ": ffmpeg was given something else")
                check("-map 0:i:%d " % pid in read("words").decode(), "ffmpeg's words are " + read("words").decode())
    write("gives", y4m(bytes(900), 30, 30, "mono"))
    for seed in range(40):
        write("mixed.pcap", mixed(random.Random(1000 + seed)))
        status, _, err = run("measure", "mixed.pcap", *OUT, **stand_in())
        check(status in (0, 1), "seed %d: %s" % (seed, err))
        check(read("got") == transport(read("mixed.pcap")), "seed %d: ffmpeg was given something else" % seed)


def large():
    """Megabytes both ways at once, the capture's first bytes waiting for the pictures' size."""
    cap = write("large.pcap", capture(good(700)))
    luma = random.Random(3).randbytes(700 * 120 * 90)
    record, sealed = proved(120, 90, 40000, 256, cap, write("large.y", luma))
    write("gives", y4m(luma, 120, 90, "mono"))
    for way in ("after", "together"):
        expect("large, " + way, 0, sealed, None, "measure", cap, *OUT, **stand_in(WAY=way))
        same_record("large, " + way, record)
    expect("an ffmpeg that does not listen", 0, sealed, None, "measure", cap, *OUT, **stand_in(WAY="deaf"))
    same_record("an ffmpeg that does not listen", record)


def without():
    """No picture comes: what is refused then, and what is said of it."""
    cap = write("capture.pcap", capture(good(4)))
    write("gives", b"")
    told = {"SAYS": "no idea", "STATUS": "1"}
    said = ["there is no picture: capture.pcap\nffmpeg decoded no picture: no idea"]
    expect("no pictures", 1, b"refused 14 0\n", said, "measure", cap, *OUT, **stand_in(**told))
    told["SAYS"] = "the cause\nwhat came of it"
    odd = ["ffmpeg decoded no picture: the cause\nOf 5 frames, 1 skipped: 1 whose bytes are no multiple of 188\n"]
    write("odd.pcap", capture([*good(4), carrying(bytes(1472))]))
    odd.append("pkt_size=1316")
    expect("skipped frames", 1, b"refused 14 0\n", odd, "measure", "odd.pcap", *OUT, **stand_in(**told))
    told["SAYS"] = "no idea"
    told = {"SAYS": "no idea", "STATUS": "0"}
    expect("no pictures, and well", 1, b"refused 14 0\n", said, "measure", cap, *OUT, **stand_in(**told))
    told["STATUS"] = "1"
    write("none.pcap", capture([]))
    none = ["measure", "none.pcap", *OUT]
    expect("no frames", 1, b"refused 12 0\n", ["The capture has no frames"], *none, **stand_in(**told))
    other = ["measure", cap, "-o", "record", "--pid"]
    said = ["has identifier 300", "--pid 256"]
    expect("no packet", 1, b"refused 12 0\n", said, *other, "300", **stand_in(**told))
    expect("no identifier", 1, b"refused 3 0\n", ["refused 3"], *other, "8192", **stand_in(**told))
    write("no.pcap", b"no capture at all, though it has some bytes")
    expect("no capture", 1, b"refused 5 3\n", ["editcap"], "measure", "no.pcap", *OUT, **stand_in(**told))


def troubles():
    """Pictures come, and something is wrong with them or with ffmpeg."""
    cap = write("capture.pcap", capture(good(4)))
    words = ["measure", cap, *OUT]
    whole = y4m(bytes(4 * 900), 30, 30, "mono")
    write("gives", whole[:-900])
    told = {"SAYS": "no idea", "STATUS": "1"}
    expect("a failure", 2, b"", ["capture.pcap: ffmpeg failed: no idea"], *words, **stand_in(**told))
    write("gives", whole[:-1])
    expect("a picture cut", 1, b"refused 13 3599\n", ["refused 13"], *words, **stand_in())
    write("gives", whole.replace(b"Cmono", b"Cmono10"))
    said = ["capture.pcap: the stream of PID 256: its format is mono10, deeper than 8 bits"]
    expect("10 bits", 2, b"", said, *words, **stand_in())
    write("gives", whole.replace(b"W30 H30", b"W30 H20"))
    expect("a size", 1, b"refused 1 0\n", ["refused 1"], *words, **stand_in())
    write("gives", y4m(bytes(751 * 900), 30, 30, "mono"))
    expect("751 pictures", 1, b"refused 10 675000\n", ["750 pictures"], *words, **stand_in())
    write("gives", whole.replace(b"F25:1", b"F30000:1001"))
    expect("a rate", 0, None, ["record: 30000/1001 pictures a second", "rounded to 33367"], *words, **stand_in())
    expect("another rate", 0, None, None, *words, "--rate", "25", **stand_in())
    expect("another size", 2, b"", ["--size 31x30: the pictures are 30x30"], *words, "--size", "31x30", **stand_in())
    os.remove("record")
    lonely = {"env": dict(os.environ, PATH=os.path.abspath("empty"))}
    expect("no ffmpeg", 2, b"", ["ffmpeg is not installed", ".y4m"], *words, **lonely)
    check(not os.path.lexists("record"), "a run without pictures made a record")


def interrupted():
    """An ffmpeg does not outlive the command."""
    write("gives", b"")
    if os.path.exists("pid"):
        os.remove("pid")
    words = [PROGRAMS["carolsedge"], "measure", "-", *OUT]
    held = subprocess.Popen(words, stdin=subprocess.PIPE, stderr=subprocess.PIPE, **stand_in())
    for _ in range(100):
        if os.path.exists("pid") and read("pid"):
            break
        time.sleep(0.05)
    child = int(read("pid"))
    held.send_signal(signal.SIGTERM)
    check(held.wait(10) == -signal.SIGTERM, "interrupted while decoding: status %d" % held.returncode)
    held.stdin.close()
    held.stderr.close()
    for _ in range(100):
        if not os.path.exists("/proc/%d" % child) or b"Z" in read("/proc/%d/stat" % child).split(b") ")[1][:1]:
            break
        time.sleep(0.05)
    else:
        check(False, "an ffmpeg outlives the command")
    check(not os.path.lexists("record"), "interrupted while decoding: a record")
    expect.count += 1


def ffmpeg(*words):
    return subprocess.run(["ffmpeg", "-nostdin", "-v", "error", "-y", *words], capture_output=True).returncode == 0


PASSING = ["-fps_mode", "passthrough"]
PLANE = ["-vf", "extractplanes=y", *PASSING, "-f", "rawvideo", "luma.y"]


def real():
    """The real ffmpeg: it decodes as it does by hand, and its y4m files give the luma that it extracts."""
    if not shutil.which("ffmpeg"):
        return "ffmpeg is not installed: the stand-in alone was used"
    if not ffmpeg("-f", "lavfi", "-i", "testsrc2=size=66x50:rate=25:duration=1", *PASSING, "test.y4m"):
        return "the ffmpeg here does not know -fps_mode: the stand-in alone was used"
    for name, width, height, d, pid in streams():
        write("stream.ts", transport(read(stream(name, ".pcap"))))
        ffmpeg("-i", "stream.ts", "-map", "0:i:%d" % pid, *PLANE)
        record, sealed = proved(width, height, d, pid, stream(name, ".pcap"), "luma.y")
        expect(name, 0, sealed, None, "measure", stream(name, ".pcap"), "-o", "record", "--pid", str(pid))
        same_record(name + ", decoded by ffmpeg", record)
    cap = write("capture.pcap", capture(good(25)))
    for form in ("yuv420p", "yuvj420p", "yuv422p", "yuv444p", "yuv411p", "gray"):
        ffmpeg("-i", "test.y4m", "-pix_fmt", form, "-strict", "-1", "form.y4m")
        ffmpeg("-i", "form.y4m", *PLANE)
        record, sealed = proved(66, 50, 40000, 256, cap, "luma.y")
        expect(form, 0, sealed, ["25 pictures beside 25 units"], "measure", cap, "form.y4m", *OUT)
        same_record("ffmpeg's " + form, record)
    deep(cap)
    words = ["measure", stream("clip", ".pcap"), "-o", "record", "--pid", "0"]
    expect("tables alone", 1, b"refused 14 0\n", ["ffmpeg decoded no picture"], *words)
    return subprocess.run(["ffmpeg", "-version"], capture_output=True).stdout.decode().split(" Copyright")[0]


def deep(cap):
    """Samples deeper than 8 bits are refused; the command that is named gives their upper 8 bits."""
    samples = random.Random(5).randbytes(2 * 66 * 50)
    samples = b"".join(((a | b << 8) & 1023).to_bytes(2, "little") for a, b in zip(samples[::2], samples[1::2]))
    write("deep.y", samples)
    upper = ["-vf", "extractplanes=y,scale=sws_dither=none,format=gray", *PASSING]
    raw = ["-f", "rawvideo"]
    ffmpeg(*raw, "-pix_fmt", "gray10le", "-s", "66x50", "-i", "deep.y", *upper, *raw, "upper.y")
    wanted = bytes(a >> 2 | b << 6 for a, b in zip(samples[::2], samples[1::2]))
    check(read("upper.y") == wanted, "not the upper 8 bits")
    for form in ("yuv420p10le", "gray10le", "yuv444p12le"):
        ffmpeg("-i", "test.y4m", "-pix_fmt", form, "-strict", "-1", "form.y4m")
        expect(form, 2, b"", ["deeper than 8 bits"], "measure", cap, "form.y4m", *OUT)
    if ffmpeg("-i", "test.y4m", "-pix_fmt", "yuv420p10le", "-c:v", "libx264", "-f", "mpegts", "deep.ts"):
        data = read("deep.ts")
        write("deep.pcap", capture([carrying(data[at : at + 1316]) for at in range(0, len(data), 1316)]))
        expect("a deep stream", 2, b"", ["the stream of PID 256: its format is mono10"], "measure", "deep.pcap", *OUT)


def test():
    for folder in ("stand-in", "empty"):
        os.mkdir(folder)
    write("stand-in/ffmpeg", STAND_IN.encode())
    os.chmod("stand-in/ffmpeg", 0o755)
    given()
    large()
    without()
    troubles()
    interrupted()
    which = real()
    return "decoding: %d runs: packets, pictures and troubles through pipes; %s" % (counted(), which)
