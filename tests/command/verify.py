# verify: the sum of every sealed record, the same wherever it is printed; each mark that a forged one lacks, in the
# same words from Python; shelves, exit statuses, and the documents' examples.
import os
import re
import shutil
import struct
import subprocess
import sys
from common import (NEWEST, ROOT, capture, carrying, check, counted, expect, packets, proved, read, run, stream,
                    streams, write)
from shelf import laid_out

sys.path.insert(0, os.path.join(ROOT, "bindings", "python"))
import carolsedge

FORGED = "No seal leaves such a record (docs/RULE.md, 30): look for another copy."


def document(name):
    with open(os.path.join(ROOT, name)) as file:
        return file.read()


def by_hand():
    """The worked record of the rule, section 30: three packets, one lost; every fourth of 100 pictures is repeated."""
    data = capture([])
    for micros, frame in ((5, carrying(packets(2))), (40005, carrying(packets(1, counter=3)))):
        data += struct.pack("<IIII", 10, micros, len(frame), len(frame)) + frame
    shades = [(i - i // 4 - (i % 4 == 3)) % 16 + (160 if i >= 60 else 0) for i in range(100)]
    write("hand.pcap", data)
    write("hand.y", b"".join(bytes([shade]) * 900 for shade in shades))
    words = ["hand.pcap", "hand.y", "-o", "hand.record", "--size", "30x30", "--time", "40000", "--pid", "256"]
    expect("the worked record", 0, b"sealed 192\n", None, "measure", *words)
    section = document("docs/RULE.md").split("## 30. ")[1]
    lines = "".join(line.strip() + "\n" for line in re.findall(r"^    (?:sample|unit|scene) .*$", section, flags=re.M))
    expect("the worked record", 0, lines.encode(), [], "show", "--lines", "hand.record")
    said = re.search(r"^    (hand.record: reached 3.25 = .*)$", section, flags=re.M)[1]
    expect("the worked record", 0, said.encode() + b"\n", [], "verify", "hand.record")
    check(read("hand.record")[56:64] == struct.pack("<d", 3.25), "the worked record does not come to 3.25")
    return read("hand.record")


def sum_of(record):
    """The sum of a record's index, from its bytes alone."""
    units, scenes, n = (struct.unpack_from("<I", record, at)[0] for at in (8, 16, 40))
    word = lambda row, at: struct.unpack_from("<I", record, 64 + 32 * row + at)[0]
    f = n - sum(word(units + j, 8) for j in range(scenes))
    p, l = (sum(word(j, at) for j in range(units)) for at in (20, 24))
    return f, n, p, l


def sealed(name, record):
    f, n, p, l = sum_of(record)
    ic, ip = 4 * (f / n), p / (p + l)
    index = 1 + ic * ip
    said = "%r = 1 + 4 x (%d / %d) x (%d / (%d + %d))" % (index, f, n, p, p, l)
    write("record", record)
    expect(name, 0, b"record: reached %s\n" % said.encode(), [], "verify", "record")
    expect(name, 0, b"standard input: reached %s\n" % said.encode(), [], "verify", "-", stdin=record)
    page = expect(name, 0, None, [], "show", "record")[1].decode()
    check(page.startswith("Record record\n\nSample\n"), name + ": show begins with " + page[:300])
    check("  reached   %s\n" % said in page, name + ": show has another sum")
    page = expect(name, 0, None, [], "page", "record")[1].decode()
    check('<b id="sum">%s</b>' % said in page and 'id="forged"' not in page, name + ": page")
    check(page.index('id="sum"') < page.index('id="sample"'), name + ": the page does not begin with the sum")
    check(str(carolsedge.verify(record)) == said, "%s: Python: %s" % (name, carolsedge.verify(record)))
    return said


def forged(hand):
    """A record that lacks each mark: its words, the same from Python, in show, in JSON, and on the page."""
    u0, u1, s0, s1 = 64, 96, 128, 160
    many = hand[:160] + struct.pack("<16I", 60, 15, 5, 1, 10**6, 10**6, 0, 0, 75, 25, 5, 1, 10**6, 10**6, 0, 0)
    cases = [
        (1, hand, {44: 16777175, 48: 16777173}),
        (2, hand, {52: 694}),
        (3, many, {4: 224, 16: 3, 32: 10000}),
        (4, hand, {u1 + 24: 15}),
        (5, hand, {u0 + 12: 10**6}),
        (6, hand, {s1 + 8: 40}),
        (7, hand, {s0 + 12: 16}),
        (8, hand, {s0 + 12: 0}),
        (9, hand, {s0 + 20: 1}),
        (10, hand, {s1 + 16: 1000001, s1 + 20: 1000001}),
        (11, hand, {s1 + 16: 30000001}),
        (12, hand, {s0 + 24: 1122001}),
        (13, hand, {s1 + 16: 1000, s1 + 20: 1000}),
        (14, hand, {40: 62, s1 + 4: 2, s1 + 8: 0, s1 + 12: 0}),
        (15, hand, {s0 + 4: 14, s0 + 8: 5, s1: 14, s1 + 4: 86}),
        (16, hand, {56: 0x66666666, 60: 0x400A6666}),
        (16, hand, {60: 0x7FF80000}),
    ]
    for mark, record, words in cases:
        record = bytearray(record)
        for at, word in words.items():
            struct.pack_into("<I", record, at, word)
        lacking(mark, bytes(record))
    said = run("verify", "forged")[1]
    check(said == b"forged: not sealed: index NaN is in the header, the rows reach 3.25\n", "NaN: %s" % said)


def lacking(mark, record):
    name = "mark %d" % mark
    try:
        carolsedge.verify(record)
        check(False, name + ": Python says that it could have been sealed")
    except carolsedge.NotSealed as no:
        python, found = str(no).replace("nan", "NaN"), no.mark
    write("forged", record)
    expect(name, 1, b"forged: %s\n" % python.encode(), [], "verify", "forged")
    check(found == mark, "%s: Python says %s" % (name, python))
    top = "Record forged\n\nThis record is %s.\n%s\n\nSample\n" % (python, FORGED)
    check(expect(name, 0, None, [], "show", "forged")[1].decode().startswith(top), name + ": show does not begin so")
    for form in ("--lines", "--json", "--csv"):
        expect(name, 0, None, [], "show", "forged", form)
    page = expect(name, 0, None, [], "page", "forged")[1].decode()
    escaped = python.replace("'", "&#39;")
    top = '<h1>Record forged</h1>\n<p class="forged" id="forged">This record is %s. %s</p>\n' % (escaped, FORGED)
    check(top in page, name + ": the page does not begin so")


def shelves(hand, other):
    false = hand[:60] + b"\x09" + hand[61:]
    one, two = (b"reached " + run("verify", "-", stdin=record)[1].split(b"reached ")[1] for record in (hand, other))
    write("good", hand)
    write("false", false)
    write("shelf", laid_out([hand, false, other]))
    said = run("verify", "-", stdin=false)[1].replace(b"standard input: ", b"")
    check(said.startswith(b"not sealed: index "), "the false record: %s" % said)
    lines = b"shelf[0]: %sshelf[1]: %sshelf[2]: %s" % (one, said, two)
    expect("a shelf", 1, lines, [], "verify", "shelf")
    expect("a shelf, piped", 1, lines.replace(b"shelf[", b"standard input["), [], "verify", "-", stdin=read("shelf"))
    expect("a record and a shelf", 1, b"good: " + one + lines + b"good: " + one, [], "verify", "good", "shelf", "good")
    totals = b"records 3 lost %d\n" % (2 * sum_of(hand)[3] + sum_of(other)[3])
    expect("shelf check", 0, totals, [], "shelf", "check", "shelf")
    page = expect("a shelf's page", 0, None, [], "page", "shelf")[1].decode()
    check("<h1>Shelf shelf</h1>\n<p class=\"forged\" id=\"forged\">shelf[1]: not sealed: " in page, "a shelf's page")
    write("shelf", laid_out([hand, other]))
    expect("a good shelf", 0, b"shelf[0]: " + one + b"shelf[1]: " + two, [], "verify", "shelf")
    totals = b"records 2 lost %d\n" % (sum_of(hand)[3] + sum_of(other)[3])
    expect("shelf check", 0, totals, [], "shelf", "check", "shelf")
    write("shelf", laid_out([]))
    expect("an empty shelf", 0, b"shelf: a shelf without records\n", [], "verify", "shelf")
    write("shelf", laid_out([false] * 12))
    page = expect("twelve false records", 0, None, [], "page", "shelf")[1].decode()
    named = "shelf: 2 more; carolsedge verify names all" in page and FORGED in page
    check(named, "twelve false records: " + page[:3000])
    check(page.count("not sealed: ") == 10, "twelve false records: " + page[:3000])
    check(run("verify", "shelf")[1].count(b"not sealed: ") == 12, "verify does not name all")


def ends(hand):
    """The worst exit status of all, and a line or words for each file."""
    write("good", hand)
    good = run("verify", "good")[1]
    write("cut", hand[:-1])
    bad = laid_out([hand, hand[:-1]])
    write("bad", bad)
    words = ["carolsedge verify: refused 18: the bytes are no record that the rule allows: cut\n"]
    expect("a cut record", 1, b"cut: refused 18 0\n", words, "verify", "cut")
    expect("all go on", 1, good + b"cut: refused 18 0\n" + good, words, "verify", "good", "cut", "good")
    expect("a shelf", 1, b"bad: refused 28 1\n", ["refused 28: ", "bad\n"], "verify", "bad")
    gone = "carolsedge verify: gone: No such file or directory\n"
    expect("no file", 2, good * 2, [gone], "verify", "good", "gone", "good")
    expect("no file, and a cut one", 2, b"cut: refused 18 0\n", [gone], "verify", "gone", "cut")
    expect("a folder", 2, b"", [".: Is a directory"], "verify", ".")
    expect("nothing", 1, b"standard input: refused 16 0\n", None, "verify", "-")
    expect("an endless file", 1, b"/dev/zero: refused 17 0\n", None, "verify", "/dev/zero")
    expect("no word", 2, b"", ["FILE is missing"], "verify")
    expect("- twice", 2, b"", ["-: standard input is one FILE"], "verify", "-", "-", stdin=hand)
    expect("an option", 2, b"", ["--all: no such option"], "verify", "--all", "good")
    with open("/dev/full", "w") as full:
        done = subprocess.run([os.path.join(ROOT, "target", "bin", "carolsedge"), "verify", "good"], stdout=full,
                              stderr=subprocess.PIPE)
    check(done.returncode == 2 and b"standard output: No space left" in done.stderr, "a full disk: %s" % done.stderr)


def signed(hand):
    """The recipe of PROMISES.md, word by word but for the question of a password."""
    if not shutil.which("ssh-keygen"):
        return "ssh-keygen is not installed"
    write("seat.record", hand)
    recipe = [line.split("  #")[0].strip() for line in document("docs/PROMISES.md").splitlines()
              if re.match("    (ssh-keygen|echo) ", line)]
    check(len(recipe) == 4, "the recipe: %s" % recipe)
    recipe[0] += " -q -N ''"
    for line in recipe:
        done = subprocess.run(["bash", "-c", line], capture_output=True, text=True)
        check(done.returncode == 0, "%s: %s" % (line, done.stderr))
    check('Good "record" signature' in done.stdout, recipe[-1] + ": " + done.stdout)
    write("seat.record", hand[:-1] + b"\1")
    check(subprocess.run(["bash", "-c", recipe[-1]], capture_output=True).returncode != 0, "a changed file is signed")
    return "the recipe for signing"


def test():
    subprocess.run(["make", "-s", "-C", ROOT, "python"], check=True)
    hand = by_hand()
    sealed("the worked record", hand)
    clip = None
    for name, *opening in streams():
        for edition in range(1, NEWEST + 1):
            record = proved(*opening, stream(name, ".pcap"), stream(name, ".y"), edition)[0]
            sealed("%s, edition %d" % (name, edition), record)
            clip = record if name == "clip" else clip
    said = run("verify", "-", stdin=clip)[1].decode().replace("standard input", "    clip.record")
    check(said in document("README.md"), "README has another sum than " + said)
    forged(hand)
    shelves(hand, clip)
    ends(hand)
    also = signed(hand)
    return "verify: %d runs: sums, every mark, shelves; the same words from Python; %s" % (counted(), also)
