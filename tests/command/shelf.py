# shelf: what is made is checked, listed and taken out again byte for byte, and more is put after it; refusals have
# their place, and no file is lost under the shelf's name.
import os
import random
import re
import resource
import struct
import subprocess
from common import NEWEST, PROGRAMS, check, counted, expect, read, taken, write
from show import date, made


def lost_of(record):
    units = struct.unpack_from("<I", record, 8)[0]
    return sum(struct.unpack_from("<I", record, 64 + 32 * i + 24)[0] for i in range(units))


def laid_out(records):
    """A shelf as document 02 has it."""
    place = 8 + 4 * len(records)
    words = [len(records), place + sum(map(len, records))]
    for record in records:
        words.append(place)
        place += len(record)
    return struct.pack("<%dI" % len(words), *words) + b"".join(records)


def whole(records):
    """Made, checked, listed and taken out."""
    names = [write("%d.record" % i, record) for i, record in enumerate(records)]
    totals = b"records %d lost %d\n" % (len(records), sum(map(lost_of, records)))
    shelf = laid_out(records)
    if os.path.lexists("shelf"):
        os.remove("shelf")
    expect("make", 0, totals, [], "shelf", "make", "shelf", *names)
    check(read("shelf") == shelf, "the shelf is laid out otherwise")
    expect("check", 0, totals, [], "shelf", "check", "shelf")
    expect("check", 0, totals, [], "shelf", "check", "-", stdin=shelf)
    for i, record in enumerate(records):
        expect("take", 0, record, [], "shelf", "take", "shelf", str(i))
    for j in (len(records), 4294967295, 4294967296, 2**64, 10**30):
        expect("past the last", 1, b"refused 19 0\n", ["refused 19: "], "shelf", "take", "shelf", str(j))
    lines = expect("list", 0, None, [], "shelf", "list", "shelf")[1].decode().splitlines()
    check(len(lines) == 1 + len(records), "list: %s" % lines)
    place = 8 + 4 * len(records)
    for i, (line, record) in enumerate(zip(lines[1:], records)):
        edition, _, units, _, scenes, _, width, height, _, _, pictures = struct.unpack_from("<11I", record)
        told = [i, place, len(record), edition, width, height, pictures, units, scenes, lost_of(record)]
        check(line.split()[:10] == list(map(str, told)), "list: %s: %s" % (told, line))
        check(float(line.split()[10]) == struct.unpack_from("<d", record, 56)[0], "list: the index: " + line)
        first = min(struct.unpack_from("<Q", record, 64 + 32 * j)[0] for j in range(units))
        pid, *when = line.split()[11:]
        check(int(pid) == struct.unpack_from("<I", record, 36)[0] and len(when) == 2, "list: the identifier: " + line)
        check(first >= 2**51 or " ".join(when) == date(first), "list: the first packet: " + line)
        place += len(record)
    for name in names:
        os.remove(name)


def refused(records):
    shelf = laid_out(records)
    bad = records[:2] + [b"\x09" + records[2][1:]] + records[3:]
    for name, data, line in (
        ("no byte", b"", b"refused 27 0\n"),
        ("a byte more", shelf + b"\0", b"refused 27 0\n"),
        ("a byte less", shelf[:-1], b"refused 27 0\n"),
        ("a record", records[0], b"refused 27 0\n"),
        ("nine bytes without a record", struct.pack("<2IB", 0, 9, 0), b"refused 27 0\n"),
        ("another edition", laid_out(bad), b"refused 28 2\n"),
    ):
        write("shelf", data)
        said = ["carolsedge shelf: refused %s: " % line.split()[1].decode()]
        for words in (["check", "shelf"], ["list", "shelf"], ["take", "shelf", "0"], ["take", "shelf", "9"],
                      ["add", "shelf", "shelf"]):
            got = expect(name, 1, line, said, "shelf", *words)
            record = "It is a record, no shelf: carolsedge show FILE" in got[2]
            check(record == (name == "a record"), "%s: said %s" % (name, got[2]))
            empty = "It is empty" in got[2] and "cut" not in got[2]
            check(empty == (name == "no byte"), "%s: said %s" % (name, got[2]))
    write("good", records[0])
    write("bad", bad[2])
    write("empty", b"")
    write("shelf", b"old")
    for name, line, said, words in (
        ("a bad record", b"refused 28 1\n", "record 1 is bad: refused 17: ", ["good", "bad", "bad"]),
        ("an empty record", b"refused 28 0\n", "record 0 is empty: refused 16: ", ["empty", "good"]),
        ("4,097 records", b"refused 27 0\n", "at most 4,096", ["good"] * 4097),
        ("4,097 records", b"refused 27 0\n", "4,097 records are too many; a shelf holds at most", ["good"] * 4097),
        ("5,000 records", b"refused 27 0\n", "5,000 records are too many; a shelf holds at most", ["no"] * 5000),
    ):
        got = expect(name, 1, line, [said], "shelf", "make", "shelf", *words)
        check(read("shelf") == b"old", name + ": what stood there has changed")
        check("4,096" not in said or not re.search("altered|not laid out", got[2]), "%s: said %s" % (name, got[2]))
    lost = b"records 4096 lost %d\n" % (4096 * lost_of(records[0]))
    expect("4,096 records", 0, lost, [], "shelf", "make", "shelf", *["good"] * 4096)
    expect("4,096 records", 0, lost, [], "shelf", "check", "shelf")


def replaced(records):
    """make goes over what stands there; that a shelf with records is gone is said, once it is."""
    write("0.record", records[0])
    one = b"records 1 lost %d\n" % lost_of(records[0])
    for name, old, said in (
        ("no records", laid_out([]), []),
        ("a record", laid_out(records[:1]), ["carolsedge shelf: old held 1 record, and is replaced\n"]),
        ("seven", laid_out(records), ["carolsedge shelf: old held 7 records, and is replaced\n"]),
        ("a shelf that is none", laid_out(records) + b"\0", []),
        ("another file", b"old", []),
        ("an empty file", b"", []),
    ):
        write("old", old)
        expect(name, 0, one, said, "shelf", "make", "old", "0.record")
        write("old", old)
        os.chmod("old", 0o444)
        expect(name + ", for none", 0, b"records 0 lost 0\n", said, "shelf", "make", "old")
        os.chmod("old", 0o644)
        write("old", old)
        got = expect(name + ", refused", 1, b"refused 28 1\n", None, "shelf", "make", "old", "0.record", "/dev/null")
        check("is replaced" not in got[2] and read("old") == old, name + ": a refused shelf: " + got[2])
    os.remove("0.record")
    os.remove("old")


def long():
    """Files of zeros behind the head of a shelf of one record. One that is as long as its head says is laid out as a
    shelf, however long it is: its record is refused. A byte more or less is no shelf; past 32 bits nothing is."""
    most = 8 + 4096 * (4 + 32064)  # the longest shelf that is accepted
    for said, length, line in (
        (most, most, b"refused 28 0\n"),
        (most, most - 1, b"refused 27 0\n"),
        (most, most + 1, b"refused 27 0\n"),
        (most + 1, most, b"refused 27 0\n"),
        (most + 1, most + 1, b"refused 28 0\n"),
        (most + 1, most + 2, b"refused 27 0\n"),
        (200000000, 199999999, b"refused 27 0\n"),
        (200000000, 200000000, b"refused 28 0\n"),
        (200000000, 200000001, b"refused 27 0\n"),
        (2**32 - 1, 40000, b"refused 27 0\n"),
        (12, 2**32 + 12, b"refused 27 0\n"),
        (0, 2**32, b"refused 27 0\n"),
    ):
        write("long", struct.pack("<3I", 1, said, 12))
        os.truncate("long", length)
        name = "%d bytes, %d by the head" % (length, said)
        expect(name, 1, line, None, "shelf", "check", "long")
        expect(name + ", page", 1, line if b"28" in line else b"refused 18 0\n", None, "page", "long")
        if length == said:
            expect(name + ", take", 1, line, None, "shelf", "take", "long", "1")
        if length <= most + 1:
            for words in (["take", "long", "1"], ["list", "long"], ["add", "long"]):
                expect("%s, %s" % (name, words[0]), 1, line, None, "shelf", *words)
    write("long", struct.pack("<3I", 4097, 2**32 - 1, 12))
    os.truncate("long", 2**32 - 1)
    little = {"preexec_fn": lambda: resource.setrlimit(resource.RLIMIT_AS, (2**29, 2**29))}
    expect("4,097 records by the head", 1, b"refused 27 0\n", None, "shelf", "check", "long", **little)
    expect("4,097 records by the head, page", 1, b"refused 17 0\n", None, "page", "long", **little)
    os.remove("long")
    for length in (most, most + 1):
        piped = struct.pack("<3I", 1, length, 12) + bytes(length - 12)
        expect("a pipe", 1, b"refused 28 0\n", None, "shelf", "check", "-", stdin=piped)
    expect("an endless file", 1, b"refused 27 0\n", None, "shelf", "check", "/dev/zero")


def largest():
    """A shelf of 4,096 largest records, 131 MB, is added to and made in little more than twice its size of memory."""
    units = b"".join(struct.pack("<QQ4I", i, i, 184, 1, 0, 0) for i in range(750))
    scenes = b"".join(struct.pack("<8I", 3 * i, 3, 0, 0, 0, 0, 0, 0) for i in range(250))
    head = struct.pack("<14IQ", 4, 32064, 750, 64, 250, 24064, 640, 480, 40000, 256, 750, 1000, 0, 0, 0)
    record = head + units + scenes
    write("most", record)
    write("shelf", laid_out([record] * 4095))
    little = {"preexec_fn": lambda: resource.setrlimit(resource.RLIMIT_AS, (300 * 2**20, 300 * 2**20))}
    expect("added to", 0, b"records 4096 lost 0\n", [], "shelf", "add", "shelf", "most", **little)
    check(os.stat("shelf").st_size == 8 + 4096 * (4 + 32064), "the longest shelf has another length")
    os.remove("shelf")
    expect("made", 0, b"records 4096 lost 0\n", [], "shelf", "make", "shelf", *["most"] * 4096, **little)
    os.remove("shelf")
    os.remove("most")


def added(records):
    """Records after those of a shelf; where that is refused the shelf stays, and nothing else is left."""
    names = [write("%d.record" % i, record) for i, record in enumerate(records)]
    write("bad", b"\x09" + records[0][1:])
    for old in range(len(records) + 1):
        for new in (names[old:], [*names[old:], *names[:2]], []):
            write("shelf", laid_out(records[:old]))
            os.chmod("shelf", 0o640)
            all = records[:old] + [read(name) for name in new]
            totals = b"records %d lost %d\n" % (len(all), sum(map(lost_of, all)))
            expect("add", 0, totals, [], "shelf", "add", "shelf", *new)
            check(read("shelf") == laid_out(all), "%d records and %d more are laid out otherwise" % (old, len(new)))
            check(os.stat("shelf").st_mode & 0o777 == 0o640, "add: another mode")
    expect("from standard input", 0, None, [], "shelf", "add", "shelf", "-", stdin=records[3])
    check(read("shelf") == laid_out(records + [records[3]]), "add: a record from standard input")
    two = laid_out(records[:2])
    before = sorted(os.listdir("."))
    for name, shelf, status, line, said, words in (
        ("a bad record", two, 1, b"refused 28 3\n", "record 3 is bad: refused 17: ", ["0.record", "bad"]),
        ("no shelf", two + b"\0", 1, b"refused 27 0\n", "refused 27: ", ["0.record"]),
        ("a bad one in it", laid_out([records[0], read("bad")]), 1, b"refused 28 1\n", "refused 28: ", ["0.record"]),
        ("4,097 records", two, 1, b"refused 27 0\n", "at most 4,096", ["0.record"] * 4095),
        ("4,097 records", two, 1, b"refused 27 0\n",
         "with 4,095 records more it would hold 4,097; a shelf holds at most 4,096: shelf\n", ["0.record"] * 4095),
        ("5,000 records", two, 1, b"refused 27 0\n", "5,000 records are too many; a shelf holds", ["no"] * 5000),
        ("no record", two, 2, b"", "nowhere: No such file or directory", ["0.record", "nowhere"]),
        ("itself", two, 2, b"", "shelf: it is the same file as shelf, which is read", ["shelf"]),
        ("standard input twice", two, 2, b"", "-: standard input is one RECORD", ["-", "-"]),
    ):
        write("shelf", shelf)
        expect(name, status, line, [said], "shelf", "add", "shelf", *words)
        check(read("shelf") == shelf, name + ": the shelf has changed")
        check(sorted(os.listdir(".")) == before, name + ": something was left")
    os.remove("shelf")
    expect("4,095 records", 0, None, None, "shelf", "make", "shelf", *["0.record"] * 4095)
    totals = b"records 4096 lost %d\n" % (4096 * lost_of(records[0]))
    expect("4,096 records", 0, totals, [], "shelf", "add", "shelf", "0.record")
    full = "refused 27: it is full: it holds 4,096 records; a shelf holds at most 4,096: shelf\nMake another shelf: "
    got = expect("a full shelf", 1, b"refused 27 0\n", [full], "shelf", "add", "shelf", "0.record")
    check("altered" not in got[2] and "not laid out" not in got[2], "a full shelf: said " + got[2])
    os.symlink("shelf", "link")
    expect("a link", 2, b"", ["it is a symbolic link, and is left alone"], "shelf", "add", "link", "0.record")
    made_new = ["new: No such file or directory\ncarolsedge shelf make new RECORD.. makes a new shelf"]
    expect("nothing there", 2, b"", made_new, "shelf", "add", "new", "0.record")
    meanwhile(records)
    for name in [*names, "bad", "link", "shelf"]:
        os.remove(name)


def meanwhile(records):
    """A shelf that somebody else replaced while it was added to is left as it then is."""
    for name, other, said in (
        ("another shelf", laid_out(records[:3]), b"another file than the one that was read"),
        ("a file", b"other", b"another file than the one that was read"),
        ("nothing", None, b"shelf: No such file or directory"),
    ):
        write("shelf", laid_out(records[:1]))
        words = [PROGRAMS["carolsedge"], "shelf", "add", "shelf", "-"]
        run = subprocess.Popen(words, stdin=subprocess.PIPE, stdout=subprocess.PIPE, stderr=subprocess.PIPE)
        run.stdin.write(records[1][:1])
        taken(run)  # which comes behind locking the shelf
        os.remove("shelf") if other is None else os.replace(write("other", other), "shelf")
        out, err = run.communicate(records[1][1:], timeout=20)
        check((run.returncode, out) == (2, b"") and said in err, "%s: %d %r %r" % (name, run.returncode, out, err))
        check((read("shelf") if other else os.path.lexists("shelf")) == (other or False), name + ": it was replaced")
        expect.count += 1
    three = laid_out(records[:3])
    write("shelf", laid_out([]))
    os.remove("shelf")
    words = [PROGRAMS["carolsedge"], "shelf", "make", "shelf", "-"]
    run = subprocess.Popen(words, stdin=subprocess.PIPE, stdout=subprocess.PIPE, stderr=subprocess.PIPE)
    run.stdin.write(records[1][:1])
    taken(run)
    write("shelf", three)
    _, err = run.communicate(records[1][1:], timeout=20)
    said = b"shelf: it is a file that another program has made meanwhile, and is left alone"
    check(run.returncode == 2 and said in err and read("shelf") == three, "made meanwhile: %r" % err)
    expect.count += 1


def empty_files():
    """An empty file is said to be empty, whatever it should have been; a record or a shelf not cut short or altered."""
    write("empty", b"")
    raw = ["--size", "64x48", "--time", "40000", "--pid", "256", "-o", "new"]
    for line, *words in (
        (b"refused 16 0\n", "show", "empty"),
        (b"refused 16 0\n", "sheet", "empty"),
        (b"refused 16 0\n", "page", "empty"),
        (b"refused 27 0\n", "shelf", "list", "empty"),
        (b"refused 11 0\n", "survey", "empty"),
        (b"refused 11 0\n", "measure", "empty", "good", *raw),
    ):
        got = expect("an empty file", 1, line, ["\nIt is empty: "], *words)
        misled = re.search("cut|altered|no record", got[2])
        check(not misled or line == b"refused 11 0\n", "an empty file: %s: %s" % (words, got[2]))


def wrong_words():
    for name, said, *words in (
        ("no word", "check, make, add, take or list is missing"),
        ("another word", "open: not check, make, add, take or list", "open", "shelf"),
        ("no shelf", "FILE is missing", "check"),
        ("no record number", "J is missing", "take", "shelf"),
        ("no such number", "x: not the number of a record", "take", "shelf", "x"),
        ("a word too many", "more: a word too many", "list", "shelf", "more"),
        ("no name", "OUT is missing", "make"),
        ("standard output", "OUT -: not the name of a file", "make", "-", "good"),
        ("no name to add to", "FILE is missing", "add"),
        ("standard input to add to", "FILE -: not the name of a file", "add", "-", "good"),
        ("standard input twice", "-: standard input is one RECORD", "make", "new", "-", "-"),
        ("no file", "nowhere: No such file or directory", "check", "nowhere"),
        ("no record", "nowhere: No such file or directory", "make", "new", "good", "nowhere"),
        ("a record's own name", "good: it is the same file as good", "make", "good", "good"),
        ("a folder", "it is a folder, and is left alone", "make", ".", "good"),
    ):
        expect(name, 2, b"", [said], "shelf", *words)
    check(not os.path.lexists("new"), "a run with wrong words made a shelf")


def test():
    records = [made(random.Random(seed), edition=1 + seed % NEWEST) for seed in range(7)]
    whole(records)
    whole(records[:1] * 3)
    whole([])
    added(records)
    refused(records)
    replaced(records)
    long()
    largest()
    empty_files()
    wrong_words()
    expect("from standard input", 0, None, [], "shelf", "make", "new", "-", "good", stdin=records[1])
    check(read("new") == laid_out([records[1], records[0]]), "a record from standard input")
    return "shelf: %d runs: made, added to, checked, listed and taken out again byte for byte" % counted()
