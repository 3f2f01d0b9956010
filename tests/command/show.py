# show: the lines of the proved program, every figure as JSON and CSV, and a page for people.
import csv
import datetime
import io
import json
import math
import random
import struct
from common import NEWEST, check, counted, expect, proved, read, run, stream, streams, write

UNIT = ["least", "greatest", "size", "packets", "lost"]  # as the lines have them
DAMAGED = 4  # the edition from which on damaged packets are known
SCENE = ["first", "pictures", "repeated", "longest", "score", "peak", "change"]
SAMPLE = ["width", "height", "time", "pid", "pictures", "frames", "skipped", "bad"]


def made(pick, bits=None, edition=1):
    """An allowed record with figures from all over."""
    units, scenes = pick.randint(1, 40), pick.randint(1, 9)
    cuts = [0] + sorted(pick.sample(range(1, 700), scenes - 1)) + [700]
    index = pick.getrandbits(64) if bits is None else bits
    counts = [edition, 64 + 32 * (units + scenes), units, 64, scenes, 64 + 32 * units]
    sample = [640, 480, 40000, 8191, 700, 2**32 - 1, pick.getrandbits(32), pick.getrandbits(32)]
    out = struct.pack("<14IQ", *counts, *sample, index)
    for _ in range(units):
        times = sorted(pick.getrandbits(pick.choice((20, 51, 64))) for _ in range(2))
        cells = pick.randint(1, (2**32 - 1) // 184)
        damaged = pick.getrandbits(32) if edition >= DAMAGED else 0
        out += struct.pack("<QQ4I", *times, 184 * cells, cells, pick.getrandbits(32), damaged)
    for a, b in zip(cuts, cuts[1:]):
        out += struct.pack("<8I", a, b - a, *(pick.getrandbits(32) for _ in range(5)), 0)
    return out


def figures(lines):
    """The figures in the lines of the proved program."""
    rows = [line.split() for line in lines.decode().splitlines()]
    sample = dict(zip(SAMPLE, map(int, rows[0][1:9])), index_bits=rows[0][9])
    unit = [dict(zip(UNIT, map(int, row[2:]))) for row in rows if row[0] == "unit"]
    scene = [dict(zip(SCENE, map(int, row[2:]))) for row in rows if row[0] == "scene"]
    return sample, unit, scene


def same_json(name, text, sample, unit, scene):
    got = json.loads(text)
    index = got.pop("index")
    bits = int(sample["index_bits"], 16)
    value = struct.unpack("<d", struct.pack("<Q", bits))[0]
    check(index == (value if math.isfinite(value) else None), "%s: index %s" % (name, index))
    check((got.pop("units"), got.pop("scenes")) == (unit, scene), name + ": other rows in JSON")
    check(got == sample, name + ": another sample in JSON")


def same_csv(name, text, sample, unit, scene):
    rows = list(csv.reader(io.StringIO(text.decode())))
    kinds = [("sample", ["edition"] + SAMPLE + ["index_bits"], [sample])]
    kinds += [("unit", UNIT + ["damaged"], unit), ("scene", SCENE, scene)]
    for kind, names, want in kinds:
        heading, *found = [row for row in rows if row[0] == kind]
        check(all(len(row) == len(heading) for row in found), name + ": CSV rows of another length")
        found = [dict(zip(heading[1:], row[1:])) for row in found]
        check(len(found) == len(want), name + ": CSV has other rows")
        for j, (a, b) in enumerate(zip(found, want)):
            check(all(a[key] == str(b[key]) for key in names), "%s: CSV %s %d: %s" % (name, kind, j, a))
            check(kind == "sample" or a["number"] == str(j), "%s: CSV number %s" % (name, a))


def date(time, form="%Y-%m-%d %H:%M:%S.%f"):
    """A time before the year 10000."""
    return (datetime.datetime(1970, 1, 1) + datetime.timedelta(microseconds=time)).strftime(form)


def span(first, last):
    """Both to the second, the day once where it is one."""
    day, end = "%Y-%m-%d ", "%H:%M:%S"
    same = date(first, day) == date(last, day)
    return "%s to %s" % (date(first, day + end), date(last, end if same else day + end))


def on_page(name, text, sample, unit, scene):
    page = text.decode()
    lines = page.splitlines()
    check("(bits %s)" % sample["index_bits"] in page, name + ": no bits on the page")
    check("edition   %d of the rules\n" % sample["edition"] in page, name + ": no edition on the page")
    first, last = min(row["least"] for row in unit), max(row["greatest"] for row in unit)
    if last < 2**51:
        check("  captured  %s UTC\n" % span(first, last) in page, name + ": another time on the page")
    at = 1 + next(i for i, line in enumerate(lines) if line.startswith("   No."))
    for j, row in enumerate(unit):
        words = lines[at + j].replace(",", "").split()
        seconds = ["%d.%06d" % divmod(t, 10**6) for t in (row["least"] - first, row["greatest"] - row["least"])]
        also = ["damaged"] if sample["edition"] >= DAMAGED else []
        wanted = [str(j), *seconds, *(str(row[key]) for key in UNIT[2:] + also)]
        check(words[:1] + words[3:] == wanted, "%s: page: %s" % (name, words))
        if row["least"] < 2**51:
            check(" ".join(words[1:3]) == date(row["least"]), "%s: page: %s" % (name, words))
    at += 1 + next(i for i, line in enumerate(lines[at:]) if line.startswith("   No."))
    for j, row in enumerate(scene):
        words = lines[at + j].replace(",", "").split()
        check(words[0] == str(j) and words[3:] == [str(row[key]) for key in SCENE], "%s: page: %s" % (name, words))


def every_form(name, record):
    write("record", record)
    lines = run(program="show", stdin=record)[1]
    expect(name, 0, lines, [], "show", "--lines", "record")
    expect(name, 0, lines, [], "show", "-", "--lines", stdin=record)
    sample, unit, scene = figures(lines)
    unit = [dict(row, damaged=struct.unpack_from("<I", record, 64 + 32 * j + 28)[0]) for j, row in enumerate(unit)]
    told = dict(sample, edition=record[0]), unit, scene
    same_json(name, expect(name, 0, None, [], "show", "record", "--json")[1], *told)
    same_csv(name, expect(name, 0, None, [], "show", "record", "--csv")[1], *told)
    on_page(name, expect(name, 0, None, [], "show", "record")[1], *told)


def shelved():
    """A shelf is not told to be an altered record, but to be a shelf; one that was altered is."""
    record = made(random.Random(1))
    many = 40  # more bytes than a record may have
    for n in (0, 1, 2, many):
        place = 8 + 4 * n
        offsets = [place + len(record) * j for j in range(n)]
        shelf = struct.pack("<%dI" % (2 + n), n, place + n * len(record), *offsets) + record * n
        number = 16 if n == 0 else 18 if n < 5 else 17
        write("shelf", shelf)
        write("keys", b"0\n")
        told = "It is a shelf of %s: carolsedge shelf list FILE" % (
            "no records" if n == 0 else "1 record" if n == 1 else "%d records" % n)
        for words in (["show", "shelf"], ["show", "shelf", "--lines"], ["sheet", "shelf"],
                      ["loss", "--record", "shelf", "--keys", "keys"]):
            line = b"refused %d\n" % number if "--lines" in words else b"refused %d 0\n" % number
            expect("a shelf of %d" % n, 1, line, [": shelf\n" + told], *words)
        expect("a shelf of %d, piped" % n, 1, b"refused %d 0\n" % number, [told], "show", "-", stdin=shelf)
        write("shelf", shelf + b"\0")
        got = expect("an altered shelf", 1, None, None, "show", "shelf")
        check("shelf of" not in got[2], "a shelf with a byte more: " + got[2])


def broken():
    whole = made(random.Random(1))
    for name, data, number, said in (
        ("nothing", b"", 16, "fewer than 64"),
        ("63 bytes", whole[:63], 16, "cut short"),
        ("another edition", b"\x09" + whole[1:], 17, "later edition"),
        ("one byte short", whole[:-1], 18, "altered or cut"),
        ("one byte long", whole + b"\0", 18, "altered or cut"),
        ("a capture", read(stream("clip", ".pcap")), 17, "no record"),
    ):
        write("record", data)
        for words in (["record"], ["record", "--json"], ["record", "--csv"]):
            told = ["carolsedge show: refused %d: " % number, said]
            expect(name, 1, b"refused %d 0\n" % number, told, "show", *words)
        expect(name, 1, run(program="show", stdin=data)[1], ["refused %d" % number], "show", "record", "--lines")
    expect("an endless file", 1, b"refused 17 0\n", None, "show", "/dev/zero")
    shelved()
    expect("no file", 2, b"", ["nowhere: No such file or directory"], "show", "nowhere")
    expect("a folder", 2, b"", [".: Is a directory"], "show", ".")


def test():
    for name, *opening in streams():
        for edition in range(1, NEWEST + 1):
            every_form(name, proved(*opening, stream(name, ".pcap"), stream(name, ".y"), edition)[0])
    for seed in range(20):
        every_form("seed %d" % seed, made(random.Random(seed), edition=1 + seed % NEWEST))
    for bits in (0, 1, 0x7FF << 52, 0xFFF << 52, 0x7FF8000000000001, 1 << 63, 0x4013D70A3D70A3D7, (0x7FF << 52) - 1):
        every_form("bits %X" % bits, made(random.Random(9), bits))
    broken()
    return "show: %d runs: the proved program's lines, and every figure on the page, in JSON and in CSV" % counted()
