# sheet: the pages of the proved program, byte for byte, and its refusals with their exit status.
import random
from common import NEWEST, counted, expect, proved, run, stream, write
from show import made


def same(name, record):
    write("record", record)
    pages = run(program="sheet", stdin=record)[1]
    expect(name, 0, pages, [], "sheet", "record")
    expect(name, 0, pages, [], "sheet", "-", stdin=record)


def test():
    record = proved("64", "48", "40000", "256", stream("clip", ".pcap"), stream("clip", ".y"))[0]
    same("clip", record)
    for seed in range(20):
        same("seed %d" % seed, made(random.Random(seed), edition=1 + seed % NEWEST))
    for name, data, number in (
        ("63 bytes", record[:63], 16),
        ("another edition", b"\x09" + record[1:], 17),
        ("one byte short", record[:-1], 18),
        ("one byte long", record + b"\0", 18),
    ):
        write("record", data)
        expect(name, 1, b"refused %d 0\n" % number, ["carolsedge sheet: refused %d: " % number], "sheet", "record")
    expect("no record", 2, b"", ["RECORD is missing"], "sheet")
    expect("no file", 2, b"", ["nowhere: No such file or directory"], "sheet", "nowhere")
    return "sheet: %d runs: the proved program's pages, byte for byte" % counted()
