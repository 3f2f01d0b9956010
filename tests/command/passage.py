# measure --passage: the repeated pictures of a passage, printed behind the record's line; a passage that is refused
# leaves the record that was sealed.
import os
from common import capture, check, counted, expect, good, proved, read, write

RUNS = [1, 2, 3, 60, 5, 4]  # pictures alike, one run behind the other; 75 in all
FIRSTS = [sum(RUNS[:i]) for i in range(len(RUNS))]
COUNT = sum(RUNS)


def test():
    write("capture", capture(good(3)))
    write("luma", b"".join(bytes([8 * i]) * (900 * n) for i, n in enumerate(RUNS)))
    record, sealed = proved(30, 30, 40000, 256, "capture", "luma")
    words = ["measure", "capture", "luma", "-o", "record", "--size", "30x30", "--time", "40000", "--pid", "256"]
    for a, b in ((0, COUNT), (0, 0), (COUNT, COUNT), (0, 1), (1, 3), (62, 65), (63, 64), (64, 65), (5, 74), (6, 7)):
        repeats = sum(1 for i in range(a, b) if i not in FIRSTS)
        printed = sealed + b"repeats %d\n" % repeats
        expect("passage", 0, printed, None, *words, "--passage", "%d-%d" % (a, b))
        check(read("record") == record, "a passage made another record")
    expect("hexadecimal", 0, sealed + b"repeats %d\n" % (COUNT - len(RUNS)), None, *words, "--passage=0x0-0x4B")
    for a, b in ((0, COUNT + 1), (1, 0), (COUNT + 1, COUNT + 1), (0, 4294967295), (0, 2**32), (2**32, 2**32),
                 (2**32 + 1, 2**32), (2**32, 0), (0, 10**30)):
        os.remove("record")
        printed = sealed + b"repeats refused 26 0\n"
        said = ["carolsedge measure: refused 26: ", "Name a passage"]
        expect("passage", 1, printed, said, *words, "--passage", "%d-%d" % (a, b))
        check(read("record") == record, "a refused passage undid the record")
    for value in ("", "-", "1", "1-", "-1", "1-2-3", "a-b", "1..2", "0-4294967296x"):
        said = "--passage %s: not two picture numbers" % value
        expect("passage " + value, 2, b"", [said], *words, "--passage", value)
    expect("no luma", 1, b"refused 14 0\n", None, *words[:2], "/dev/null", *words[3:], "--passage", "0-0")
    return "passage: %d runs: within a word of the map, across its border, refused ones" % counted()
