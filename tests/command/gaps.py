# gaps: tables worked by hand, their totals, the refusal with its exit status, and words. tests/gaps compares.
from common import check, counted, expect


def test():
    for n, table in ((0, [1]), (1, [2] + [1] * 14)):
        expect("%d gaps" % n, 0, "".join("%d\n" % entry for entry in table).encode(), [], "gaps", str(n))
    for n in range(16):
        entries = [int(line) for line in expect("%d gaps" % n, 0, None, [], "gaps", str(n))[1].split()]
        check(len(entries) == 14 * n + 1 and sum(entries) == 16**n, "the entries of %d gaps" % n)
    expect("hexadecimal", 0, b"1\n", [], "gaps", "0x0")
    for n in ("16", "4294967295", "4294967296", "0x100000000", "18446744073709551616", "9" * 30):
        expect(n + " gaps", 1, b"refused 24 0\n", ["carolsedge gaps: refused 24: "], "gaps", n)
    for word in ("", "x", "1.0", "4294967296x"):
        expect("gaps " + word, 2, b"", ["%s: not a number of gaps" % word], "gaps", word)
    expect("no number", 2, b"", ["N is missing"], "gaps")
    expect("two numbers", 2, b"", ["2: a word too many"], "gaps", "1", "2")
    expect("an option", 2, b"", ["-1: no such option"], "gaps", "-1")
    return "gaps: %d runs: tables of 0 to 15 gaps" % counted()
