# explain: every refusal has its meaning and what mends it, and a refused run says the same.
from common import check, counted, expect


def test():
    all = expect("all", 0, None, [], "explain")[1].decode()
    number = 0
    told = []
    while "\n%d: " % (number + 1) in "\n" + all:
        number += 1
        text = expect("explain %d" % number, 0, None, [], "explain", str(number))[1].decode()
        check(text in all and text.startswith("%d: " % number), "explain %d: %s" % (number, text))
        meaning, mends = text.splitlines()
        check(len(mends.strip()) > 20 and mends not in told[:-1], "explain %d: %s" % (number, mends))
        told.append(mends)
    check(number >= 28, "explain knows refusals up to %d" % number)
    expect("hexadecimal", 0, None, [], "explain", "0x10")
    for word in ("0", str(number + 1), "x", "-1", "", "1.0", "4294967297"):
        said = "no such option" if word.startswith("-") else "%s: not 1 to %d" % (word, number)
        expect("explain " + word, 2, b"", [said], "explain", word)
    expect("two numbers", 2, b"", ["2: a word too many"], "explain", "1", "2")
    return "explain: %d runs: %d refusals" % (counted(), number)
