# loss: lists worked by hand, their refusals with the exit status, and words; a record's losses with probabilities by
# lines, beside the same numbers on standard input. tests/loss compares at random.
import random
import struct
from common import check, counted, expect, proved, run, stream, typed, write

NOT_A_NUMBER = float("nan")


def lists(losses, probabilities):
    n = len(losses)
    return struct.pack("<I%dI%dd" % (n, len(probabilities)), n, *losses, *probabilities)


def lines(keys, plain):
    bits = lambda x: struct.unpack("<Q", struct.pack("<d", x))[0]
    return "".join("%016X %016X\n" % (bits(k), bits(p)) for k, p in zip(keys, plain)).encode()


def of_files(record, losses):
    """A record's losses and probabilities by lines print what the same numbers on standard input do."""
    pick, n, asked = random.Random(8), len(losses), ("loss", "--record", "record", "--keys", "keys")
    for name, numbers, end in (
        ("zeros", [0.0] * n, "\n"),
        ("ones", [1.0] * n, "\r\n"),
        ("key frames every 12 units", [float(j % 12 == 9) for j in range(n)], "\n"),
        ("numbers from all over", [pick.random() for _ in range(n)], "\n"),
        ("small numbers", [pick.choice((5e-324, 0.01, 0.5, 1e-3, -0.0)) for _ in range(n)], "\n"),
    ):
        want = expect(name, 0, None, [], "loss", stdin=lists(losses, numbers))[1]
        check(want.count(b"\n") == n, name + ": not a line a unit")
        text = end.join(map(repr, numbers)).encode()
        for data in (text, text + end.encode()):
            write("keys", data)
            expect(name, 0, want, [], *asked)
        expect(name, 0, want, [], "loss", "--keys=-", "--record=record", stdin=data)
        expect(name, 0, want, [], "loss", "--keys", "keys", "--record", "-", stdin=record)


def wrong_files(record, n):
    asked = ("loss", "--record", "record", "--keys", "keys")
    for line, text in ((1, b""), (7, b"x"), (n, b" 0.5"), (2, b"0,5"), (3, b"0.5 "), (4, b"0x1"), (5, b"\xff")):
        write("keys", b"".join((text if j == line else b"0.5") + b"\n" for j in range(1, n + 1)))
        expect("line %r" % text, 2, b"", ["carolsedge loss: keys: line %d: not a decimal number\n" % line], *asked)
    for name, data, number, said in (
        ("no lines", b"", 22, "record has %d units, and keys has no lines" % n),
        ("a line short", b"0\n" * (n - 1), 22, "keys has %d lines" % (n - 1)),
        ("a line long", b"0\n" * (n + 1), 22, "keys has %d lines" % (n + 1)),
        ("many lines", b"0\n" * 10**6, 22, "keys has more than 750 lines"),
        ("above 1", b"1\n" * (n - 1) + b"1.5\n", 23, "keys: line %d: 1.5\n" % n),
        ("below 0", b"-5e-324\n" + b"1\n" * (n - 1), 23, "keys: line 1: -5e-324\n"),
        ("no number", b"nan\n" * n, 23, "keys: line 1: NaN\n"),
    ):
        write("keys", data)
        expect(name, 1, b"refused %d 0\n" % number, ["carolsedge loss: refused %d: " % number, said], *asked)
    write("keys", b"x\n")
    for name, data, number in (
        ("63 bytes", record[:63], 16),
        ("another edition", b"\x09" + record[1:], 17),
        ("a byte short", record[:-1], 18),
        ("a byte long", record + b"\0", 18),
    ):
        write("record", data)
        expect(name, 1, b"refused %d 0\n" % number, ["carolsedge loss: refused %d: " % number], *asked)
    write("record", record)


def wrong_words():
    for name, said, *words in (
        ("a word", "x: a word too many", "x"),
        ("an option", "--all: no such option", "--all"),
        ("a record alone", "--keys FILE is missing", "--record", "record"),
        ("keys alone", "--record RECORD is missing", "--keys", "keys"),
        ("no word behind", "--keys: a word is missing", "--record", "record", "--keys"),
        ("twice", "--keys: given twice", "--keys", "keys", "--keys", "keys"),
        ("both on standard input", "-: RECORD and FILE cannot both", "--record", "-", "--keys", "-"),
    ):
        told = ["carolsedge loss: " + said, "carolsedge loss --help"]
        expect(name, 2, b"", told, "loss", *words, stdin=lists([1], [0.5]))
    for name, said, *words in (
        ("no such record", "nowhere: No such file or directory", "--record", "nowhere", "--keys", "keys"),
        ("no such keys", "nowhere: No such file or directory", "--record", "record", "--keys", "nowhere"),
        ("a folder", ".: Is a directory", "--record", "record", "--keys", "."),
        ("an endless file", "/dev/zero: line 1: not a decimal", "--record", "record", "--keys", "/dev/zero"),
        ("a long line", "long: more than 1,048,576 bytes", "--record", "record", "--keys", "long"),
    ):
        write("long", b"0." + b"5" * 2**20)
        expect(name, 2, b"", ["carolsedge loss: " + said], "loss", *words)


def test():
    for name, losses, probabilities, keys, plain in (
        ("nothing is a key frame", [3, 0], [0, 0], [0, 0], [3, 3]),
        ("by halves", [0, 4, 0], [0, 1, 0.5], [0, 4, 2], [0, 0, 0]),
        ("a half is none", [4, 0, 0], [0.5, 1, 0.5], [0, 0, 0], [4, 0, 0]),
        ("too little is left", [128, 0], [0, 127 / 128], [0, 0], [127, 0]),
        ("0.01 is passed over", [1, 0], [-0.0, 0.01], [0, 0], [1, 1]),
        ("750 units", [1] + [0] * 749, [1] + [0] * 749, [1] * 750, [0] * 750),
    ):
        expect(name, 0, lines(keys, plain), [], "loss", stdin=lists(losses, probabilities))
    whole = lists([1, 2], [0.5, 0.5])
    for name, data, number in (
        ("nothing", b"", 22),
        ("no units", lists([], []), 22),
        ("751 units", lists([0] * 751, [0] * 751), 22),
        ("many units", struct.pack("<I", 0xFFFFFFFF) + bytes(100000), 22),
        ("a byte short", whole[:-1], 22),
        ("a byte long", whole + b"\0", 22),
        ("a probability short", lists([1, 2], [NOT_A_NUMBER]), 22),
        ("no number", lists([0, 0], [0, NOT_A_NUMBER]), 23),
        ("below 0", lists([0], [-5e-324]), 23),
        ("above 1", lists([0], [1 + 2.0**-52]), 23),
    ):
        expect(name, 1, b"refused %d 0\n" % number, ["carolsedge loss: refused %d: " % number], "loss", stdin=data)
    record = proved(64, 48, 40000, 256, stream("dropped", ".pcap"), stream("dropped", ".y"))[0]
    write("record", record)
    shown = run(program="show", stdin=record)[1].decode().splitlines()
    losses = [int(line.split()[-1]) for line in shown if line.startswith("unit ")]
    check(sum(losses) > 0, "the record has no losses")
    of_files(record, losses)
    write(b"\xff.record", record)
    write("keys", b"0\n" * len(losses))
    expect("a name that is no text", 0, None, [], "loss", b"--record=\xff.record", "--keys=keys")
    wrong_files(record, len(losses))
    wrong_words()
    typed("LISTS", "loss")
    return "loss: %d runs: lists worked by hand, a record's losses, and refusals" % counted()
