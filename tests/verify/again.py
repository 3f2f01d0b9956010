# Records from standard input (tests/independent/FORMAT.md, 14) through bindings/python, every STEPth of them, in the
# independent program's words: `verify` its line, `show` the lines of a record. Usage: again.py verify|show STEP.
import os
import struct
import sys

ROOT = os.path.dirname(os.path.dirname(os.path.dirname(os.path.abspath(__file__))))
sys.path.insert(0, os.path.join(ROOT, "bindings", "python"))
import carolsedge


def bits(number):
    return "%016X" % struct.unpack("<Q", struct.pack("<d", number))


def verified(record):
    try:
        reached = carolsedge.verify(record)
    except carolsedge.NotSealed as no:
        return "not sealed %d %d %d %d\n" % (no.mark, no.row, no.found, no.limit)
    except carolsedge.Refusal as refusal:
        return "refused %d 0\n" % refusal.number
    return " ".join(["reached", *map(str, reached[:4]), *map(bits, reached[4:])]) + "\n"


def shown(record):
    read = carolsedge.read(record)
    lines = [["sample", *read.header[1:9], bits(read.header.index)]]
    lines += [["unit", j, *unit[:5]] for j, unit in enumerate(read.units)]
    lines += [["scene", j, *scene] for j, scene in enumerate(read.scenes)]
    return "".join(" ".join(map(str, line)) + "\n" for line in lines)


def main():
    said, step = {"verify": verified, "show": shown}[sys.argv[1]], int(sys.argv[2])
    number = 0
    while head := sys.stdin.buffer.read(4):
        record = sys.stdin.buffer.read(*struct.unpack("<I", head))
        number += 1
        if number % step == 0:
            sys.stdout.write(said(record))


main()
