"""Reads records and verifies them by the proved library, libcarolsedge.so, which `make python` builds.

    import carolsedge

    data = open("seat.record", "rb").read()
    record = carolsedge.read(data)              # Refusal 16, 17 or 18 if the rule does not allow these bytes
    print(record.header.index, sum(unit.lost for unit in record.units))
    print(carolsedge.verify(data))              # NotSealed if no seal leaves such a record
    # 3.25 = 1 + 4 x (75 / 100) x (3 / (3 + 1))

The library is looked for in the folder that the environment variable CAROLSEDGE_LIB_DIR names, or else next to this
file, where `make install-python` puts both, and then where `make python` builds it.
"""
import ctypes
import os
import struct
from typing import List, NamedTuple

__version__ = "0.1.0"

LIBRARY = "libcarolsedge.so"
NOT_SEALED = 100

REFUSALS = {
    16: "the record has fewer than 64 bytes",
    17: "the record's edition is one that there is not",
    18: "the bytes are no record that the rule allows",
    19: "the record has no row, or the shelf no record, with that number",
}

# What every sealed record has (docs/RULE.md, 30), and what is said where it is missing.
MARKS = {
    1: "its frames and packets take {found} bytes; a capture has at most {limit}",
    2: "it has {found} packets; the frames that carried have room for at most {limit}",
    3: "it has {found} scenes; so many pictures have at most {limit}",
    4: "unit {row} lost {found} packets; at most {limit} can be missing before its packets",
    5: "unit {row} has a packet at {found} microseconds; a capture's times end at {limit}",
    6: "scene {row} has {found} repeated pictures; at most {limit} of its pictures can be repeated",
    7: "scene {row} has a run of {found} repeated pictures; it has {limit} repeated pictures in all",
    8: "scene {row} has {found} repeated pictures; runs as long as its longest hold at most {limit}",
    9: "scene {row} has a greatest cut score of {found}; the sum of its cut scores is {limit}",
    10: "scene {row} has a greatest cut score of {found}; a cut score is at most {limit}",
    11: "scene {row} has cut scores of {found} in all; its greatest one allows at most {limit}",
    12: "scene {row} has changes of {found} in all; its pictures allow at most {limit}",
    13: "scene {row} begins without a cut: its greatest cut score is {found}, and a cut has at least {limit}",
    14: "scene {row} begins at picture {found}; no scene begins after picture {limit}",
    15: "scene {row} lasts {found} microseconds; one that another follows lasts at least {limit}",
    16: "index {found} is in the header, the rows reach {limit}",
}
INDEX_MARK = 16


class Refusal(ValueError):
    """Bytes that the reader refuses: 16, 17 or 18; or a row that a record does not have: 19."""

    def __init__(self, number):
        super().__init__("refused %d: %s" % (number, REFUSALS[number]))
        self.number = number


class NotSealed(ValueError):
    """A record that no seal leaves: the first mark that is missing, its row (0 where it is about the whole record),
    what was found, and the most or the least that may be there; of mark 16 both are the bits of an index."""

    def __init__(self, mark, row, found, limit):
        said = [repr(_double(bits)) if mark == INDEX_MARK else format(bits, ",") for bits in (found, limit)]
        super().__init__("not sealed: " + MARKS[mark].format(row=row, found=said[0], limit=said[1]))
        self.mark, self.row, self.found, self.limit = mark, row, found, limit


class Header(NamedTuple):
    """The figures of a record's header; `time` is a picture's, in microseconds."""

    edition: int
    width: int
    height: int
    time: int
    pid: int
    pictures: int
    frames: int
    skipped: int
    bad: int
    index: float


class Unit(NamedTuple):
    """A row of the units; times are in microseconds since 1970."""

    least: int
    greatest: int
    size: int
    packets: int
    lost: int
    damaged: int


class Scene(NamedTuple):
    """A row of the scenes; cut scores (`score` is their sum, `peak` the greatest) are millionths."""

    first: int
    pictures: int
    repeated: int
    longest: int
    score: int
    peak: int
    change: int


class Record(NamedTuple):
    """A record that the rule allows."""

    header: Header
    units: List[Unit]
    scenes: List[Scene]


class Reached(NamedTuple):
    """What the rows of a record add up to, and the index that they reach, which is the one in its header."""

    unrepeated: int
    pictures: int
    packets: int
    lost: int
    ic: float
    ip: float
    index: float

    def __str__(self):
        f, n, p, l = self[:4]
        return "%r = 1 + 4 x (%d / %d) x (%d / (%d + %d))" % (self.index, f, n, p, p, l)


def read(data):
    """The record of these bytes, all of it, or Refusal 16, 17 or 18."""
    edition, units, scenes, *figures, index = _asked("read_header", data, 12)
    header = Header(edition, *figures, _double(index))
    return Record(header, [unit(data, j) for j in range(units)], [scene(data, j) for j in range(scenes)])


def unit(data, j):
    """Unit row j, from 0, or Refusal 16 to 19."""
    return Unit(*_asked("read_unit", data, 6, _row(j)))


def scene(data, j):
    """Scene row j, from 0, or Refusal 16 to 19."""
    return Scene(*_asked("read_scene", data, 7, _row(j)))


def verify(data):
    """What the rows of a record reach, where it could have been sealed; otherwise NotSealed, or Refusal 16, 17 or 18.

    A record is not signed: that somebody sealed it is not said."""
    figures = _asked("verify", data, 11)
    if figures[0] != 0:
        raise NotSealed(*figures[:4])
    return Reached(*figures[4:8], *map(_double, figures[8:]))


def _asked(name, data, count, *row):
    """So many 64-bit figures, as a function of the library gives them of a record."""
    data = bytes(data)
    figures = (ctypes.c_uint64 * count)()
    number = getattr(_library(), "carolsedge_" + name)(data, ctypes.c_size_t(len(data)), *row, figures)
    if number not in (0, NOT_SEALED):
        raise Refusal(number)
    return list(figures)


def _row(j):
    """A number that does not fit is past every count."""
    most = 2 ** (8 * ctypes.sizeof(ctypes.c_size_t)) - 1
    return ctypes.c_size_t(j if 0 <= j < most else most)


def _double(bits):
    return struct.unpack("<d", struct.pack("<Q", bits))[0]


def _library(loaded=[]):
    if not loaded:
        here = os.path.dirname(os.path.abspath(__file__))
        folders = [here, os.path.normpath(os.path.join(here, "..", "..", "target", "staticlib"))]
        if "CAROLSEDGE_LIB_DIR" in os.environ:
            folders = [os.environ["CAROLSEDGE_LIB_DIR"]]
        found = [folder for folder in folders if os.path.isfile(os.path.join(folder, LIBRARY))]
        if not found:
            raise FileNotFoundError("%s is not in %s: `make python` builds it" % (LIBRARY, " or ".join(folders)))
        loaded.append(ctypes.CDLL(os.path.join(found[0], LIBRARY)))
    return loaded[0]
