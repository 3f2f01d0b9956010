#!/usr/bin/env python3
"""A receiver's damage, put into a capture: some cells of PID 256 and of others get the transport error indicator.
damage.py mark IN OUT: sets 0x80 in byte 1 of those cells, and prints how many of PID 256 it marked.
damage.py null IN OUT: turns the same cells into null packets (identifier 8191), as if the receiver had dropped them.
damage.py same MARKED NULLED: compares two records by edition 4: they differ in the words 28 and in word 52 alone.
Prints the sum of the words 28 of the first, and how much its word 52 is above the other's."""
import struct
import sys

PID = 256


def chosen(pid, n):
    """Whether the n-th cell of an identifier, from 0, is damaged: the first, every ninth, a run of three, the last."""
    return n % 9 == 0 or n in (40, 41, 42, 158) if pid == PID else n % 4 == 1


def cells(capture):
    """The places of the cells: of UDP datagrams of 188 bytes each, as the stored captures have them."""
    at = 24
    while at < len(capture):
        stored = struct.unpack_from("<I", capture, at + 8)[0]
        yield from range(at + 16 + 42, at + 16 + stored - 187, 188)
        at += 16 + stored


def altered(capture, alter):
    capture, seen, many = bytearray(capture), {}, 0
    for at in cells(capture):
        pid = capture[at + 1] % 32 * 256 + capture[at + 2]
        n = seen[pid] = seen.get(pid, -1) + 1
        if chosen(pid, n):
            alter(capture, at)
            many += pid == PID
    return capture, many


def mark(capture, at):
    capture[at + 1] |= 0x80


def null(capture, at):
    capture[at : at + 4] = bytes([0x47, 0x1F, 0xFF, 0x10])


def parts(record):
    """A record's words 28, its word 52, and all the rest."""
    units = struct.unpack_from("<I", record, 8)[0]
    damaged = [struct.unpack_from("<I", record, 64 + 32 * j + 28)[0] for j in range(units)]
    rest = bytearray(record)
    for at in [52] + [64 + 32 * j + 28 for j in range(units)]:
        rest[at : at + 4] = bytes(4)
    return damaged, struct.unpack_from("<I", record, 52)[0], rest


def main(kind, first, second):
    one = open(first, "rb").read()
    if kind == "same":
        damaged, bad, rest = parts(one)
        none, before, other = parts(open(second, "rb").read())
        if rest != other or any(none):
            sys.exit("damage.py: the records differ elsewhere than in word 52 and the words 28")
        print(sum(damaged), bad - before)
        return
    capture, many = altered(one, {"mark": mark, "null": null}[kind])
    open(second, "wb").write(capture)
    print(many)


main(*sys.argv[1:])
