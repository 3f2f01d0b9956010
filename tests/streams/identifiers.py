#!/usr/bin/env python3
"""Counts what tshark says of every PID: tshark -r CAPTURE -T fields -e mp2t.pid -e mp2t.tei | identifiers.py NAME.
Prints a line a PID: the name, the PID, its packets, and those of them that have the transport error indicator."""
import sys

packets, marked = {}, {}
for line in sys.stdin:
    fields = line.split()
    if not fields:
        continue
    pids, marks = (field.split(",") for field in fields)
    if len(pids) != len(marks):
        sys.exit("identifiers.py: tshark names not as many identifiers as marks")
    for pid, mark in zip((int(pid, 16) for pid in pids), marks):
        packets[pid] = packets.get(pid, 0) + 1
        marked[pid] = marked.get(pid, 0) + int(mark)
for pid in sorted(packets):
    print(sys.argv[1], pid, packets[pid], marked[pid])
