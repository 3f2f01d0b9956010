#!/usr/bin/env python3
"""Counts what tshark says of one PID: tshark -r CAPTURE -T pdml | count.py PID. Prints packets, packets with a start
mark, the skips of its continuity check, and those skips but for the ones before a packet that has the discontinuity
indicator."""
import sys
import xml.etree.ElementTree as tree

pid = int(sys.argv[1])
packets = starts = skips = unmarked = 0
for part in tree.parse(sys.stdin).getroot().iter("proto"):
    if part.get("name") != "mp2t":
        continue
    said = {field.get("name"): field.get("show") for field in part.iter("field")}
    if int(said["mp2t.pid"], 16) != pid:
        continue
    packets += 1
    starts += int(said["mp2t.pusi"])
    skipped = int(said.get("mp2t.analysis.skips", 0))
    skips += skipped
    if said.get("mp2t.af.di", "0") in ("0", "False"):
        unmarked += skipped
print(packets, starts, skips, unmarked)
