#!/usr/bin/env python3
"""Compares the changes in our records of one stream with the temporal information that ffmpeg gives of its reduced
pictures (ti.txt). What a reader may lean on (document 02, R-14) holds of each of them, and each two have the same unit
rows.
Usage: changes.py FOLDER OF PROGRAMS, INDEPENDENT PROGRAM, NAME WIDTH HEIGHT D PID, FOLDER TO WRITE TO, EDITION.
Prints how many changes it compared."""
import os
import subprocess
import sys

programs, again, name, width, height, d, pid, made, edition = sys.argv[1:]
here = os.path.dirname(os.path.abspath(__file__))
record, before = os.path.join(made, "changes"), os.path.join(made, "before")


def fail(text):
    sys.exit(f"streams: {name}: {text}")


def lean(*words):
    if subprocess.run([again, *words], stdout=subprocess.DEVNULL).returncode != 0:
        fail("what a reader may lean on: " + " ".join(words))


def scenes(luma):
    """First picture, pictures and sum of changes of each scene in the record of this luma."""
    words = [width, height, d, pid, f"{here}/{name}.pcap", "-", record, edition]
    said = subprocess.run([f"{programs}/measure", *words], input=luma, stdout=subprocess.PIPE).stdout.decode()
    if not said.startswith("sealed "):
        fail(f"measure says '{said.strip()}' of {len(luma)} bytes of luma")
    with open(record, "rb") as file:
        text = subprocess.run([f"{programs}/show"], stdin=file, stdout=subprocess.PIPE).stdout.decode()
    lean("lean-record", f"{here}/{name}.pcap", record)
    if os.path.exists(before):
        lean("lean-pair", before, record)
    os.replace(record, before)
    rows = [line.split() for line in text.splitlines() if line.startswith("scene ")]
    return [(int(row[2]), int(row[3]), int(row[8])) for row in rows]


def hundredths(text):
    whole, part = text.split(".")
    if len(part) != 2:
        fail(f"'{text}' has not two decimals")
    return int(whole + part)


with open(f"{here}/ti.txt") as file:
    rows = [line.split() for line in file if line.split()[:1] == [name]]
if [int(row[1]) for row in rows] != list(range(len(rows))):
    fail("ti.txt has not each picture once, in order")
with open(f"{here}/{name}.y", "rb") as file:
    luma = file.read()
size = int(width) * int(height)
if len(rows) * size != len(luma):
    fail(f"ti.txt has {len(rows)} pictures, the luma {len(luma)} bytes")

# A record has the sums of the changes; what they grow by when the luma has one picture more is that picture's change.
changes = []
for count in range(1, len(rows) + 1):
    last = scenes(luma[: count * size])
    changes.append(sum(row[2] for row in last) - sum(changes))
for picture, row in enumerate(rows):
    # ffmpeg's figure is rounded to the nearest hundredth. A change is so too from edition 3 on; before, it is cut off,
    # so that ffmpeg's is the same or 0.01 more.
    allowed = (0,) if int(edition) >= 3 else (0, 1)
    if hundredths(row[2]) - changes[picture] not in allowed:
        fail(f"edition {edition}: the change of picture {picture} is {changes[picture]}, ffmpeg's figure {row[2]}")
for first, count, total in last:
    if total != sum(changes[first : first + count]):
        fail(
            f"the scene from picture {first} has the changes {total}, "
            f"its pictures {sum(changes[first : first + count])}"
        )
os.remove(before)
print(len(rows))
