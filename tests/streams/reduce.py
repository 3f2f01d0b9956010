#!/usr/bin/env python3
"""Writes the reduced pictures of a luma file, as the rule makes them: reduce.py WIDTH HEIGHT LUMA REDUCED. Prints
their size."""
import sys

width, height = int(sys.argv[1]), int(sys.argv[2])
side = 1
while height // (2 * side) >= 30:
    side *= 2
columns, lines = width // side, height // side
with open(sys.argv[3], "rb") as file:
    luma = file.read()
reduced = bytearray()
for picture in range(0, len(luma), width * height):
    for line in range(lines):
        for column in range(columns):
            first = picture + line * side * width + column * side
            block = (sum(luma[row : row + side]) for row in range(first, first + side * width, width))
            reduced.append(sum(block) // (side * side))
with open(sys.argv[4], "wb") as file:
    file.write(reduced)
print(f"{columns}x{lines}")
