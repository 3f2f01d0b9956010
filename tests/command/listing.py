# shelf list, of the longest shelf: every record is a line, in a second of processor time and little more memory than
# the shelf takes. Each record is tested a few times, and not once for every row.
import os
import struct
import subprocess
from common import PROGRAMS, check

RECORDS, UNITS, SCENES = 4096, 750, 250
SECONDS, BYTES = 1.0, 200 * 2**20


def largest():
    """A record with as many units and scenes as there can be, by edition 4. Unit i lost i packets."""
    size = 64 + 32 * (UNITS + SCENES)
    words = [4, size, UNITS, 64, SCENES, 64 + 32 * UNITS, 64, 48, 40000, 256, 3 * SCENES, 1000, 3, 2]
    units = b"".join(struct.pack("<QQ4I", i + 1, i + 9, 184, 1, i, 0) for i in range(UNITS))
    scenes = b"".join(struct.pack("<8I", 3 * i, 3, 0, 0, 0, 0, 0, 0) for i in range(SCENES))
    return struct.pack("<14Id", *words, 3.0) + units + scenes


def test():
    record = largest()
    head = 8 + 4 * RECORDS
    with open("longest", "wb") as file:
        file.write(struct.pack("<2I", RECORDS, head + RECORDS * len(record)))
        file.write(struct.pack("<%dI" % RECORDS, *range(head, head + RECORDS * len(record), len(record))))
        for _ in range(RECORDS):
            file.write(record)
    with open("lines", "wb") as lines:
        listed = subprocess.Popen([PROGRAMS["carolsedge"], "shelf", "list", "longest"], stdout=lines)
        _, status, used = os.wait4(listed.pid, 0)
    with open("lines") as file:
        rows = [line.split() for line in file]
    check(status == 0 and len(rows) == 1 + RECORDS, "the longest shelf: status %d, %d lines" % (status, len(rows)))
    figures = [str(UNITS), str(SCENES), str(sum(range(UNITS))), "3.0", "256", "1970-01-01", "00:00:00.000001"]
    for j, row in enumerate(rows[1:]):
        check(row[0] == str(j) and row[7:] == figures, "the longest shelf: %s" % " ".join(row))
    seconds = used.ru_utime + used.ru_stime
    check(seconds < SECONDS, "the longest shelf is listed in %.2f s of processor time" % seconds)
    check(used.ru_maxrss * 1024 < BYTES, "the longest shelf is listed in %d KB" % used.ru_maxrss)
    os.remove("longest")
    return "the longest shelf is listed in less than %.0f s of processor time and %d MiB" % (SECONDS, BYTES >> 20)
