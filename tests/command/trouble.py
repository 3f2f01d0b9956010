# Trouble: full disks, closed pipes, interrupts while reading and while writing; and how far a run is.
import os
import pty
import re
import signal
import struct
import subprocess
import time
from common import PROGRAMS, check, counted, expect, fail, nameless_files, proved, read, stream, taken, write

RAW = ["--size", "64x48", "--time", "40000", "--pid", "256"]
SLOW = b"""
#include <unistd.h>
int fsync(int fd) { (void)fd; write(2, "writing\\n", 8); sleep(1); return 0; }
"""


def heed_signals():
    """What was started in the background ignores interrupts, and its children would."""
    for number in (signal.SIGINT, signal.SIGTERM, signal.SIGHUP):
        signal.signal(number, signal.SIG_DFL)


def started(*words, **how):
    return subprocess.Popen([PROGRAMS["carolsedge"], *words], stderr=subprocess.PIPE, preexec_fn=heed_signals, **how)


def full(cap, luma):
    """A disk without room: the record that stood there stays, and nothing else is left."""
    words = ["measure", cap, luma, "-o", "disk/record", *RAW]
    os.mkdir("disk")
    mount = ["mount", "-t", "tmpfs", "-o", "size=16k", "tmpfs", "disk"]
    if subprocess.run(mount, capture_output=True).returncode != 0:
        return "no small disk could be mounted"
    try:
        write("disk/record", b"old")
        subprocess.run("head -c 100000 /dev/zero >disk/filler 2>/dev/null", shell=True)
        expect("a full disk", 2, b"", ["disk/record: No space left on device"], *words)
        check(sorted(os.listdir("disk")) == ["filler", "record"], "a full disk: %s" % os.listdir("disk"))
        check(read("disk/record") == b"old", "a full disk: the old record is lost")
        os.remove("disk/filler")
        expect("room again", 0, None, None, *words)
    finally:
        subprocess.run(["umount", "disk"], check=True)
    return "a full disk"


def unwritable(cap, luma):
    """Standard output that cannot be written."""
    expect("a record", 0, None, None, "measure", cap, luma, "-o", "record", *RAW)
    calls = [["show", "record", *form] for form in ([], ["--lines"], ["--json"], ["--csv"])]
    calls += [["page", "record"]] + [["measure", file, luma, "-o", "record", *RAW] for file in (cap, luma)]
    calls += [["explain"], ["explain", "3"], ["--help"], ["--version"], ["measure", "--help"], ["show", luma]]
    for words in calls:
        with open("/dev/full", "wb") as out:
            done = subprocess.run([PROGRAMS["carolsedge"], *words], stdout=out, stderr=subprocess.PIPE)
        said = done.stderr.decode()
        check(done.returncode == 2 and "standard output: No space left on device" in said, "%s: %s" % (words, said))
        reader, writer = os.pipe()
        os.close(reader)
        done = subprocess.run([PROGRAMS["carolsedge"], *words], stdout=writer, stderr=subprocess.PIPE)
        os.close(writer)
        said = done.stderr.decode()
        check(done.returncode == 2 and "standard output: Broken pipe" in said, "%s: %s" % (words, said))
        check("panicked" not in said, "%s: %s" % (words, said))
        with open("/dev/full", "wb") as err:
            done = subprocess.run([PROGRAMS["carolsedge"], *words], stdout=subprocess.PIPE, stderr=err)
        check(done.returncode in (0, 1), "standard error cannot be written: %s: %d" % (words, done.returncode))
        expect.count += 3


def interrupted_reading(cap, luma):
    """While it reads: it ends at once, and nothing has changed."""
    for number in (signal.SIGINT, signal.SIGTERM, signal.SIGHUP):
        for words, data in (([cap, "-"], read(luma)), (["-", luma], read(cap))):
            write("record", b"old")
            before = sorted(os.listdir("."))
            run = started("measure", *words, "-o", "record", *RAW, stdin=subprocess.PIPE)
            run.stdin.write(data[:100000])
            taken(run)
            run.send_signal(number)
            check(run.wait(10) == -number, "interrupted while reading: status %d" % run.returncode)
            run.stdin.close()
            run.stderr.close()
            same = read("record") == b"old" and sorted(os.listdir(".")) == before
            check(same, "interrupted while reading: something has changed")
            expect.count += 1


def interrupted_writing(cap, luma):
    """While it writes: the record stands as it was or whole, and no other file is left."""
    write("slow.c", SLOW)
    subprocess.run(["cc", "-shared", "-fPIC", "-w", "slow.c", "-o", "slow.so"], check=True)
    record, _ = proved(64, 48, 40000, 256, cap, luma)
    env = dict(os.environ, LD_PRELOAD=os.path.abspath("slow.so"))
    for number in (signal.SIGINT, signal.SIGTERM, signal.SIGHUP, signal.SIGKILL):
        write("record", b"old")
        before = sorted(os.listdir("."))
        run = started("measure", cap, luma, "-o", "record", *RAW, env=env)
        if run.stderr.readline() != b"writing\n":
            fail("the slow disk was not asked to write")
        run.send_signal(number)
        check(run.wait(20) == -number, "interrupted while writing: status %d" % run.returncode)
        run.stderr.close()
        after = sorted(os.listdir("."))
        if number != signal.SIGKILL or nameless_files():
            check(after == before, "interrupted while writing: left %s" % after)
        if number == signal.SIGKILL:
            check(read("record") == b"old", "killed while writing: the record is neither old nor whole")
            continue
        check(read("record") == record, "interrupted while writing: the record is not whole")
        expect.count += 1


def progress(cap, luma):
    """On a terminal, behind the first second, a line, with the index that the pictures so far have; otherwise none."""
    data = read(luma)
    for terminal in (True, False):
        main, side = pty.openpty()
        words = [PROGRAMS["carolsedge"], "measure", cap, "-", "-o", "record", *RAW]
        err = side if terminal else subprocess.PIPE
        run = subprocess.Popen(words, stdin=subprocess.PIPE, stdout=subprocess.PIPE, stderr=err)
        for at in range(0, len(data), len(data) // 8 + 1):
            run.stdin.write(data[at : at + len(data) // 8 + 1])
            run.stdin.flush()
            time.sleep(0.2)
        run.stdin.close()
        check(run.wait(10) == 0, "progress: status %d" % run.returncode)
        os.close(side)
        said = os.read(main, 100000) if terminal else run.stderr.read()
        os.close(main)
        check((b" MB, " in said) == terminal, "progress on a terminal %s: %r" % (terminal, said))
        check((b"\r" in said.replace(b"\r\n", b"")) == terminal, "progress: %r" % said)
        shown = re.findall(rb" (\d+) pictures, index (\d\.\d\d) so far", said)
        check(bool(shown) == terminal, "no index so far: %r" % said)
        for pictures, index in shown:
            write("front.y", data[: int(pictures) * 64 * 48])
            record = proved(64, 48, 40000, 256, cap, "front.y")[0]
            now = "%.2f" % struct.unpack_from("<d", record, 56)
            check(index.decode() == now, "after %s pictures the index is %s, not %s" % (pictures, now, index))
        expect.count += 1


def test():
    cap, luma = write("capture.pcap", read(stream("clip", ".pcap"))), write("luma.y", read(stream("clip", ".y")))
    disk = full(cap, luma)
    unwritable(cap, luma)
    interrupted_reading(cap, luma)
    interrupted_writing(cap, luma)
    progress(stream("dropped", ".pcap"), stream("dropped", ".y"))
    return "trouble: %d runs: %s, closed pipes, interrupts while reading and writing, progress" % (counted(), disk)
