# Many runs that add to one shelf at the same time: no record is ever lost. They wait for each other, and say so where
# that takes long.
import fcntl
import os
import random
import shutil
import signal
import subprocess
import time
from common import PROGRAMS, check, counted, expect, in_memory, read, write
from shelf import laid_out
from show import made

ROUNDS = 1000  # of two adders, and of four
LOCKLESS = b"""
#include <errno.h>
int flock(int fd, int how) { (void)fd; (void)how; errno = ENOLCK; return -1; }
"""


def parts(shelf):
    """The records of a shelf."""
    words = [int.from_bytes(shelf[at : at + 4], "little") for at in range(0, 8 + 4 * shelf[0], 4)]
    edges = words[2:] + [len(shelf)]
    return [shelf[a:b] for a, b in zip(edges, edges[1:])]


def adder(name, before=(), **how):
    words = [*before, PROGRAMS["carolsedge"], "shelf", "add", "shelf", name]
    return subprocess.Popen(words, stdout=subprocess.PIPE, stderr=subprocess.PIPE, **how)


def ended(run, name, status=0, said=b""):
    out, err = run.communicate(timeout=60)
    check(run.returncode == status and said in err, "%s: status %d, %r" % (name, run.returncode, err))
    expect.count += 1
    return out


def all_there(name, records):
    """The shelf has these records, the first of them first, and nothing is left next to it."""
    found = parts(read("shelf"))
    lost = len([record for record in records if record not in found])
    check(lost == 0, "%s: %d of %d records are lost" % (name, lost, len(records)))
    right = found[0] == records[0] and sorted(found) == sorted(records)
    check(right, "%s: the shelf has other records" % name)
    hidden = [name for name in os.listdir(".") if name.startswith(".")]
    check(not hidden, "%s: left %s" % (name, hidden))


def stored(records):
    for number, record in enumerate(records):
        write("%d.record" % number, record)


def rounds(records, adders):
    for number in range(ROUNDS):
        write("shelf", laid_out(records[:1]))
        runs = [adder("%d.record" % i) for i in range(1, adders + 1)]
        for run in runs:
            ended(run, "round %d of %d adders" % (number, adders))
        all_there("round %d of %d adders" % (number, adders), records[: adders + 1])


def delayed(records):
    """One adder is slow just where it puts the shelf in place, and another comes meanwhile."""
    strace = shutil.which("strace")
    if not strace or subprocess.run([strace, "-o", "/dev/null", "true"], capture_output=True).returncode != 0:
        return "no delay without strace"
    for calls in ("rename,renameat,renameat2", "link,linkat"):
        write("shelf", laid_out(records[:1]))
        delay = [strace, "-f", "-o", "/dev/null", "-e", "inject=%s:delay_enter=500ms" % calls]
        slow = adder("1.record", delay)
        time.sleep(0.25)
        ended(adder("2.record"), "next to one that waits before " + calls)
        ended(slow, "one that waits before " + calls)
        all_there("one that waits before " + calls, records[:3])
    return "one that is slow to rename"


def replaced(records):
    """make waits for adders as they do: its records are there, with those that were added afterwards."""
    for number in range(50):
        write("shelf", laid_out(records[:1]))
        words = [PROGRAMS["carolsedge"], "shelf", "make", "shelf", "3.record"]
        runs = [adder("1.record"), subprocess.Popen(words, stdout=subprocess.PIPE, stderr=subprocess.PIPE)]
        runs.append(adder("2.record"))
        for run in runs:
            ended(run, "make in round %d" % number)
        found = parts(read("shelf"))
        right = found[0] == records[3] and set(found[1:]) <= set(records[1:3])
        check(right, "make in round %d: %d records" % (number, len(found)))


def locked(records):
    """A lock that does not go away: what is waited for is said, an interrupt ends it, and it goes on once free."""
    before = laid_out(records[:1])
    for interrupt in (True, False):
        write("shelf", before)
        with open("shelf", "rb") as shelf:
            fcntl.flock(shelf, fcntl.LOCK_EX)
            heed = lambda: signal.signal(signal.SIGINT, signal.SIG_DFL)
            run = adder("1.record", preexec_fn=heed)
            said = run.stderr.readline()
            wanted = b"carolsedge shelf: shelf: another program has locked it; waiting until it is free\n"
            check(said == wanted, "a lock: said %r" % said)
            check(read("shelf") == before, "a lock: the shelf was replaced")
            if interrupt:
                run.send_signal(signal.SIGINT)
                ended(run, "interrupted while waiting", -signal.SIGINT)
        if not interrupt:
            ended(run, "a lock that goes away")
        all_there("a lock", records[: 1 if interrupt else 2])


def lockless(records):
    """Where nothing can be locked nothing is added."""
    write("shelf", laid_out(records[:1]))
    write("lockless.c", LOCKLESS)
    subprocess.run(["cc", "-shared", "-fPIC", "-w", "lockless.c", "-o", "lockless.so"], check=True)
    run = adder("1.record", env=dict(os.environ, LD_PRELOAD=os.path.abspath("lockless.so")))
    ended(run, "no locks", 2, b"shelf: it cannot be locked, so that others could add to it at the same time: No locks")
    all_there("no locks", records[:1])


def test():
    records = [made(random.Random(seed)) for seed in range(5)]

    def all_rounds():
        stored(records)
        rounds(records, 2)
        rounds(records, 4)

    stored(records)
    slow = delayed(records)
    locked(records)
    lockless(records)
    replaced(records)
    in_memory(all_rounds)
    said = "%d rounds of two adders and of four lose no record; %s" % (ROUNDS, slow)
    return "adding: %d runs: %s; a lock is waited for, and that is said" % (counted(), said)
