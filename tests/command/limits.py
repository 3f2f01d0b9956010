# What the system and a file do: endless and sparse files, no memory, no threads, no processes, closed descriptors. No
# run is long, needs much memory, or ends with another exit status than 0, 1 and 2.
import os
import random
import resource
import shutil
import struct
import subprocess
import time
from common import PROGRAMS, capture, check, counted, expect, good, read, stream, write
from decoder import ffmpeg_is
from show import made

MIB = 1 << 20
LONGEST = 8 + 4096 * (4 + 32064)  # a shelf of 4,096 largest records
NOBODY = 54321  # a user who has no other process
RAW = ["--size", "64x48", "--time", "40000", "--pid", "256"]


def little(memory):
    return {"preexec_fn": lambda: resource.setrlimit(resource.RLIMIT_AS, (memory, memory))}


def quick(name, status, out, err, *words, within=5, **how):
    begun = time.monotonic()
    got = expect(name, status, out, err, *words, **how)
    took = time.monotonic() - begun
    check(took < within, "%s: %s: %.1f s" % (name, " ".join(words), took))
    return got


def endless():
    """Pipes that do not end, and devices: reading stops at the longest thing that can be right, and says so."""
    write("a.record", made(random.Random(1)))
    readers = [(["show", "-"], 17, "more than 32,064 bytes"), (["show", "-", "--json"], 17, "more than 32,064 bytes"),
               (["sheet", "-"], 17, "more than 32,064 bytes"), (["page", "-"], 17, "its first 32,065 bytes were read"),
               (["verify", "-"], 17, "its first 32,065 bytes were read"),
               (["shelf", "check", "-"], 27, "its first 32,065 bytes were read"),
               (["shelf", "list", "-"], 27, "its first 32,065 bytes were read"),
               (["shelf", "take", "-", "0"], 27, "its first 32,065 bytes were read"),
               (["rtp"], 25, "bytes or more stand behind"), (["loss"], 22, "more than 9,004 bytes"),
               (["loss", "--record", "-", "--keys", "/dev/null"], 17, "more than 32,064 bytes"),
               (["survey", "-"], 5, "refused 5"), (["rtp", "-", "--port", "1"], 5, "refused 5"),
               (["measure", "-", "a.record", "-o", "out", *RAW], 5, "refused 5")]
    for endless in (["yes"], ["cat", "/dev/zero"], ["cat", "/dev/urandom"]):
        for words, number, said in readers:
            feed = subprocess.Popen(endless, stdout=subprocess.PIPE, stderr=subprocess.DEVNULL)
            got = quick(endless[-1], 1, None, [said], *words, feed=feed, **little(64 * MIB))
            line = got[1].replace(b"standard input: ", b"") if words[0] == "verify" else got[1]
            check(line.startswith(b"refused "), "%s: %r" % (words, got))
            feed.stdout.close()
            feed.kill()
            feed.wait()
    # Neither a record nor the head of a shelf, though not much of it: the longest list of keys, a y4m heading.
    for words, said in ((["loss", "--record", "a.record", "--keys", "/dev/zero"], "line 1: not a decimal number"),
                        (["measure", "/dev/zero", "/dev/zero", "-o", "out", *RAW], "refused 5")):
        quick("/dev/zero", None, None, [said], *words, **little(64 * MIB))


def sparse():
    """Eight bytes that promise four gigabytes, and a hole after them. Where the number of the refusal asks for all of
    them there is not enough memory, which is said."""
    most = 2**32 - 1
    for records, length, size in ((1, most, most), (4096, most, most), (0, most, most), (2, LONGEST + 1, LONGEST + 1),
                                  (1, most, 2**33), (most, most, most)):
        write("hole", struct.pack("<3I", records, length, 8 + 4 * records & 0xFFFFFFFF))
        os.truncate("hole", size)
        number = 17 if records == 0 or records > 4 else 18
        for words in (["show", "hole"], ["show", "hole", "--csv"], ["sheet", "hole"],
                      ["loss", "--record", "hole", "--keys", "/dev/null"]):
            quick("a hole", 1, b"refused %d 0\n" % number, ["bytes"], *words, **little(64 * MIB))
        quick("a hole", 1, b"hole: refused %d 0\n" % number, ["bytes"], "verify", "hole", **little(64 * MIB))
        status, said = (1, "{:,} ".format(records)) if records > 4096 else (2, "there is not enough memory")
        for words in (["page", "hole"], ["shelf", "check", "hole"], ["shelf", "list", "hole"],
                      ["shelf", "take", "hole", "0"]):
            quick("a hole", status, None, [said], *words, **little(64 * MIB))
    write("hole", struct.pack("<3I", 1, LONGEST, 12))
    os.truncate("hole", 2**32)
    for words, line in ((["show", "hole"], b"refused 18 0\n"), (["shelf", "check", "hole"], b"refused 27 0\n")):
        quick("as long as the longest", 1, line, None, *words, **little(600 * MIB))
    os.remove("hole")


def no_memory():
    """Less and less of it: a line and exit status 2, or the work is done."""
    write("clip.record", made(random.Random(2)))
    write("long", struct.pack("<3I", 1, LONGEST, 12))
    os.truncate("long", LONGEST)
    write("whole.y4m", b"YUV4MPEG2 W64 H48 F25:1 Cmono\n" + (b"FRAME\n" + bytes(64 * 48)) * 5)
    how = ffmpeg_is("cat >/dev/null; cat $HERE/whole.y4m")
    write("large.pcap", capture(good(700)) + bytes(0))
    for words in (["show", "long"], ["shelf", "check", "long"], ["page", "long"], ["show", "clip.record"],
                  ["page", "clip.record"], ["measure", "large.pcap", "-o", "out", "--pid", "256"]):
        seen = set()
        for mega in (4, 5, 6, 7, 8, 9, 10, 11, 12, 14, 16, 20, 24, 32, 48, 64, 96, 128, 192, 256):
            limit = "ulimit -v %d; exec %s %s" % (mega * 1024, PROGRAMS["carolsedge"], " ".join(words))
            done = subprocess.run(["sh", "-c", limit], capture_output=True, timeout=60, **how)
            said = done.stderr.decode()
            # Below some megabytes the system cannot even load the program.
            unloaded = done.returncode in (126, 127) or done.returncode < 0 and mega <= 5
            begun = not (unloaded and mega <= 10)
            right = done.returncode in (0, 1) or done.returncode == 2 and said.startswith("carolsedge")
            check(not begun or right, "%d MiB: %s: %d, %s" % (mega, words, done.returncode, said))
            check("panicked" not in said, "%d MiB: %s: %s" % (mega, words, said))
            seen.add(done.returncode)
            expect.count += 1
        check(seen & {0, 1}, "%s: never done: %s" % (words, seen))
    for name in ("long", "out"):
        if os.path.exists(name):
            os.remove(name)


def no_threads():
    """No process for ffmpeg, or no thread for its pipes: a line and exit status 2, nothing is left."""
    if os.geteuid() != 0 or not shutil.which("setpriv") or not shutil.which("prlimit"):
        return "another user's limits could not be tried"
    os.chmod(".", 0o777)
    how = ffmpeg_is("exec cat $HERE/whole.y4m")
    os.chmod("stand-in", 0o755)
    program = os.path.abspath("carolsedge")
    shutil.copy(PROGRAMS["carolsedge"], program)
    os.chmod(program, 0o755)
    user = ["setpriv", "--reuid=%d" % NOBODY, "--regid=%d" % NOBODY, "--clear-groups", "--"]
    words = [program, "measure", "large.pcap", "-o", "theirs", "--pid", "256"]
    if subprocess.run([*user, "cat", "large.pcap"], capture_output=True).returncode != 0:
        return "another user's limits could not be tried here"
    said = {}
    for limit in (1, 2, 3, 4, 100):
        done = subprocess.run(["prlimit", "--nproc=%d" % limit, *user, *words], capture_output=True, timeout=60, **how)
        said[limit] = done.stderr.decode()
        check(done.returncode == (0 if limit == 100 else 2), "%d processes: %s" % (limit, done))
        check("panicked" not in said[limit], "%d processes: %s" % (limit, said[limit]))
        check(os.path.exists("theirs") == (limit == 100), "%d processes: a record" % limit)
        expect.count += 1
    check("ffmpeg: Resource temporarily unavailable" in said[1], "one process: " + said[1])
    for limit in (2, 3, 4):
        check("carolsedge measure: no thread can be started: Resource temporarily unavailable" in said[limit],
              "%d processes: %s" % (limit, said[limit]))
    os.remove("theirs")
    return "no processes and no threads"


def closed():
    """Standard input, output and error that were closed before: none of our files gets their place."""
    cap, luma = write("c.pcap", read(stream("clip", ".pcap"))), write("c.y", read(stream("clip", ".y")))
    wanted = None
    for words in (["measure", cap, luma, "-o", "c.record", *RAW], ["show", "c.record"],
                  ["page", "c.record", "-o", "c.html"], ["shelf", "check", "-"], ["show", "-"], ["show", "nowhere"],
                  ["nothing"], ["rtp"], ["loss"], []):
        for shut in ([0], [1], [2], [0, 1], [1, 2], [0, 1, 2]):
            done = subprocess.run([PROGRAMS["carolsedge"], *words], capture_output=True, timeout=60,
                                  preexec_fn=lambda: [os.close(number) for number in shut], stdin=subprocess.DEVNULL)
            check(done.returncode in (0, 1, 2), "%s, closed %s: %s" % (words, shut, done))
            check(b"panicked" not in done.stderr, "%s, closed %s: %s" % (words, shut, done))
            expect.count += 1
            if words and words[0] == "measure":
                check(done.returncode == 0, "closed %s: %s" % (shut, done))
                wanted = wanted or read("c.record")
                check(read("c.record") == wanted, "closed %s: another record" % shut)


def test():
    endless()
    sparse()
    no_memory()
    threads = no_threads()
    closed()
    return "limits: %d runs: endless and sparse files, little memory, closed descriptors; %s" % (counted(), threads)
