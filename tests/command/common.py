# What the cases share: running the command, judging what it did, and making captures and y4m files.
import fcntl
import os
import pty
import re
import shutil
import struct
import subprocess
import sys
import tempfile
import termios
import time

ROOT = os.path.dirname(os.path.dirname(os.path.dirname(os.path.abspath(__file__))))
STREAMS = os.path.join(ROOT, "tests", "streams")
PROGRAMS = {}


def begin(folder):
    PROGRAMS["carolsedge"] = os.path.join(ROOT, "target", "bin", "carolsedge")
    PROGRAMS["measure-again"] = os.path.join(ROOT, "target", "tests", "measure-again")
    for name in ("measure", "show", "sheet", "busiest"):
        PROGRAMS[name] = os.path.join(os.path.abspath(folder), name)


def fresh(test):
    """Runs a file's cases in an empty folder."""
    folder = tempfile.mkdtemp()
    before = os.getcwd()
    os.chdir(folder)
    try:
        return test()
    finally:
        os.chdir(before)
        shutil.rmtree(folder)


def in_memory(test):
    """Runs a part of the cases in an empty folder in memory, where that can be had: none waits for a disk there."""
    folder, before = tempfile.mkdtemp(dir="/dev/shm" if os.access("/dev/shm", os.W_OK) else None), os.getcwd()
    os.chdir(folder)
    try:
        return test()
    finally:
        os.chdir(before)
        shutil.rmtree(folder)


def fail(text):
    print("command: FAILED: " + text, file=sys.stderr)
    sys.exit(1)


def check(holds, text):
    if not holds:
        fail(text)


def run(*words, stdin=b"", feed=None, program="carolsedge", **how):
    """Exit status, standard output and standard error (as text). Standard input is `stdin`, or what `feed` gives."""
    given = {"stdin": feed.stdout} if feed else {"input": stdin}
    done = subprocess.run([PROGRAMS[program], *words], capture_output=True, timeout=120, **given, **how)
    return done.returncode, done.stdout, done.stderr.decode(errors="replace")


def expect(name, status, out, err, *words, **how):
    """The run ends with this status (None: 1 or 2), prints `out` (None: anything), and says each of `err`; [] is
    nothing at all."""
    got = run(*words, **how)
    typed = " ".join(map(str, words))
    detail = "%s: %s\nstatus %d, printed %r\nsaid %s" % (name, typed, got[0], got[1][:300], got[2][:1500])
    check(got[0] == status or status is None and got[0] in (1, 2), "status %s wanted: %s" % (status, detail))
    check(out is None or got[1] == out, "%r wanted: %s" % (out, detail))
    check(err != [] or got[2] == "", "silence wanted: " + detail)
    for part in err or []:
        check(part in got[2], "%r wanted: %s" % (part, detail))
    check(status != 1 or named(words, *got[1:]), "a refusal without its input's name: " + detail)
    expect.count += 1
    return got


def named(words, out, err):
    """Whether a refusal, or a record that no seal leaves, is said with the name of an input, a word of the run; gaps
    has none."""
    names = ["standard input"] + [os.fsdecode(word).split("=")[-1] for word in words]
    if "not sealed: " in out.decode(errors="replace") + err:
        lines = re.findall(r"^(?:carolsedge shelf: )?(.*?)(?:\[\d+\])?: not sealed: ", out.decode() + err, flags=re.M)
        return set(lines) <= set(names)
    told = [line for line in err.splitlines() if line.startswith("carolsedge %s: refused " % words[0])]
    return words[0] == "gaps" or any(line.endswith(": " + name) for line in told for name in names)


expect.count = 0


def typed(what, *words):
    """Bytes are not typed: at a terminal the run asks for a file or a pipe, and does not wait."""
    main, side = pty.openpty()
    done = subprocess.run([PROGRAMS["carolsedge"], *words], stdin=side, capture_output=True, timeout=60)
    os.close(main)
    os.close(side)
    said = "carolsedge %s: %s come from a file or a pipe" % (words[0], what)
    right = done.returncode == 2 and done.stdout == b"" and said in done.stderr.decode()
    check(right, "%s at a terminal: status %d, %r" % (words, done.returncode, done.stderr))
    expect.count += 1


def taken(run):
    """Waits until a run that was started has read all that was written to its standard input."""
    run.stdin.flush()
    for _ in range(6000):
        if fcntl.ioctl(run.stdin, termios.FIONREAD, bytes(4)) == bytes(4):
            return
        time.sleep(0.01)
    fail("standard input was not read")


def nameless_files():
    """Whether a file without a name can be made here (O_TMPFILE). Elsewhere a killed run leaves one with a name."""
    try:
        os.close(os.open(".", os.O_TMPFILE | os.O_WRONLY, 0o600))
        return True
    except OSError:
        return False


def counted():
    """How many runs were judged since the last time."""
    n, expect.count = expect.count, 0
    return n


def read(name):
    with open(name, "rb") as file:
        return file.read()


def write(name, data):
    with open(name, "wb") as file:
        file.write(data)
    return name


def stream(name, ending):
    return os.path.join(STREAMS, name + ending)


def streams():
    """Every stored stream: its name, and width, height, display time and identifier."""
    with open(stream("counts", ".txt")) as file:
        for line in file:
            if line.strip() and not line.startswith("#"):
                name, *opening = line.split()[:5]
                yield name, *map(int, opening)


def identifiers():
    """Of each stored stream the identifier with most good packets and the next, with counts, as tshark counts."""
    found = {}
    for line in open(stream("identifiers", ".txt")):
        if not line.startswith("#"):
            name, pid, all, marked = line.split()
            found.setdefault(name, []).append((int(pid), int(all) - int(marked)))
    return {name: sorted(pids, key=lambda pid: (-pid[1], pid[0]))[:2] for name, pids in found.items()}


NEWEST = 4  # edition of the rules


def proved(width, height, time, pid, capture, luma, edition=NEWEST):
    """The record that the proved program makes. What a reader may lean on (document 02, R-14) holds of it."""
    if os.path.lexists("proved.record"):
        os.remove("proved.record")
    words = [str(width), str(height), str(time), str(pid), capture, luma, "proved.record", str(edition)]
    status, out, err = run(*words, program="measure")
    check(out.startswith(b"sealed "), "the proved program: %s: %r %s" % (" ".join(words), out, err))
    held = run("lean-record", capture, "proved.record", program="measure-again")
    check(held[:2] == (0, b"lean: holds\n"), "what a reader may lean on: %s: %s" % (" ".join(words), held))
    return read("proved.record"), out


def same_record(name, record, made="record"):
    check(read(made) == record, name + ": another record than the proved program's")
    os.remove(made)


# ---- captures

PCAP = struct.pack("<IHHiIII", 0xA1B2C3D4, 2, 4, 0, 0, 65535, 1)


def packets(n, pid=256, counter=0, sync=0x47, damaged=False):
    """Transport packets, the first with a start mark; marked as damaged or not."""
    all = b""
    for i in range(n):
        marks = (0x80 if damaged else 0) | (0x40 if i == 0 else 0)
        head = bytes([sync, marks | pid >> 8, pid & 255, 0x10 | (counter + i) % 16])
        all += head + bytes(184)
    return all


def ethernet(kind, payload):
    return bytes(12) + struct.pack(">H", kind) + payload


def ipv4(payload, protocol=17, fragment=0, first=0x45):
    return struct.pack(">BBHHHBBHQ", first, 0, 20 + len(payload), 0, fragment, 64, protocol, 0, 0) + payload


def udp(payload, port=5004):
    return struct.pack(">HHHH", 5004, port, 8 + len(payload), 0) + payload


def carrying(payload):
    return ethernet(0x0800, ipv4(udp(payload)))


def capture(frames, snap=65535):
    """A libpcap file, a millisecond between frames."""
    out = PCAP
    for i, frame in enumerate(frames):
        stored = frame[:snap]
        out += struct.pack("<IIII", 10 + i // 1000, i % 1000 * 1000, len(stored), len(frame)) + stored
    return out


def good(frames):
    """So many frames that carry a unit of seven packets each."""
    return [carrying(packets(7, counter=7 * i)) for i in range(frames)]


# Captures that are refused whatever is asked of them: a name, the bytes, number and place.
WHOLE = capture(good(1))
FAULTY = [
    ("empty", b"", 11, 0),
    ("inside a frame", WHOLE[:-1], 11, len(WHOLE) - 1),
    ("another magic", b"\0" + WHOLE[1:], 5, 3),
    ("another link", WHOLE[:20] + b"\x71" + WHOLE[21:], 6, 23),
    ("microseconds", WHOLE[:28] + b"\xff" * 4 + WHOLE[32:], 7, 31),
    ("a length", WHOLE[:32] + b"\xff" * 4 + WHOLE[36:], 8, 35),
]

# ---- pictures

CHROMA = {
    "mono": lambda w, h: 0,
    "420": lambda w, h: 2 * ((w + 1) // 2) * ((h + 1) // 2),
    "411": lambda w, h: 2 * ((w + 3) // 4) * h,
    "422": lambda w, h: 2 * ((w + 1) // 2) * h,
    "444": lambda w, h: 2 * w * h,
    "444alpha": lambda w, h: 3 * w * h,
}
for name in ("420jpeg", "420mpeg2", "420paldv"):
    CHROMA[name] = CHROMA["420"]


def y4m(luma, w, h, form="420jpeg", rate="25:1", more="Ip A1:1", line=b"FRAME\n"):
    """A y4m file of this luma; its chroma bytes count upward."""
    out = ("YUV4MPEG2 W%d H%d F%s %s%s\n" % (w, h, rate, more, " C" + form if form else "")).encode()
    n = CHROMA[form or "420"](w, h)
    chroma = bytes(i % 256 for i in range(n))
    for at in range(0, len(luma), w * h):
        out += line + luma[at : at + w * h] + chroma
    return out
