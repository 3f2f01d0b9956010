# A fuzzer of the command: records, shelves, captures, pictures, RTP packets, losses and words, made from right ones
# and altered. FUZZ (20000) is the number of runs, SEED (1) what they come from, RUN one of them to be done alone.
# Whatever is given, a run ends soon, needs little memory, gives exit status 0, 1 or 2, prints what can be read, and
# leaves nothing in its folder but what was asked for.
import collections
import csv
import io
import json
import multiprocessing
import os
import random
import re
import resource
import signal
import struct
import tempfile
from captures import mixed
from common import PROGRAMS, capture, carrying, check, fail, packets, read, write, y4m
from rtp import rtp, to
from shelf import laid_out
from show import made

SECONDS = 5  # no run is longer,
MEMORY = 32 << 20  # or holds more bytes of memory at once
CHUNK = 250
OUT = b"out"

# ---- altering

NUMBERS = [0, 1, 2, 3, 7, 8, 63, 64, 127, 128, 188, 255, 256, 750, 751, 4096, 4097, 8191, 8192, 32064, 65535, 65536,
           999999, 1000000, 2**31 - 1, 2**31, 2**32 - 2, 2**32 - 1]


def altered(pick, data):
    """Up to six changes: of a bit, a byte, a number, a length, an order."""
    data = bytearray(data)
    for _ in range(pick.choice((0, 0, 0, 1, 1, 2, 3, 6))):
        at = pick.randrange(len(data) + 1)
        # Heads decide most.
        at = min(at, pick.choice((len(data), len(data), 4, 16, 64, 100)))
        way = pick.randrange(8)
        if way == 0 and data:
            data[at % len(data)] ^= 1 << pick.randrange(8)
        elif way == 1 and data:
            data[at % len(data)] = pick.choice((0, 1, 0x0A, 0x1B, 0x20, 0x2D, 0x3D, 0x47, 0x7F, 0x80, 0xFF))
        elif way == 2:
            at -= at % 4
            data[at : at + 4] = struct.pack("<I", pick.choice(NUMBERS))
        elif way == 3:
            del data[pick.choice((at, len(data) - 1, len(data) // 2)) :]
        elif way == 4:
            data += pick.choice((b"\0", bytes(pick.randrange(1, 40000)), data[:at]))
        elif way == 5:
            data[at:at] = pick.randbytes(pick.choice((1, 4, 32)))
        elif way == 6:
            del data[at : at + pick.choice((1, 4, 32, 188))]
        elif len(data) > at + 8:
            old = struct.unpack_from("<I", data, at)[0]
            struct.pack_into("<I", data, at, (old + pick.choice((1, -1, 4, 32))) % 2**32)
    return bytes(data)


# ---- what is right before it is altered

def a_record(pick):
    bits = pick.choice((None, 0x4008000000000000, 0x7FF8000000000000, 0xFFF0000000000000))
    return made(pick, bits, pick.randint(1, 4))


def a_shelf(pick):
    return laid_out([a_record(pick) for _ in range(pick.choice((0, 1, 1, 2, 3)))])


def a_capture(pick):
    kind = pick.randrange(4)
    if kind == 0:
        return mixed(pick)
    if kind == 1:
        places = [pick.choice((i, i, i + 1)) for i in range(pick.randrange(9))]
        return capture([to(5004, rtp(place, pick.randrange(2), bytes(20))) for place in places])
    pids = [pick.choice((256, 256, 256, 0, 8191)) for _ in range(pick.randrange(1, 9))]
    some = [(pick.randint(1, 7), pid, pick.random() < 0.1) for pid in pids]
    return capture([carrying(packets(n, pid, 7 * i, damaged=bad)) for i, (n, pid, bad) in enumerate(some)])


def a_luma(pick):
    length = 900 * pick.choice((0, 1, 2, 3, 3, 3))
    return bytes(length) if pick.random() < 0.5 else pick.randbytes(length)


def a_y4m(pick):
    form = pick.choice(("mono", "420jpeg", "422", "444alpha"))
    whole = y4m(a_luma(pick), 30, 30, form, pick.choice(("25:1", "25:1", "30000:1001", "0:0", "1:1")))
    if pick.random() < 0.8:
        return whole
    return whole.replace(*pick.choice(((b"W30", b"W\x1b[2J"), (b"H30", b"H4294967295"), (b"Cmono", b"C\xff\x1b"),
                                       (b"FRAME", b"FRAME I\x07"), (b"FRAME", b"FRAMES"), (b"F25", b"F-25"))))


def a_list(pick):
    rows = [(pick.getrandbits(16), pick.randrange(2), pick.getrandbits(64), pick.getrandbits(16))
            for _ in range(pick.choice((0, 1, 5, 40)))]
    return struct.pack("<I", len(rows)) + b"".join(struct.pack("<HHQH", *row) for row in rows)


def losses(pick):
    n = pick.choice((0, 1, 3, 20))
    given = [pick.choice((0, 1, pick.getrandbits(32))) for _ in range(n)]
    chances = [pick.choice((0.0, 0.5, 1.0, pick.random())) for _ in range(n)]
    return struct.pack("<I%dI%dd" % (n, n), n, *given, *chances)


def keys(pick):
    some = (b"0", b"1", b"0.5", b"1e-9") * 4 + (b"nan", b"-1", b"x", b"", b"\x1b[1m")
    return b"".join(pick.choice(some) + b"\n" for _ in range(pick.randint(1, 40)))


# ---- runs: words, and what comes through standard input; files are named by what they are

MAKERS = {"record": a_record, "a.shelf": a_shelf, "capture": a_capture, "luma": a_luma, "y4m": a_y4m, "a.list": a_list,
          "losses": losses, "keys": keys}
RAW = [["--size", "30x30", "--time", "40000", "--pid", "256"], ["--size=30x30", "--rate", "25", "--pid=0x100"],
       ["--size=30x30", "--rate", "25"], ["--size", "15x30", "--rate=30000/1001", "--pid", "8191"],
       ["--edition", "1", "--pid", "0", "--size", "30x30", "--time", "1"]]
FORMS = [
    ("show", ["show", "record"]), ("lines", ["show", "record", "--lines"]), ("json", ["show", "--json", "record"]),
    ("csv", ["show", "record", "--csv"]), ("sheet", ["sheet", "record"]), ("page", ["page", "record"]),
    ("verify", ["verify", "record"]), ("verify", ["verify", "a.shelf"]), ("verify", ["verify", "record", "a.shelf"]),
    ("page", ["page", "a.shelf"]), ("nothing", ["page", "record", "-o", "out"]),
    ("totals", ["shelf", "check", "a.shelf"]), ("rows", ["shelf", "list", "a.shelf"]),
    ("part", ["shelf", "take", "a.shelf", "0"]),
    ("totals", ["shelf", "make", "out", "record"]), ("totals", ["shelf", "make", "out", "record", "a.shelf"]),
    ("totals", ["shelf", "add", "a.shelf", "record"]), ("survey", ["survey", "capture"]),
    ("units", ["rtp", "capture", "--port", "5004"]), ("units", ["rtp", "capture", "--port=5004", "--ssrc=24231"]),
    ("units", ["rtp"]), ("loss", ["loss"]), ("loss", ["loss", "--record", "record", "--keys", "keys"]),
    ("sealed", ["measure", "capture", "luma", "-o", "out"]), ("sealed", ["measure", "capture", "y4m", "-o", "out"]),
    ("sealed", ["measure", "capture", "y4m", "-o", "out", "--pid", "256", "--passage", "0-2"]),
    ("sealed", ["measure", "capture", "-o", "out", "--pid", "256"]),
]
SUBCOMMANDS = ["show", "verify", "sheet", "page", "shelf", "survey", "rtp", "loss", "gaps", "explain", "measure",
               "help"]
WORDS = [*SUBCOMMANDS, "check", "make", "add", "take", "list", "--help", "-h", "--version", "-V", "--", "-", "", "-o",
         "out", "--lines", "--json", "--csv", "--pid", "--size", "--time", "--rate", "--edition", "--passage",
         "--decoder-timeout", "--port", "--ssrc", "--record", "--keys", "0", "1", "15", "16", "28", "29",
         "256", "0x100", "30x30", "25/1", "0-2", "4294967295", "4294967296", "99999999999999999999", "-1", "1e3",
         *MAKERS]


def words_at_random(pick):
    words = [pick.choice(WORDS) for _ in range(pick.randrange(8))]
    if pick.random() < 0.9:
        words.insert(0, pick.choice(SUBCOMMANDS))
    words = [word + pick.choice(("", "", "=1", "=out")) if word.startswith("--") else word for word in words]
    words = list(map(os.fsencode, words))
    if pick.random() < 0.3:
        raw = bytes(byte for byte in pick.randbytes(pick.choice((1, 3, 9, 3000))) if byte not in b"\0/")
        words.insert(pick.randrange(len(words) + 1), raw)
    return None, words


def a_run(pick):
    """The form of what is printed (None: any), the words, standard input, the files."""
    form, words = pick.choice(FORMS) if pick.random() < 0.85 else words_at_random(pick)
    words = [os.fsencode(word) for word in words]
    if form == "sealed" and pick.random() < 0.9 and b"--pid" not in words:
        words += map(os.fsencode, pick.choice(RAW))
    if pick.random() < 0.05:
        words.insert(pick.randrange(len(words) + 1), os.fsencode(pick.choice(WORDS)))
        form = None
    files, stdin = {}, b""
    names = [name for name in MAKERS if os.fsencode(name) in words or name == "y4m" and b"measure" in words]
    for name in names:
        made_right = MAKERS[name](pick)
        as_it_is = len(names) > 1 and pick.random() < 0.6
        files[os.fsencode(name)] = made_right if as_it_is else altered(pick, made_right)
    if form in ("units", "loss") and len(words) == 1:
        stdin = altered(pick, a_list(pick) if form == "units" else losses(pick))
    elif files and pick.random() < 0.2:
        # The first file comes through standard input instead.
        name = next((word for word in words if word in files), None)
        if name and words[:2] not in ([b"shelf", b"make"], [b"shelf", b"add"]):
            stdin, words = files.pop(name), [b"-" if word == name else word for word in words]
    if pick.random() < 0.02:
        files[OUT] = b"old"
    return form, words, stdin, files


# ---- what a run may print

VERIFIED = (r"([^\n]+: (reached [\d.e-]+ = 1 \+ 4 x \(\d+ / \d+\) x \((\d+) / \(\3 \+ \d+\)\)"
            r"|not sealed: [^\n]+|a shelf without records|refused ([1-9]|1\d|2[0-8]) \d+)\n)+")
LINES = {
    "lines": r"sample( \d+){8} [0-9A-F]{16}\n(unit \d+( \d+){5}\n)+(scene \d+( \d+){7}\n)+",
    "totals": r"records \d+ lost \d+\n",
    "rows": r"  No\. .*\n( *\d+ .*\d UTC\n| *\d+ .*\.\d{6}\n)*",
    "survey": r"survey \d+ [1-9]\d*\n",
    "units": r"(\d+ \d+ \d+ \d+ \d+\n)+",
    "loss": r"([0-9A-F]{16} [0-9A-F]{16}\n)+",
    "sealed": r"sealed \d+\n(repeats \d+\n)?",
    "show": r"Record [^\n]*\n\n(This record is not sealed: .*\nNo seal leaves such a record .*\n\n)?Sample\n(.*\n)+"
            r"\nUnits: (.*\n)+\nScenes: (.*\n)+",
    "verify": VERIFIED,
    "sheet": r"((.{100}\n){60})+",
    "nothing": r"",
}
LINES = {form: re.compile(pattern) for form, pattern in LINES.items()}
REFUSED = re.compile(r"(refused ([1-9]|1\d|2[0-8])( \d+)?|sealed \d+\nrepeats refused 26 0)\n")
STEERING = re.compile("[\0-\x09\x0b-\x1f\x7f-\x9f\u061c\u200e\u200f\u2028-\u202e\u2066-\u2069]")
TAG = re.compile(r"<(/?)([a-z][a-z0-9]*)((?:\s[^<>\"]*(?:\"[^\"]*\"[^<>\"]*)*)?)>")


def balanced(text):
    """Whether the marks of a page are closed in order, and no other letter of a mark is left."""
    bare = TAG.sub("", re.sub(r"<style>.*?</style>", "", text.replace("<!DOCTYPE html>", "", 1), flags=re.S))
    opened = []
    for close, name, more in TAG.findall(text):
        if close:
            if not opened or opened.pop() != name:
                return False
        elif not more.endswith("/") and name not in ("meta", "br"):
            opened.append(name)
    return not opened and "<" not in bare and ">" not in bare


def printed_right(form, out):
    if form == "part":
        return len(out) >= 128 and struct.unpack_from("<I", out, 4)[0] == len(out)
    text = out.decode()
    if STEERING.search(text):
        return False
    if form == "json":
        whole = json.loads(text, parse_constant=lambda word: 1 / 0)
        return len(whole["units"]) > 0 and len(whole["scenes"]) > 0
    if form == "csv":
        rows = list(csv.reader(io.StringIO(text)))
        kinds = {row[0] for row in rows} == {"sample", "unit", "scene"}
        return kinds and not any(field[:1] in tuple("=+-@\t") for row in rows for field in row if field)
    if form == "page":
        return text.startswith("<!DOCTYPE html>") and balanced(text)
    return form not in LINES or LINES[form].fullmatch(text) is not None


def verified_wrong(status, out, said):
    """What is wrong with lines of verify that did not end with 0: each status has its reason."""
    refused = re.search(r": refused \d+ \d+$", out, re.M)
    if (refused or status == 2) and not re.search("^carolsedge verify: ", said, re.M):
        return "nothing was said"
    return None if status == 2 or refused or ": not sealed: " in out else "status 1 for no reason"


def wrong(form, words, ended, out, err):
    """What is wrong with how a run ended; None where nothing is."""
    status, seconds, memory = ended
    if status not in (0, 1, 2):
        return "exit status %d" % status
    if seconds > SECONDS or memory > MEMORY:
        return "%.1f s, %d bytes of memory" % (seconds, memory)
    try:
        said = err.decode()
        if STEERING.search(said) or "panicked" in said:
            return "standard error"
        if status == 0:
            return None if printed_right(form, out) else "what it printed"
        if words[:1] == [b"verify"] and LINES["verify"].fullmatch(out.decode()):
            return verified_wrong(status, out.decode(), said)
        if not re.search("^carolsedge", said, re.M):
            return "nothing was said"
        if status == 2:
            return "it printed something" if out else None
        return None if REFUSED.fullmatch(out.decode()) else "a refusal"
    except (ValueError, ArithmeticError, KeyError) as error:
        return "what it printed: %r" % error


# ---- running

class Worker:
    """A folder of its own, and three files that are standard input, output and error by turns."""

    def __init__(self):
        os.chdir(tempfile.mkdtemp(dir=PROGRAMS["folder"]))
        os.mkdir("../bin-%d" % os.getpid())
        self.place = os.path.abspath("../bin-%d" % os.getpid())
        script = "#!/bin/sh\n[ -s %s/y4m ] || exit 1\nexec /bin/cat %s/y4m\n" % (self.place, self.place)
        write(self.place + "/ffmpeg", script.encode())
        os.chmod(self.place + "/ffmpeg", 0o755)
        self.env = {"PATH": self.place}
        self.streams = [os.memfd_create(name, 0) for name in ("in", "out", "err")]
        resource.setrlimit(resource.RLIMIT_CORE, (0, 0))

    def spawn(self, words, stdin):
        for stream in self.streams:
            os.lseek(stream, 0, os.SEEK_SET)
            os.truncate(stream, 0)
        os.write(self.streams[0], stdin)
        os.lseek(self.streams[0], 0, os.SEEK_SET)
        as_ours = [(os.POSIX_SPAWN_DUP2, stream, number) for number, stream in enumerate(self.streams)]
        program = PROGRAMS["carolsedge"]
        pid = os.posix_spawn(program, [program, *words], self.env, file_actions=as_ours)
        signal.signal(signal.SIGALRM, lambda *_: os.kill(pid, signal.SIGKILL))
        signal.setitimer(signal.ITIMER_REAL, SECONDS)
        _, status, usage = os.wait4(pid, 0)
        left = signal.setitimer(signal.ITIMER_REAL, 0)[0]
        texts = [os.pread(stream, 1 << 24, 0) for stream in self.streams[1:]]
        return (os.waitstatus_to_exitcode(status), SECONDS - left, usage.ru_maxrss << 10), *texts

    def one(self, number):
        """A run: what is wrong, or its exit status and what it printed first."""
        pick = random.Random("%d %d" % (PROGRAMS["seed"], number))
        form, words, stdin, files = a_run(pick)
        for name, data in files.items():
            write(name, data)
        write(self.place + "/y4m", files.get(b"y4m", b""))
        ended, out, err = self.spawn(words, stdin)
        what = wrong(form, words, ended, out, err) or self.left(words, ended[0], files)
        if what:
            detail = "run %d of seed %d: %s\n%r\nstandard input %r\nfiles %r\nstatus %d, printed %r\nsaid %r"
            return detail % (number, PROGRAMS["seed"], what, words, stdin[:200],
                             {name: data[:100] for name, data in files.items()}, ended[0], out[:2000], err[:2000])
        return form or "words", ended, out[:12]

    def left(self, words, status, files):
        """What the run left in the folder that it should not have; the folder is empty then."""
        now = {name: read(name) for name in os.listdir(b".")}
        for name in now:
            os.remove(name)
        changed = {name for name in {*now, *files} if now.get(name) != files.get(name)}
        asked = {part for word in words for part in (word, word.split(b"=")[-1])}
        if status == 0 and len(changed) == 1 and changed < asked:
            return None
        # A passage is refused after the record is written, which stays.
        sealed = status == 1 and b"measure" in words and b"--passage" in b" ".join(words) and len(changed) == 1
        return None if not changed or sealed else "left or changed %s" % sorted(changed)


def chunk(numbers):
    worker = PROGRAMS.get("worker") or PROGRAMS.setdefault("worker", Worker())
    return [worker.one(number) for number in numbers]


def test():
    runs, seed = int(os.environ.get("FUZZ", 20000)), int(os.environ.get("SEED", 1))
    PROGRAMS.update(seed=seed, folder=os.getcwd())
    numbers = [int(os.environ["RUN"])] if "RUN" in os.environ else range(runs)
    chunks = [numbers[at : at + CHUNK] for at in range(0, len(numbers), CHUNK)]
    statuses, refusals, longest, most = collections.Counter(), set(), 0, 0
    with multiprocessing.get_context("fork").Pool(os.cpu_count()) as pool:
        for results in pool.imap_unordered(chunk, chunks):
            for result in results:
                if isinstance(result, str):
                    pool.terminate()
                    fail("fuzz: " + result)
                form, ended, out = result
                statuses[form, ended[0]] += 1
                longest, most = max(longest, ended[1]), max(most, ended[2])
                refusals |= {int(out.split()[1])} if out.startswith(b"refused ") else set()
    forms = {form for form, _ in FORMS}
    missing = {(form, status) for form in forms for status in (0, 1)} - set(statuses)
    check(len(numbers) < 20000 or not missing and len(refusals) > 20, "fuzz: seen %s of %s" % (refusals, missing))
    each = ["%s %d" % (word, sum(n for (_, s), n in statuses.items() if s == status))
            for status, word in enumerate(("done", "refused", "failed"))]
    return "fuzz: %d runs of seed %d: %s, by %d numbers; the longest %.2f s, the most memory %.1f MB" % (
        len(numbers), seed, ", ".join(each), len(refusals), longest, most / 1e6)
