# How a file is written, by whichever subcommand: nobody else gets rights through it, nothing is left next to it
# whatever happens, and what cannot be written shows before any input is read.
import fcntl
import functools
import os
import random
import re
import resource
import shutil
import signal
import stat
import subprocess
import termios
from common import PROGRAMS, check, counted, expect, in_memory, nameless_files, proved, read, stream, taken, write
from shelf import laid_out
from show import made

RAW = ["--size", "64x48", "--time", "40000", "--pid", "256"]
NOBODY = 65534
SIGNALS = [signal.Signals[name] for name in ("SIGHUP", "SIGINT", "SIGQUIT", "SIGUSR1", "SIGUSR2", "SIGALRM", "SIGTERM",
                                             "SIGXCPU", "SIGXFSZ", "SIGVTALRM", "SIGPROF")]
# A file system that makes no files without a name.
NAMED = b"""
#define _GNU_SOURCE
#include <errno.h>
#include <fcntl.h>
#include <stdarg.h>
#include <sys/syscall.h>
#include <unistd.h>
int open64(const char *name, int flags, ...) {
    va_list rest;
    va_start(rest, flags);
    int mode = va_arg(rest, int);
    va_end(rest);
    if ((flags & O_TMPFILE) == O_TMPFILE) {
        errno = EOPNOTSUPP;
        return -1;
    }
    return syscall(SYS_openat, AT_FDCWD, name, flags, mode);
}
"""
# And one that has neither modes nor second names (FAT).
FAT = NAMED + b"""
int linkat(int a, const char *old, int b, const char *new, int flags) { errno = EPERM; return -1; }
int fchmod(int fd, unsigned mode) { errno = EPERM; return -1; }
"""
# Says the mode and the number of names of a file that is written or synced.
SEEN = b"""
#include <stdio.h>
#include <sys/stat.h>
#include <sys/syscall.h>
#include <unistd.h>
static void look(int fd) {
    struct stat s;
    char text[64];
    if (fstat(fd, &s) == 0 && S_ISREG(s.st_mode))
        syscall(SYS_write, 2, text, snprintf(text, sizeof text, "seen %o %d\\n", s.st_mode & 07777, (int)s.st_nlink));
}
long write(int fd, const void *bytes, unsigned long n) { look(fd); return syscall(SYS_write, fd, bytes, n); }
int fsync(int fd) { look(fd); return syscall(SYS_fsync, fd); }
"""


def prepare():
    """Inputs of each subcommand that writes, and the shims."""
    write("capture.pcap", read(stream("clip", ".pcap")))
    write("luma.y", read(stream("clip", ".y")))
    write("0.record", made(random.Random(0)))
    write("1.record", made(random.Random(1)))
    os.chmod(".", 0o755)
    for name, source in (("named", NAMED), ("fat", FAT), ("seen", SEEN)):
        write(name + ".c", source)
        subprocess.run(["cc", "-shared", "-fPIC", "-w", name + ".c", "-o", name + ".so"], check=True)


def preload(*names):
    return {"LD_PRELOAD": ":".join(os.path.abspath(name + ".so") for name in names)} if names else {}


def writers(folder="."):
    """Words of each subcommand that writes, the file, and what it may be before."""
    old, shelf = made(random.Random(2)), laid_out([read("0.record")])
    place = os.path.join(folder, "file")
    yield ["measure", "capture.pcap", "luma.y", "-o", place, *RAW], place, old
    yield ["page", "0.record", "-o", place], place, old
    yield ["shelf", "add", place, "1.record"], place, shelf
    yield ["shelf", "make", place, "1.record"], place, shelf


def hidden(folder="."):
    return [name for name in os.listdir(folder) if name.startswith(".")]


def mode_of(name):
    return stat.S_IMODE(os.stat(name).st_mode)


# ---- nobody is let in


def modes():
    """Setuid, setgid and sticky bits do not pass to the new file, and other bits only from a file of the same user."""
    for words, place, old in writers():
        for mode, after in ((0o6777, 0o777), (0o1644, 0o644), (0o4400, 0o400), (0o600, 0o600)):
            write(place, old)
            os.chmod(place, mode)
            expect("over mode %o" % mode, 0, None, None, *words, umask=0o022)
            check(mode_of(place) == after, "%s: over mode %o: mode %o" % (words, mode, mode_of(place)))
            os.remove(place)


def two_users():
    if os.geteuid() != 0:
        return "no other user could be tried"
    os.mkdir("shared")
    os.chmod("shared", 0o1777)
    other = {"user": NOBODY, "group": NOBODY, "extra_groups": []}
    for words, place, old in writers("shared"):
        make = ["sh", "-c", 'umask 0; cat >"$1" && chmod 6777 "$1"', "-", place]
        subprocess.run(make, input=old, check=True, **other)
        expect("over another user's file", 0, None, None, *words, umask=0o022)
        about = os.stat(place)
        right = (about.st_uid, stat.S_IMODE(about.st_mode)) == (0, 0o644)
        check(right, "%s: over another user's file: user %d, mode %o" % (words, about.st_uid, about.st_mode))
        os.remove(place)
    command = shutil.copy(PROGRAMS["carolsedge"], "command")
    words = [os.path.abspath(command), "page", "0.record", "-o", "shared/file"]
    write("shared/file", b"old")
    os.chown("shared/file", NOBODY, 0)
    os.chmod("shared/file", 0o664)
    subprocess.run(words, check=True, umask=0o022, **other)
    check(mode_of("shared/file") == 0o604, "a group that it is not in: mode %o" % mode_of("shared/file"))
    os.chown("shared/file", 0, NOBODY)
    os.chmod("shared/file", 0o640)
    subprocess.run([PROGRAMS["carolsedge"], *words[1:]], check=True)
    about = os.stat("shared/file")
    check((about.st_gid, mode_of("shared/file")) == (NOBODY, 0o640), "a group: %d %o" % (about.st_gid, about.st_mode))
    untouched("another user's file in a shared folder", "shared/file: it cannot be replaced", "shared/file",
              program=words[0], **other)
    os.remove("shared/file")
    expect.count += 2
    return "two users"


def private():
    """A file is its owner's alone as long as it is written, even where the umask leaves all bits."""
    for shims in (["seen"], ["seen", "named"]):
        for words, place, old in writers():
            write(place, old)
            os.chmod(place, 0o600)
            got = expect("a private file", 0, None, None, *words, umask=0, env=dict(os.environ, **preload(*shims)))
            seen = [line.split() for line in got[2].splitlines() if line.startswith("seen ")]
            open_to_others = [line for line in seen if int(line[1], 8) & 0o077 and line[2] != "0"]
            check(seen and not open_to_others, "%s: seen (mode, names) %s" % (words, open_to_others))
            check(mode_of(place) == 0o600, "%s: mode %o" % (words, mode_of(place)))
            os.remove(place)


# ---- nothing is left


def too_large():
    """ulimit -f: the file stays as it was, with a line and exit status 2."""
    limit = {"preexec_fn": lambda: resource.setrlimit(resource.RLIMIT_FSIZE, (256, 256))}
    for shims in ([], ["named"]):
        for words, place, old in writers():
            write(place, old)
            said = [place[2:] + ": File too large"]
            expect("a limit", 2, b"", said, *words, env=dict(os.environ, **preload(*shims)), **limit)
            check(read(place) == old and not hidden(), "%s: a limit: left %s" % (words, hidden()))
            os.remove(place)
    with open("shown", "wb") as out:
        words = [PROGRAMS["carolsedge"], "show", "0.record"]
        done = subprocess.run(words, stdout=out, stderr=subprocess.PIPE, **limit)
    said = b"carolsedge show: standard output: File too large\n"
    check((done.returncode, done.stderr) == (2, said), "a limit: status %d, %r" % (done.returncode, done.stderr))
    os.remove("shown")


@functools.cache
def strace():
    found = shutil.which("strace")
    return found if found and subprocess.run([found, "-o", "/dev/null", "true"]).returncode == 0 else None


def calls(words, shims):
    """The system calls from the first that makes a file on: the name of each, and the how manieth of that name."""
    traced = [strace(), "-o", "calls", *environment(shims), PROGRAMS["carolsedge"], *words]
    subprocess.run(traced, check=True, capture_output=True)
    lines = read("calls").decode(errors="replace").splitlines()
    names = [re.match(r"(\w+)\(", line) for line in lines]
    first = min(i for i, line in enumerate(lines) if "O_TMPFILE" in line or ".carolsedge-" in line)
    os.remove("calls")
    counts, found = {}, []
    for i, name in enumerate(match and match[1] for match in names):
        counts[name] = counts.get(name, 0) + 1
        if i >= first and name not in (None, "exit_group"):
            found.append((name, counts[name]))
    return found


def environment(shims):
    return [word for name, value in preload(*shims).items() for word in ("-E", "%s=%s" % (name, value))]


def stopped(words, shims, call, number):
    """A run that gets this signal as it enters a call."""
    inject = "inject=%s:signal=%s:when=%d" % (call[0], number.name, call[1])
    traced = [strace(), "-o", "/dev/null", "-e", "trace=" + call[0], "-e", inject, *environment(shims)]
    no_core = lambda: resource.setrlimit(resource.RLIMIT_CORE, (0, 0))
    done = subprocess.run([*traced, PROGRAMS["carolsedge"], *words], capture_output=True, preexec_fn=no_core)
    check(done.returncode in (0, -number), "%s at %s: status %d" % (number.name, call, done.returncode))
    expect.count += 1


def interrupted(shims, signals, every):
    """A signal at each call: the file is old or whole, and no other is left. Each call gets `every` of the signals."""
    cases = [(words, place, old) for words, place, old in writers()]
    turn = 0
    for words, place, old in cases[1:3] if every == len(signals) else cases:
        write(place, old)
        stages = calls(words, shims)
        whole = read(place)
        check(whole != old, "%s: nothing was written" % words)
        before = sorted(os.listdir("."))
        for call in stages:
            for number in (signals[(turn + i) % len(signals)] for i in range(every)):
                write(place, old)
                stopped(words, shims, call, number)
                check(read(place) in (old, whole), "%s: %s at %s: a broken file" % (words, number.name, call))
                after = sorted(os.listdir("."))
                check(after == before, "%s: %s at %s: left %s" % (words, number.name, call, hidden()))
                turn += 1
        os.remove(place)


def killed():
    """SIGKILL leaves nothing of a new file, and of one that replaces another only a name between two calls."""
    for old in (None, made(random.Random(2))):
        words = ["page", "0.record", "-o", "file"]
        if old:
            write("file", old)
        for call in calls(words, []):
            os.remove("file")
            if old:
                write("file", old)
            stopped(words, [], call, signal.SIGKILL)
            left = hidden()
            check(not left or (old and call[0].startswith("rename")), "killed at %s: left %s" % (call, left))
            for name in left:
                os.remove(name)
            check(old is None or os.path.lexists("file"), "killed at %s: the file is gone" % (call,))
            write("file", old or b"")
        os.remove("file")


def signalled():
    if not strace():
        return "no signals at each call without strace"
    prepare()
    shims = [[], ["named"]] if nameless_files() else [["named"]]
    for shim in shims:
        interrupted(shim, SIGNALS, 1)
    interrupted(["named"], SIGNALS, len(SIGNALS))
    if not nameless_files():
        return "signals at each call; no files without a name here"
    killed()
    return "signals at each call"


# ---- what fails, fails early


def untouched(name, said, place, program=None, **how):
    """The run fails before it reads a byte of standard input."""
    reader, writer = os.pipe()
    os.write(writer, read("capture.pcap")[:1000])
    os.close(writer)
    before = {folder: sorted(files) for folder, _, files in os.walk(".")}
    words = [program or PROGRAMS["carolsedge"], "measure", "-", "luma.y", "-o", place, *RAW]
    done = subprocess.run(words, stdin=reader, capture_output=True, timeout=60, **how)
    unread = int.from_bytes(fcntl.ioctl(reader, termios.FIONREAD, bytes(4)), "little")
    os.close(reader)
    told = done.stderr.decode()
    check(done.returncode == 2 and said in told, "%s: status %d, %s" % (name, done.returncode, told))
    check(unread == 1000, "%s: %d bytes of standard input are gone" % (name, 1000 - unread))
    after = {folder: sorted(files) for folder, _, files in os.walk(".")}
    check(after == before, "%s: left %s" % (name, after))
    expect.count += 1


def early():
    untouched("no folder", "new/record: No such file or directory", "new/record")
    untouched("a folder that is not there", "new/: there is no such folder", "new/")
    untouched("a folder that is not there", "new/.: there is no such folder", "new/.")
    untouched("a file as a folder", "Not a directory", "0.record/record")
    untouched("a long name", "File name too long", "x" * 300)
    limit = lambda: resource.setrlimit(resource.RLIMIT_FSIZE, (256, 256))
    untouched("a limit", "record: File too large", "record", preexec_fn=limit)
    env = dict(os.environ, **preload("named"))
    untouched("a limit, named", "record: File too large", "record", preexec_fn=limit, env=env)


def chattr(sign, name):
    done = shutil.which("chattr") and subprocess.run(["chattr", sign, name], capture_output=True)
    return bool(done) and done.returncode == 0


def attributes():
    """An append-only folder takes a new file and nothing else; an immutable file, and one there, stay as they are."""
    os.mkdir("append")
    write("append/old", b"old")
    write("fixed", b"old")
    if not (chattr("+a", "append") and chattr("+i", "fixed")):
        chattr("-a", "append")
        return "no attributes (chattr)"
    try:
        untouched("an immutable file", "fixed: it cannot be replaced: Operation not permitted", "fixed")
        untouched("in an append-only folder", "append/old: it cannot be replaced: Operation", "append/old")
        if nameless_files():
            expect("a new file", 0, None, None, "measure", "capture.pcap", "luma.y", "-o", "append/new", *RAW)
            expect("a new page", 0, b"", [], "page", "0.record", "-o", "append/page")
            check(sorted(os.listdir("append")) == ["new", "old", "page"], "append: %s" % os.listdir("append"))
    finally:
        chattr("-a", "append")
        chattr("-i", "fixed")
    return "attributes"


def full_disk():
    """No room shows early; room that there was is kept for the record, whatever fills the disk meanwhile."""
    os.mkdir("disk")
    mount = ["mount", "-t", "tmpfs", "-o", "size=64k", "tmpfs", "disk"]
    if subprocess.run(mount, capture_output=True).returncode != 0:
        return "no small disk could be mounted"
    fill = "head -c 100000 /dev/zero >disk/filler 2>/dev/null"
    try:
        subprocess.run(fill, shell=True)
        untouched("a full disk", "disk/record: No space left on device", "disk/record")
        os.remove("disk/filler")
        run = begun("disk/record")
        subprocess.run(fill, shell=True)
        status, err = completed(run)
        same = status == 0 and read("disk/record") == read("proved.record")
        check(same, "a disk that is full by now: status %d, %s" % (status, err))
        for shims in ([], ["named"]):
            for words, place, old in writers("disk"):
                os.remove("disk/filler")
                write(place, old)
                subprocess.run(fill, shell=True)
                said = [place + ": No space left on device"]
                expect("a full disk", 2, b"", said, *words, env=dict(os.environ, **preload(*shims)))
                same = read(place) == old and sorted(os.listdir("disk")) == ["file", "filler", "record"]
                check(same, "%s: a full disk: %s" % (words, os.listdir("disk")))
    finally:
        subprocess.run(["umount", "disk"], check=True)
    return "a full disk"


def begun(place, **how):
    """A run that has read some of its standard input."""
    words = [PROGRAMS["carolsedge"], "measure", "-", "luma.y", "-o", place, *RAW]
    pipes = {name: subprocess.PIPE for name in ("stdin", "stdout", "stderr")}
    run = subprocess.Popen(words, **pipes, **how)
    run.stdin.write(read("capture.pcap")[:1000])
    taken(run)
    return run


def completed(run):
    _, err = run.communicate(read("capture.pcap")[1000:], timeout=60)
    expect.count += 1
    return run.returncode, err.decode()


def late():
    """What can only fail late loses nothing that came through a pipe, and says where that is."""
    os.mkdir("tmp")
    for shims in ([], ["named"]):
        env = dict(os.environ, TMPDIR=os.path.abspath("tmp"), **preload(*shims))
        for name, spoil, said in (
            ("a folder that is gone", lambda: os.rmdir("away"), "away/record: No such file or directory"),
            ("a folder there by now", lambda: os.mkdir("away/record"), "record: it is a folder, and is left alone"),
        ):
            os.mkdir("away")
            run = begun("away/record", env=env)
            spoil()
            status, err = completed(run)
            kept = re.search("The record is kept as (.*): what came", err)
            check(status == 2 and said in err and kept, "%s: status %d, %s" % (name, status, err))
            right = read(kept[1]) == read("proved.record") and mode_of(kept[1]) == 0o600
            check(right and os.listdir("tmp") == [os.path.basename(kept[1])], "%s: %s" % (name, os.listdir("tmp")))
            os.remove(kept[1])
            shutil.rmtree("away", ignore_errors=True)
    os.mkdir("away")
    run = begun("away/record", env=dict(os.environ, TMPDIR="/nowhere"))
    os.rmdir("away")
    status, err = completed(run)
    check(status == 2 and "The record is lost" in err, "nowhere to keep it: status %d, %s" % (status, err))


def bare():
    """On a file system without modes, second names and files without a name all is written too."""
    for words, place, old in writers():
        for before in (old, None):
            if before:
                write(place, before)
            elif words[0] == "shelf":
                words = ["shelf", "make", place, "1.record"]
            expect("no modes", 0, None, None, *words, env=dict(os.environ, **preload("fat")))
            check(read(place) != before and not hidden(), "%s: no modes: left %s" % (words, hidden()))
            os.remove(place)


def others_meanwhile():
    """A file that comes under the name while a record is measured is replaced, as one that was there before."""
    for shims in ([], ["named"]):
        run = begun("record", env=dict(os.environ, **preload(*shims)))
        write("record", b"other")
        status, err = completed(run)
        check(status == 0 and read("record") == read("proved.record"), "another file by now: %d, %s" % (status, err))
        os.remove("record")


def test():
    prepare()
    proved(64, 48, 40000, 256, "capture.pcap", "luma.y")
    modes()
    users = two_users()
    private()
    too_large()
    early()
    parts = [users, attributes(), full_disk()]
    late()
    bare()
    others_meanwhile()
    parts.append(in_memory(signalled))
    return "writing: %d runs: modes, limits, early and late failures; %s" % (counted(), ", ".join(parts))
