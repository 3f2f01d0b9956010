# No input and no device is ever lost: RECORD goes over nothing or over a regular file that is no input.
import os
import socket
import stat
import subprocess
from common import PROGRAMS, check, counted, expect, proved, read, same_record, stream, write

RAW = ["--size", "64x48", "--time", "40000", "--pid", "256"]


def listing():
    """Every name with what it is: kind, number, contents of a file, text of a link."""
    all = {}
    for folder, folders, files in os.walk("."):
        for name in folders + files:
            path = os.path.join(folder, name)
            about = os.lstat(path)
            kind = stat.S_IFMT(about.st_mode)
            data = read(path) if kind == stat.S_IFREG else os.readlink(path) if kind == stat.S_IFLNK else b""
            all[path] = (kind, about.st_ino, about.st_rdev, data)
    return all


def left(name, said, words, stdin=None):
    """What stands there is left alone, which is said; `stdin` is the name of a file."""
    before = listing()
    with open(stdin or "/dev/null", "rb") as file:
        done = subprocess.run([PROGRAMS["carolsedge"], "measure", *words], stdin=file, capture_output=True)
    told = done.stderr.decode()
    right = done.returncode == 2 and done.stdout == b"" and said in told and "left alone" in told
    check(right, "%s: status %d, %s" % (name, done.returncode, told))
    check(listing() == before, "%s: something was touched" % name)
    expect.count += 1


def kinds(cap, luma):
    os.mkfifo("fifo")
    os.mkdir("folder")
    os.symlink("nowhere", "dangling")
    write("old", b"old")
    os.symlink("old", "link")
    os.symlink(cap, "link-to-capture")
    socket.socket(socket.AF_UNIX).bind("socket")
    for said, names in (
        ("a FIFO", ["fifo"]),
        ("a socket", ["socket"]),
        ("a folder", ["folder", "folder/", "..", "/"]),
        ("a symbolic link", ["link", "dangling", "link-to-capture"]),
    ):
        for name in names:
            left(name, "it is " + said, [cap, luma, "-o", name, *RAW])
    try:
        os.mknod("null", 0o666 | stat.S_IFCHR, os.makedev(1, 3))
        device = "devices too"
    except PermissionError:
        return "no device could be made"
    left("a device", "it is a device", [cap, luma, "-o", "null", *RAW])
    return device


def inputs(cap, luma):
    os.link(cap, "hard")
    os.link(luma, "hard.y")
    os.mkdir("in")
    here = os.path.basename(os.getcwd())
    for name in (cap, "./" + cap, "hard", os.path.abspath(cap), "in/../" + cap, "../%s/%s" % (here, cap)):
        left("the capture as " + name, "the same file as " + cap, [cap, luma, "-o", name, *RAW])
    for name in (luma, "hard.y"):
        left("the pictures as " + name, "the same file as " + luma, [cap, luma, "-o", name, *RAW])
    os.symlink(cap, "by-link")
    left("the capture through a link", "the same file as by-link", ["by-link", luma, "-o", cap, *RAW])
    left("the capture on standard input", "the same file as standard input", ["-", luma, "-o", cap, *RAW], stdin=cap)
    left("the luma on standard input", "the same file as standard input", [cap, "-", "-o", luma, *RAW], stdin=luma)
    left("the capture that is to be decoded", "the same file as " + cap, [cap, "-o", "hard", "--pid", "256"])


def mode_of(name):
    return stat.S_IMODE(os.stat(name).st_mode)


def modes(cap, luma):
    record, sealed = proved(64, 48, 40000, 256, cap, luma)
    words = ["measure", cap, luma, "-o", "record", *RAW]
    for mask, mode in ((0o022, 0o644), (0o077, 0o600), (0o027, 0o640), (0, 0o666)):
        expect("umask %o" % mask, 0, sealed, None, *words, umask=mask)
        check(mode_of("record") == mode, "umask %o: mode %o" % (mask, mode_of("record")))
        same_record("umask %o" % mask, record)
    for mode in (0o600, 0o644, 0o664, 0o440):
        write("record", b"old")
        os.chmod("record", mode)
        expect("over mode %o" % mode, 0, sealed, None, *words, umask=0o022)
        check(mode_of("record") == mode, "over mode %o: mode %o" % (mode, mode_of("record")))
        same_record("over mode %o" % mode, record)
    for name, said, place in (("no folder", "none/record: No such file or directory", "none/record"),
                              ("a file as a folder", "Not a directory", cap + "/record")):
        expect(name, 2, b"", [said], "measure", cap, luma, "-o", place, *RAW)
    write("record", b"old")
    expect("refused", 1, b"refused 5 3\n", None, "measure", luma, luma, "-o", "record", *RAW)
    expect("not read", 2, b"", ["nowhere: No such file"], "measure", "nowhere", luma, "-o", "record", *RAW)
    expect("not read", 2, b"", ["nowhere: No such file"], "measure", cap, "nowhere", "-o", "record", *RAW)
    expect("a folder", 2, b"", ["folder: Is a directory"], "measure", "folder", luma, "-o", "record", *RAW)
    expect("a folder", 2, b"", ["folder: Is a directory"], "measure", cap, "folder", "-o", "record", *RAW)
    check(read("record") == b"old", "a refused or failed run altered the record that stood there")
    check(not [name for name in os.listdir(".") if name.startswith(".")], "a file was left: %s" % os.listdir("."))


def unwritable(cap):
    """A folder that cannot be written shows before anything is read: what comes through a pipe would be lost."""
    if os.geteuid() != 0:
        return "no other user could be tried"
    os.mkdir("closed", 0o755)
    os.chmod(".", 0o755)
    reader, writer = os.pipe()
    words = [PROGRAMS["carolsedge"], "measure", "-", "-o", "closed/record", "--pid", "256"]
    try:
        done = subprocess.run(words, stdin=reader, capture_output=True, user=65534, group=65534, timeout=20)
    except PermissionError:
        return "no other user can run the command here"
    finally:
        os.close(reader)
        os.close(writer)
    right = done.returncode == 2 and done.stderr == b"carolsedge measure: closed/record: Permission denied\n"
    check(right and not os.listdir("closed"), "a folder that cannot be written: %r" % done.stderr)
    expect.count += 1
    return "a folder that cannot be written shows early"


def test():
    cap, luma = write("capture.pcap", read(stream("clip", ".pcap"))), write("luma.y", read(stream("clip", ".y")))
    device = kinds(cap, luma)
    inputs(cap, luma)
    modes(cap, luma)
    early = unwritable(cap)
    said = "links, FIFOs, sockets, folders (%s), inputs by any name are left alone; modes follow" % device
    return "replacing: %d runs: %s; %s" % (counted(), said, early)
