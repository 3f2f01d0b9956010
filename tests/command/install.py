# make install: the command, the library with its header, pkg-config's file, the man pages and the rule, all of them
# usable; and make is quiet about it. make install-python: the Python module.
import os
import shutil
import subprocess
from common import PROGRAMS, ROOT, check, counted, expect, proved, stream, write


def done(*words, **how):
    got = subprocess.run(words, capture_output=True, text=True, **how)
    check(got.returncode == 0, "%s: %s" % (" ".join(words), got.stderr))
    return got.stdout


def quiet():
    """What the toolchain prints while the library is built shows where that fails, and only there."""
    os.mkdir("stand-in")
    for name, does in (("rt", "echo noise of $2; exit $STATUS"), ("ar", "cat >/dev/null")):
        write("stand-in/" + name, b"#!/bin/sh\n" + does.encode())
        os.chmod("stand-in/" + name, 0o755)
    for status in (0, 1):
        path = os.path.abspath("stand-in") + ":" + os.environ["PATH"]
        words = ["make", "-C", ROOT, "library", "archive=" + os.path.abspath("none.a")]
        env = dict(os.environ, PATH=path, STATUS=str(status), MAKEFLAGS="")
        got = subprocess.run(words, capture_output=True, text=True, env=env)
        said = got.stdout + got.stderr
        check((got.returncode != 0) == bool(status), "make library: status %d, %s" % (got.returncode, said))
        check(("noise of c_sample" in said) == bool(status), "make library prints " + said)


def test():
    quiet()
    prefix = os.path.abspath("prefix")
    lines = done("make", "--no-print-directory", "-C", ROOT, "install", "PREFIX=" + prefix).splitlines()
    check(len(lines) == 1 and prefix in lines[0], "make install prints %s" % lines)
    files = [os.path.join(at, name) for at, _, names in os.walk(prefix) for name in names]
    places = sorted(os.path.relpath(file, prefix) for file in files)
    wanted = ["bin/carolsedge", "include/carolsedge.h", "lib/libcarolsedge.a", "lib/pkgconfig/carolsedge.pc"]
    pages = ["share/man/man1/" + name for name in os.listdir(os.path.join(ROOT, "command", "man"))]
    wanted += ["share/doc/carolsedge/RULE.md", "share/doc/carolsedge/PROMISES.md"]
    check(places == sorted(wanted + pages), "installed: %s" % places)
    with open(prefix + "/share/man/man1/carolsedge.1") as page:
        check(prefix + "/share/doc/carolsedge/RULE.md\n" in page.read(), "the man page does not say where the rule is")
    flags = ["-I%s/include" % prefix, "-L%s/lib" % prefix, "-lcarolsedge"]
    said = []
    if shutil.which("pkg-config"):
        env = dict(os.environ, PKG_CONFIG_PATH=prefix + "/lib/pkgconfig")
        asked = done("pkg-config", "--cflags", "--libs", "carolsedge", env=env)
        check(asked.split() == flags, "pkg-config says " + asked)
    else:
        said.append("pkg-config is not installed")
    done("cc", "-std=c11", os.path.join(ROOT, "examples", "c", "measure.c"), *flags, "-o", "example")
    done("make", "-s", "-C", ROOT, "install-python", "PREFIX=" + prefix)
    module = sorted(os.listdir(prefix + "/lib/carolsedge"))
    check(module == ["carolsedge.py", "libcarolsedge.so"], "installed for Python: %s" % module)
    ask = "import carolsedge; print(carolsedge.read(open('record', 'rb').read()).header.index)"
    write("record", proved(64, 48, 40000, 256, stream("clip", ".pcap"), stream("clip", ".y"), 4)[0])
    env = dict(os.environ, PYTHONPATH=prefix + "/lib/carolsedge", PYTHONDONTWRITEBYTECODE="1")
    env.pop("CAROLSEDGE_LIB_DIR", None)
    check(done("python3", "-c", ask, env=env) == "3.72\n", "the installed module reads another index")
    done("./example", "64", "48", "40000", "256", stream("clip", ".pcap"), stream("clip", ".y"))
    for name in pages if shutil.which("man") else []:
        page = subprocess.run(["man", "--warnings", "-l", os.path.join(prefix, name)], capture_output=True, text=True)
        check(page.returncode == 0 and not page.stderr and "EXIT STATUS" in page.stdout, name + ": " + page.stderr)
    if not shutil.which("man"):
        said.append("man is not installed")
    PROGRAMS["installed"] = prefix + "/bin/carolsedge"
    expect("installed", 0, None, [], "--version", program="installed")
    done("make", "-s", "-C", ROOT, "install", "PREFIX=/usr", "DESTDIR=" + os.path.abspath("stage"))
    told = open("stage/usr/lib/pkgconfig/carolsedge.pc").read()
    check("prefix=/usr\n" in told, "DESTDIR does not stand before PREFIX")
    also = "".join("; " + line for line in said)
    return "install: %d files, of which a C program builds and Python reads%s" % (len(places), also)
