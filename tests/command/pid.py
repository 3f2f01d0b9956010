# measure without --pid: the survey's identifier is taken and told, the record is the one with it; what can be read
# only once needs --pid; a refused survey makes no record.
import os
import subprocess
from common import (FAULTY, PROGRAMS, capture, carrying, check, counted, expect, good, identifiers, packets, proved,
                    read, same_record, stream, streams, write, y4m)

OUT = ["-o", "record"]


def told(most, next):
    """The line behind a survey, with the record's name: an identifier and its count, and the next one, if any."""
    packets = "1 good packet" if most[1] == 1 else "%d good packets" % most[1]
    behind = "the next, %d, has %d" % next if next else "no other has any"
    return "record: --pid %d is taken: a survey found %s of it; %s\n" % (most[0], packets, behind)


def stored():
    """Every stored stream: the record is the proved program's with the identifier that tshark finds most often."""
    surveyed = identifiers()
    for name, width, height, time, _ in streams():
        cap, luma = stream(name, ".pcap"), stream(name, ".y")
        most, next = surveyed[name]
        pid = most[0]
        record, sealed = proved(width, height, time, pid, cap, luma)
        file = write("pictures.y4m", y4m(read(luma), width, height, rate="1000000:%d" % time))
        raw = ["--size", "%dx%d" % (width, height), "--time", str(time)]
        for how, stdin, *words in (
            ("raw", b"", cap, luma, *raw),
            ("raw on standard input", read(luma), cap, "-", *raw),
            ("y4m", b"", cap, file),
        ):
            given = expect(name, 0, sealed, None, "measure", *words, *OUT, "--pid", str(pid), stdin=stdin)
            same_record(name + ", " + how + ", with --pid", record)
            check("is taken" not in given[2], name + ": a survey beside --pid")
            got = expect(name, 0, sealed, None, "measure", *words, *OUT, stdin=stdin)
            same_record(name + ", " + how, record)
            check(got[2] == told(most, next) + given[2], name + ": said " + got[2])


def decoded():
    """Without PICTURES ffmpeg is asked for the surveyed identifier, and given the capture from its beginning."""
    os.mkdir("stand-in")
    write("stand-in/ffmpeg", b'#!/bin/sh\necho "$@" >"$HERE/words"\ncat >"$HERE/got"\ncat "$HERE/gives"\n')
    os.chmod("stand-in/ffmpeg", 0o755)
    path = os.path.abspath("stand-in") + ":" + os.environ["PATH"]
    how = {"env": dict(os.environ, PATH=path, HERE=os.getcwd())}
    write("gives", y4m(read(stream("reduced", ".y")), 150, 122, "mono", rate="10:1"))
    cap = stream("reduced", ".pcap")
    record, sealed = proved(150, 122, 100000, 257, cap, stream("reduced", ".y"))
    expect("with --pid", 0, sealed, None, "measure", cap, *OUT, "--pid", "257", **how)
    words, got = read("words"), read("got")
    same_record("with --pid", record)
    expect("decoded", 0, sealed, [told((257, 191), (0, 26))], "measure", cap, *OUT, **how)
    same_record("decoded", record)
    check((read("words"), read("got")) == (words, got), "ffmpeg was asked for or given something else")


def made(raw):
    few, bad = carrying(packets(2, pid=200)), carrying(packets(5, pid=7, sync=0x46))
    damaged = carrying(packets(5, pid=8, damaged=True))
    for name, frames, most, next in (
        ("most", [few, carrying(packets(3, pid=300))], (300, 3), (200, 2)),
        ("lowest among equals", [carrying(packets(2, pid=8191)), carrying(packets(2, pid=0))], (0, 2), (8191, 2)),
        ("the lowest next", [carrying(packets(1, pid=pid)) for pid in (9, 5, 6, 5)], (5, 2), (6, 1)),
        ("one", [carrying(packets(1, pid=8191))], (8191, 1), None),
        ("bad and damaged packets do not count", [bad, damaged, few], (200, 2), None),
    ):
        write("capture", capture(frames))
        record, sealed = proved(30, 30, 40000, most[0], "capture", "luma")
        expect(name, 0, sealed, [told(most, next)], "measure", "capture", "luma", *OUT, *raw)
        same_record(name, record)


def once(raw):
    """Standard input (a pipe, a file), a FIFO and a device are told, and nothing is written."""
    data = capture(good(1))
    write("capture", data)
    said = ["carolsedge measure: --pid PID is missing: ", "carolsedge survey FILE", "carolsedge measure --help"]
    for pictures in (["luma", *raw], []):
        words = ["measure", "-", *pictures, *OUT]
        expect("a pipe", 2, b"", [*said, "standard input"], *words, stdin=data)
        with open("capture", "rb") as file:
            done = subprocess.run([PROGRAMS["carolsedge"], *words], stdin=file, capture_output=True, timeout=120)
        check(done.returncode == 2 and said[0].encode() in done.stderr, "a file on standard input: %r" % done.stderr)
    expect("a pipe by name", 2, b"", [*said, "/dev/stdin"], "measure", "/dev/stdin", "luma", *OUT, *raw, stdin=data)
    expect("a device", 2, b"", [*said, "/dev/null"], "measure", "/dev/null", "luma", *OUT, *raw)
    os.mkdir("folder")
    expect("a folder", 2, b"", ["folder: Is a directory"], "measure", "folder", "luma", *OUT, *raw)
    expect("no file", 2, b"", ["nowhere: No such file"], "measure", "nowhere", "luma", *OUT, *raw)
    expect("with --pid", 0, None, None, "measure", "-", "luma", *OUT, *raw, "--pid", "256", stdin=data)
    os.remove("record")


def refused(raw):
    """A refused survey: its number and place, the reason, and RECORD as it was, whether there was one or not."""
    for name, data, number, place in (
        *FAULTY,
        ("no frame", capture([]), 21, 0),
        ("no good packet", capture([carrying(packets(1, sync=0))]), 21, 0),
    ):
        write("capture", data)
        survey = expect(name, 1, b"refused %d %d\n" % (number, place), None, "survey", "capture")
        for before in (None, b"kept"):
            if before:
                write("record", before)
            for pictures in (["luma", *raw], []):
                got = expect(name, 1, survey[1], ["refused %d: " % number], "measure", "capture", *pictures, *OUT)
                check(got[2] == survey[2].replace(" survey:", " measure:", 1), name + ": said " + got[2])
                check((read("record") if before else os.path.lexists("record")) == (before or False), name)
        os.remove("record")


def test():
    raw = ["--size", "30x30", "--time", "40000"]
    write("luma", bytes(900))
    stored()
    decoded()
    made(raw)
    once(raw)
    refused(raw)
    return "pid: %d runs: the surveyed identifier, what can be read only once, and refused surveys" % counted()
