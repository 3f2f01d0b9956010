# A decoder that fails, hangs, or outlives the run; and a stream whose pictures change their size.
import concurrent.futures
import os
import shutil
import signal
import subprocess
import time
from common import PROGRAMS, capture, carrying, check, counted, expect, fail, good, proved, read, write, y4m

OUT = ["-o", "record", "--pid", "256"]
LATE = "ffmpeg took nothing and gave nothing for %d s, and was ended; --decoder-timeout SECONDS waits longer"


def ffmpeg_is(script, folder="stand-in"):
    """A stand-in for ffmpeg, which is alone in its folder."""
    os.makedirs(folder, exist_ok=True)
    write(folder + "/ffmpeg", b"#!/bin/sh\n" + script.encode())
    os.chmod(folder + "/ffmpeg", 0o755)
    path = os.path.abspath(folder) + ":" + os.environ["PATH"]
    return {"env": dict(os.environ, PATH=path, HERE=os.getcwd())}


def fails():
    """It is ended before the first picture, or could not be run: exit status 2 and what it said; but the capture's own
    refusals come first. What it says of a stream without pictures stands with refusal 14."""
    for name, script, said in (
        ("killed at once", "kill -KILL $$", "signal: 9 (SIGKILL)"),
        ("killed after its input", "cat >/dev/null; kill -SEGV $$", "signal: 11 (SIGSEGV)"),
        ("killed, and said why", "echo no memory >&2; kill -ABRT $$", "no memory (signal: 6 (SIGABRT))"),
        ("no library", "echo 'ffmpeg: error while loading shared libraries' >&2; exit 127", "shared libraries"),
        ("another exit status", "cat >/dev/null; exit 69", "exit status: 69"),
        ("a heading and no picture", "cat >/dev/null; head -n 1 $HERE/whole; kill -KILL $$", "signal: 9 (SIGKILL)"),
    ):
        said = ["capture.pcap: ffmpeg failed before its first picture: ", said]
        expect(name, 2, b"", said, "measure", "capture.pcap", *OUT, **ffmpeg_is(script))
        said = ["refused 12", "has identifier 300"]
        expect(name, 1, b"refused 12 0\n", said, "measure", "capture.pcap", "-o", "record", "--pid", "300",
               **ffmpeg_is(script))
        expect(name, 1, b"refused 5 3\n", ["refused 5"], "measure", "whole", *OUT, **ffmpeg_is(script))
        check(not os.path.lexists("record"), name + ": a record")
    how = ffmpeg_is("cat >/dev/null; head -c 3000 $HERE/whole; kill -KILL $$")
    expect("killed later", 2, b"", ["capture.pcap: ffmpeg failed: signal: 9"], "measure", "capture.pcap", *OUT, **how)
    write("many", y4m(bytes(751 * 900), 30, 30, "mono"))
    how = ffmpeg_is("cat $HERE/many & sleep 20")
    expect("too many, and its child goes on", 1, b"refused 10 675000\n", None, "measure", "capture.pcap", *OUT, **how)
    other = ["capture.pcap: the stream of PID 256: ffmpeg gave something else than a y4m stream"]
    for script in ("echo hello", "yes", "exec cat /dev/zero"):
        expect("no y4m stream", 2, b"", other, "measure", "capture.pcap", *OUT, **ffmpeg_is(script))
    said = ["ffmpeg decoded no picture: ", "Unrecognized option"]
    old = "echo \"[fatal] Unrecognized option 'autoscale'.\" >&2; exit 1"
    expect("an old one", 1, b"refused 14 0\n", said, "measure", "capture.pcap", *OUT, **ffmpeg_is(old))
    for script in ("cat >/dev/null", "cat >/dev/null; head -n 1 $HERE/whole"):
        said = ["ffmpeg decoded no picture: exit status: 0"]
        expect("nothing, and well", 1, b"refused 14 0\n", said, "measure", "capture.pcap", *OUT, **ffmpeg_is(script))


def hangs():
    """It gives nothing for a second, in whatever state, and whatever it does not heed."""
    deaf = "trap '' TERM PIPE HUP INT; "
    within = OUT + ["--decoder-timeout", "1"]
    scripts = (
        ("at once", deaf + "exec sleep 60"),
        ("after its input", deaf + "cat >/dev/null; exec sleep 60"),
        ("after its heading", deaf + "head -n 1 $HERE/whole; exec sleep 60"),
        ("within its pictures", deaf + "head -c 3000 $HERE/whole; exec sleep 60"),
        ("after its pictures", deaf + "cat $HERE/whole; exec sleep 60"),
        ("with its output closed", deaf + "cat $HERE/whole; exec >&-; exec sleep 60"),
        ("with all but its input closed", deaf + "exec >&- 2>&-; exec sleep 60"),
        ("with a child of its own", "sleep 20 & sleep 20"),
        ("with a child that holds its pipes", "cat $HERE/whole; sleep 20 & exit 0"),
    )

    def late(case):
        cap, name, how = case
        begun = time.monotonic()
        expect("it hangs " + name, 2, b"", ["%s: %s" % (cap, LATE % 1)], "measure", cap, *within, **how)
        check(time.monotonic() - begun < 10, "it hangs %s: ended after %.1f s" % (name, time.monotonic() - begun))

    # A script that is still open for writing anywhere cannot be run, so all are written before the first run begins.
    cases = [(cap, name, ffmpeg_is(script, "stand-in-%s-%d" % (cap, number)))
             for cap in ("capture.pcap", "large.pcap") for number, (name, script) in enumerate(scripts)]
    with concurrent.futures.ThreadPoolExecutor(len(cases)) as pool:
        list(pool.map(late, cases))
    check(not os.path.lexists("record"), "it hangs: a record")
    for word in ("0", "-1", "x", "", "4294967296"):
        wrong = ["measure", "capture.pcap", *OUT, "--decoder-timeout=" + word]
        expect("a time " + word, 2, b"", ["--decoder-timeout %s: not a number of seconds" % word], *wrong)
    given = ["measure", "capture.pcap", "whole", *within]
    expect("nothing decoded", 2, b"", ["--decoder-timeout: PICTURES are given, and nothing is decoded"], *given)


def slow():
    """Time counts only while ffmpeg owes something: not while the capture is waited for, nor while bytes move."""
    record, sealed = proved(30, 30, 40000, 256, "capture.pcap", "luma")
    data = read("capture.pcap")
    words = ["-o", "record", "--pid", "256", "--decoder-timeout", "1"]
    slow_pipe = ("sleep 2.5; head -c 1000 capture.pcap; sleep 2.5; tail -c +1001 capture.pcap",
                 "cat >/dev/null; cat $HERE/whole")
    slow_gift = ("cat capture.pcap", "cat >/dev/null; for i in 0 1 2 3; do dd if=$HERE/whole bs=1100 count=1 skip=$i "
                 "2>/dev/null; sleep 0.7; done")
    for name, (pipe, script) in (("a slow capture", slow_pipe), ("slow pictures", slow_gift)):
        feed = subprocess.Popen(pipe, shell=True, stdout=subprocess.PIPE)
        done = subprocess.run([PROGRAMS["carolsedge"], "measure", "-", *words], stdin=feed.stdout, capture_output=True,
                              timeout=60, **ffmpeg_is(script))
        feed.stdout.close()
        feed.wait()
        check((done.returncode, done.stdout) == (0, sealed), "%s: %s" % (name, done))
        check(read("record") == record, name + ": another record")
        os.remove("record")
        expect.count += 1
    # A run that was stopped for a while goes on.
    held = subprocess.Popen([PROGRAMS["carolsedge"], "measure", "-", *words], stdin=subprocess.PIPE,
                            stdout=subprocess.PIPE, stderr=subprocess.PIPE,
                            **ffmpeg_is("cat >/dev/null; sleep 0.5; cat $HERE/whole"))
    held.stdin.write(data)
    held.stdin.close()
    time.sleep(0.2)
    held.send_signal(signal.SIGSTOP)
    time.sleep(2)
    held.send_signal(signal.SIGCONT)
    out, err = held.stdout.read(), held.stderr.read()
    check((held.wait(20), out) == (0, sealed), "stopped for two seconds: %r %r" % (out, err))
    os.remove("record")


def alive(pid):
    try:
        return read("/proc/%d/stat" % pid).rsplit(b") ", 1)[1][:1] not in b"ZX"
    except OSError:
        return False


def outlived():
    """Whatever ends the run ends ffmpeg, which ignores signals here and reads nothing."""
    how = ffmpeg_is("trap '' TERM PIPE HUP INT; echo $$ >$HERE/pid.new; mv $HERE/pid.new $HERE/pid; exec sleep 60")
    for number in (signal.SIGTERM, signal.SIGKILL, signal.SIGINT, signal.SIGQUIT, signal.SIGHUP):
        if os.path.exists("pid"):
            os.remove("pid")
        run = subprocess.Popen([PROGRAMS["carolsedge"], "measure", "-", *OUT], stdin=subprocess.PIPE,
                               stderr=subprocess.PIPE, preexec_fn=lambda: signal.signal(signal.SIGINT, signal.SIG_DFL),
                               **how)
        for _ in range(200):
            if os.path.exists("pid"):
                break
            time.sleep(0.02)
        child = int(read("pid"))
        check(alive(child), "the stand-in does not run")
        run.send_signal(number)
        check(run.wait(10) == -number, "signal %d: status %d" % (number, run.returncode))
        run.stdin.close()
        run.stderr.close()
        for _ in range(100):
            if not alive(child):
                break
            time.sleep(0.02)
        else:
            os.kill(child, signal.SIGKILL)
            fail("an ffmpeg outlives the run, which signal %d ended" % number)
        check(not os.path.lexists("record"), "signal %d: a record" % number)
        expect.count += 1


def transport(*sizes):
    """A transport stream of a second of pictures of each size, one after the other, in a capture."""
    data = b""
    for size in sizes:
        source = "testsrc2=size=%s:rate=25:duration=1" % size
        made = subprocess.run(["ffmpeg", "-nostdin", "-v", "error", "-f", "lavfi", "-i", source, "-c:v", "mpeg2video",
                               "-mpegts_start_pid", "256", "-f", "mpegts", "pipe:1"], capture_output=True)
        check(made.returncode == 0, "ffmpeg: %r" % made.stderr)
        data += made.stdout
    return capture([carrying(data[at : at + 1316]) for at in range(0, len(data), 1316)])


def changes():
    """Pictures of one size are measured; where it changes nothing is, and both sizes are named."""
    said = "the stream of PID 256: its pictures change from %s to %s, and one size is measured"
    for first, later in (("320x240", "640x480"), ("640x480", "320x240")):
        # As ffmpeg says it of each picture, whatever it then does about it.
        line = "[Parsed_showinfo_1 @ 0x5] [info] n:   0 pts:  0 fmt:gray sar:1/1 s:%s i:P iskey:1 type:I"
        told = "cat >/dev/null; cat $HERE/whole; echo '%s' >&2; echo '%s' >&2; exit %d"
        for status in (0, 1):
            how = ffmpeg_is(told % (line % first, line % later, status))
            expect("a size that changes", 2, b"", [said % (first, later)], "measure", "capture.pcap", *OUT, **how)
    if not shutil.which("ffmpeg"):
        return "ffmpeg is not installed: the stand-in alone was used"
    for first, later in (("320x240", "640x480"), ("640x480", "320x240"), ("320x240", "320x256")):
        write("changes.pcap", transport(first, later))
        told = ["changes.pcap: " + said % (first, later)]
        expect("a size that changes", 2, b"", told, "measure", "changes.pcap", *OUT)
        check(not os.path.lexists("record"), "a size that changes: a record")
        colours = {"env": dict(os.environ, AV_LOG_FORCE_COLOR="1")}
        expect("a size that changes, in colours", 2, b"", told, "measure", "changes.pcap", *OUT, **colours)
    write("same.pcap", transport("320x240", "320x240"))
    expect("a size that stays", 0, None, ["pictures beside"], "measure", "same.pcap", *OUT)
    os.remove("record")
    return "ffmpeg's own streams"


def test():
    write("capture.pcap", capture(good(4)))
    write("large.pcap", capture(good(400)))
    luma = write("luma", bytes(4 * 900))
    write("whole", y4m(read(luma), 30, 30, "mono"))
    fails()
    hangs()
    slow()
    outlived()
    which = changes()
    return "decoder: %d runs: it fails, hangs, is slow, outlives nobody; pictures that change their size; %s" % (
        counted(), which)
