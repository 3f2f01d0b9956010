# Pictures: raw and y4m, from files and standard input, make the proved program's record; doubts are told.
import os
import random
from common import (CHROMA, capture, check, counted, expect, good, proved, read, same_record, stream, streams, write,
                    y4m)

RAW = ["--size", "64x48", "--time", "40000", "--pid", "256"]
OUT = ["-o", "record"]


def stored():
    """Every stored stream, raw and as y4m, by name and on standard input."""
    for name, w, h, time, pid in streams():
        cap, luma, size = stream(name, ".pcap"), stream(name, ".y"), "%dx%d" % (w, h)
        record, sealed = proved(w, h, time, pid, cap, luma)
        words = [*OUT, "--pid", str(pid)]
        raw = [*words, "--size", size, "--time", str(time)]
        file = write("pictures.y4m", y4m(read(luma), w, h, rate="1000000:%d" % time))
        for how, stdin, *given in (
            ("raw", b"", cap, luma, *raw),
            ("luma on standard input", read(luma), cap, "-", *raw),
            ("capture on standard input", read(cap), "-", luma, *raw),
            ("y4m", b"", cap, file, *words),
            ("y4m on standard input", read(file), cap, "-", *words),
            ("y4m with its own size", b"", cap, file, *words, "--size", size),
        ):
            got = expect(name + ", " + how, 0, sealed, [" beside "], "measure", *given, stdin=stdin)
            lines = got[2].splitlines()
            check(all(line.startswith("record: ") for line in lines), "lines without the record's name: " + got[2])
            same_record(name + ", " + how, record)


Y4M = ["measure", "capture.pcap", "pictures.y4m", *OUT, "--pid", "256"]


def formats():
    """Formats of y4m, also with sizes whose half is no whole number, and with more in heading and frame lines."""
    cap = write("capture.pcap", capture(good(9)))
    for w, h in ((64, 48), (31, 33), (30, 47)):
        luma = random.Random(w).randbytes(9 * w * h)
        record, sealed = proved(w, h, 40000, 256, cap, write("luma.y", luma))
        for form in [*CHROMA, None]:
            for line in (b"FRAME\n", b"FRAME Ip XCAROL\n"):
                write("pictures.y4m", y4m(luma, w, h, form, line=line, more="Ip  A1:1 XYSCSS=420JPEG"))
                name = "%s of %d x %d" % (form, w, h)
                expect(name, 0, sealed, ["9 pictures beside 9 units"], *Y4M)
                same_record(name, record)


def other_formats():
    """y4m files that are not measured, and why; those without a rate, and cut ones."""
    write("capture.pcap", capture(good(9)))
    whole = y4m(bytes(9 * 900), 30, 30)
    for form in ("420p10", "422p12", "444p16", "420p9", "mono10", "mono16", "mono12"):
        write("pictures.y4m", whole.replace(b"C420jpeg", b"C" + form.encode()))
        expect(form, 2, b"", ["pictures.y4m: its format is %s, deeper than 8 bits" % form, "format=gray"], *Y4M)
    for form in ("rgb", "yuyv", "420x"):
        write("pictures.y4m", whole.replace(b"C420jpeg", b"C" + form.encode()))
        expect(form, 2, b"", ["pictures.y4m: its format %s is not known" % form, "extractplanes=y"], *Y4M)
    for name, data, said in (
        ("no frame line", whole.replace(b"FRAME\n", b"FRAMES\n"), "no line FRAME"),
        ("half a frame line", whole.replace(b"FRAME\n", b"FRA\n"), "no line FRAME"),
        ("no y4m", b"YUV4MPEG3 W30 H30\n", "no y4m file"),
        ("nothing", b"", "no y4m file"),
        ("no end of the heading", b"YUV4MPEG2 W30 H30 " + bytes(9000), "no y4m file"),
        ("no number", whole.replace(b"W30", b"W3O"), "no number in W3O"),
        ("a rate that is none", whole.replace(b"F25:1", b"F25"), "no number in F25"),
    ):
        write("pictures.y4m", data)
        expect(name, 2, b"", ["pictures.y4m: ", said], *Y4M)
    for form in ("444", "444alpha"):
        write("pictures.y4m", b"YUV4MPEG2 W4294967295 H4294967295 F25:1 C%s\n" % form.encode())
        expect("the greatest size", 1, b"refused 1 0\n", [": pictures.y4m\n"], *Y4M)
    write("pictures.y4m", whole.replace(b"F25:1", b"F0:0"))
    expect("no rate", 2, b"", ["--time or --rate is missing"], *Y4M)
    words = [*Y4M, "--rate", "25"]
    expect("no rate but --rate", 0, None, None, *words)
    expect("another size", 2, b"", ["--size 30x31: the pictures are 30x30"], *words, "--size", "30x31")
    os.remove("record")
    write("pictures.y4m", whole[:-700])
    expect("cut inside the luma", 1, b"refused 13 7850\n", ["refused 13", ": pictures.y4m\n"], *words)
    write("pictures.y4m", whole[:-100])
    expect("cut inside the chroma", 0, None, ["record: warning: pictures.y4m ends inside a picture"], *words)


def doubtful():
    """What sealed without a word: chroma beside the luma, two bytes a sample, width and height changed over."""
    cap, luma = stream("clip", ".pcap"), read(stream("clip", ".y"))
    size = 64 * 48
    planar = b"".join(luma[at : at + size] + bytes(size // 2) for at in range(0, 74 * size, size))
    words = ["measure", cap, "pictures.y", *OUT]
    write("pictures.y", planar)
    expect("yuv420p", 0, None, ["111 pictures beside 75 units", "yuv420p"], *words, *RAW)
    deep = b"".join((4 * byte).to_bytes(2, "little") for byte in luma)
    write("pictures.y", deep)
    expect("10 bits", 0, None, ["150 pictures beside 75 units", "two bytes each", "every second byte"], *words, *RAW)
    for name in ("clip", "reduced", "dropped"):
        w, h = (150, 122) if name == "reduced" else (64, 48)
        write("pictures.y", read(stream(name, ".y")))
        turned = ["--size", "%dx%d" % (h, w), "--time", "40000", "--pid", "257" if name == "reduced" else "256"]
        words[1] = stream(name, ".pcap")
        expect("turned", 0, None, ["is it --size %dx%d?" % (w, h)], *words, *turned)
        right = ["--size", "%dx%d" % (w, h), *turned[2:]]
        check("is it" not in expect("not turned", 0, None, None, *words, *right)[2], "a doubt about the right size")
    write("pictures.y", bytes(75 * size))
    words[1] = cap
    check("warning" not in expect("black", 0, None, None, *words, *RAW)[2], "a doubt about black pictures")
    write("pictures.y", luma[: 74 * size])
    expect("a picture too few", 0, None, ["warning: 74 pictures beside 75 units", "key frame"], *words, *RAW)
    write("pictures.y", luma + luma[:size])
    expect("a picture too many", 0, None, ["warning: 76 pictures beside 75 units", "passthrough"], *words, *RAW)


def refusals():
    cap, luma = stream("clip", ".pcap"), stream("clip", ".y")
    words = ["measure", cap, luma, "-o", "none", "--pid", "256", "--time", "40000"]
    for name, number, *given in (
        ("size", "1 0", *words, "--size", "640x29"),
        ("far out", "1 0", *words, "--size", "4294967295x0"),
        ("time", "2 0", *words[:-2], "--size", "64x48", "--time", "9999"),
        ("a slow rate", "2 0", *words[:-2], "--size", "64x48", "--rate", "1"),
        ("a rate of a picture in many years", "2 0", *words[:-2], "--size", "64x48", "--rate", "1/4294967295"),
        ("PID", "3 0", *words[:4], "none", *words[7:], "--pid", "8192", "--size", "64x48"),
        ("no capture", "5 3", "measure", luma, *words[2:], "--size", "64x48"),
    ):
        given = [*given[:3], "-o", "none", *[w for w in given[3:] if w not in ("-o", "none")]]
        line = ("refused %s\n" % number).encode()
        of = ": %s\n" % (luma if number < "3" else given[1])
        expect(name, 1, line, ["carolsedge measure: refused %s: " % number.split()[0], of], *given)
    write("long.y", bytes(64 * 48 * 750 + 1))
    expect("751 pictures", 1, b"refused 10 2304000\n", ["750 pictures"], "measure", cap, "long.y", "-o", "none", *RAW)
    write("cut.y", bytes(5000))
    expect("inside a picture", 1, b"refused 13 5000\n", ["--size"], "measure", cap, "cut.y", "-o", "none", *RAW)
    expect("no picture", 1, b"refused 14 0\n", ["extractplanes=y"], "measure", cap, "/dev/null", "-o", "none", *RAW)
    said = ["carolsedge measure: refused 13: ", ": %s\n" % cap]
    piped = ["measure", cap, "-", "-o", "none", *RAW]
    expect("inside a picture, piped", 1, b"refused 13 5000\n", said, *piped, stdin=bytes(5000))
    check(not os.path.lexists("none"), "a refused run made a record")


def test():
    stored()
    formats()
    other_formats()
    doubtful()
    refusals()
    return "pictures: %d runs: raw luma and %d formats of y4m make the proved program's records; doubts are told" % (
        counted(), len(CHROMA) + 1)
