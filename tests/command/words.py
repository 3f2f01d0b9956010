# Words: those that are wrong are named, each subcommand has its help, and there is a version.
import os
from common import NEWEST, ROOT, check, counted, expect, read, run, stream, write

RAW = ["--size", "64x48", "--time", "40000", "--pid", "256"]


def wrong(capture, luma):
    out = ["-o", "record"]
    for name, said, *words in (
        ("no capture", "CAPTURE is missing", *out, *RAW),
        ("no record", "-o RECORD is missing", capture, luma, *RAW),
        ("-o without a word", "-o: a word is missing", capture, luma, *RAW, "-o"),
        ("-o twice", "-o: given twice", capture, luma, *out, *RAW, *out),
        ("-o -", "-o -: not the name of a file", capture, luma, "-o", "-", *RAW),
        ("-o with no name", "-o : not the name", capture, luma, "-o", "", *RAW),
        ("a word too many", "more: a word too many", capture, luma, "more", *out, *RAW),
        ("no such option", "--pic: no such option", capture, luma, *out, *RAW, "--pic", "1"),
        ("a short option", "-x: no such option", capture, luma, *out, *RAW, "-x"),
        ("both on standard input", "-: CAPTURE and PICTURES", "-", "-", *out, *RAW),
        ("no PID", "--pid PID is missing", "-", luma, *out, "--size", "64x48", "--time", "40000"),
        ("no size", "--size WxH is missing", capture, luma, *out, "--time", "40000", "--pid", "256"),
        ("no time", "--time or --rate is missing", capture, luma, *out, "--size", "64x48", "--pid", "256"),
        ("time and rate", "--rate: --time is given too", capture, luma, *out, *RAW, "--rate", "25"),
    ):
        expect(name, 2, b"", ["carolsedge measure: " + said, "carolsedge measure --help"], "measure", *words)
    for value in ("64", "64x", "x48", "64*48", "64x48x2", "-64x48", "64x 48", "", "4294967296x48", "0xx48"):
        words = [capture, luma, *out, "--time", "40000", "--pid", "256", "--size", value]
        expect("--size " + value, 2, b"", ["--size %s: not WIDTHxHEIGHT" % value], "measure", *words)
    for value in ("", "x", "-1", "+1", "1.5", "4294967296", "0x", "0x1FFFFFFFF", "0xG"):
        for option in ("--time", "--pid", "--edition"):
            words = [capture, luma, *out, "--size", "64x48", option, value]
            expect(option + " " + value, 2, b"", ["%s %s: not a" % (option, value)], "measure", *words)
    for value in ("0", "25/0", "0/1", "29.97", "25/", "/1", "30000/1001/1", "x"):
        words = [capture, luma, *out, "--size", "64x48", "--pid", "256", "--rate", value]
        expect("--rate " + value, 2, b"", ["--rate %s: not pictures a second" % value], "measure", *words)
    expect("no subcommand", 2, b"", ["a subcommand is missing"])
    expect("no such subcommand", 2, b"", ["masure: no such subcommand"], "masure")
    expect("no record", 2, b"", ["RECORD is missing"], "show")
    expect("two forms", 2, b"", ["--csv: --json is given too"], "show", "--json", "--csv", capture)
    expect("an option with a value", 2, b"", ["--json=1: it takes no value"], "show", "--json=1", capture)
    expect("no such option of show", 2, b"", ["--lisp: no such option"], "show", "--lisp", capture)
    expect("a name that is no text", 2, b"", ["a word too many"], "show", capture, b"\xff\xfe")
    check(not os.path.lexists("record"), "a run with wrong words made a record")


def right(capture, luma):
    sealed = None
    for words in (
        ["-o", "record", "--size", "0x40x0x30", "--time", "0x9C40", "--pid", "0x100", capture, luma],
        ["--size=64x48", "--rate=25", "--pid=256", capture, "-o", "record", luma],
        [capture, "-o", "record", "--rate", "50/2", "--size", "64X48", "--pid", "0X100", "--", luma],
    ):
        got = expect("words in another order", 0, sealed, ["75 pictures beside 75 units"], "measure", *words)
        check(sealed is None or read("record") == record, "other words, another record")
        sealed, record = got[1], read("record")
    for edition in (*range(1, NEWEST + 1), None):
        words = [capture, luma, "-o", "record", *RAW] + (["--edition", str(edition)] if edition else [])
        used = edition or NEWEST
        expect("edition %s" % edition, 0, sealed, ["edition %d of the rules" % used], "measure", *words)
        check(read("record")[0] == used, "edition %s made a record of edition %d" % (edition, read("record")[0]))
    for edition in (0, NEWEST + 1):
        words = [capture, luma, "-o", "none", *RAW, "--edition", str(edition)]
        expect("edition %d" % edition, 1, b"refused 20 0\n", ["no such edition", "--edition"], "measure", *words)
    for rate, said in (
        ("30000/1001", "33366.667 microseconds each, rounded to 33367"),
        ("60000/1001", "16683.333 microseconds each, rounded to 16683"),
        ("64", "15625"),
        ("24", "41666.667 microseconds each, rounded to 41667"),
        ("128/3", "23437.500 microseconds each, rounded to 23438"),
    ):
        words = [capture, luma, "-o", "record", "--size", "64x48", "--pid", "256", "--rate", rate]
        got = expect("--rate " + rate, 0, None, [said] if "rounded" in said else None, "measure", *words)
        check("rounded" in said or "rounded" not in got[2], "rate %s is said to be rounded" % rate)
        time = int.from_bytes(read("record")[32:36], "little")
        check(time == int(said.split()[-1]), "rate %s made %d microseconds" % (rate, time))


def helps():
    main = expect("help", 0, None, [], "--help")[1].decode()
    names = [line.split()[0] for line in main.splitlines() if line.startswith("  ")]
    check({"measure", "show", "sheet", "rtp", "shelf", "explain"} <= set(names), "the help names %s" % names)
    for name in names:
        for word in ("--help", "-h"):
            text = expect("help of " + name, 0, None, [], name, word)[1].decode()
            lines = text.splitlines()
            check(lines[0].startswith("usage: carolsedge " + name), "help of %s begins with %s" % (name, lines[0]))
            check(len(lines) <= 24 and max(map(len, lines)) <= 80, "help of %s does not fit a screen" % name)
        with open(os.path.join(ROOT, "command", "man", "carolsedge-%s.1" % name)) as page:
            manual = page.read().replace("\\-", "-")
        for word in text.replace("[", " ").replace("]", " ").split():
            word = word.strip(".,:;")
            known = not word.startswith("--") or word == "--help" or word in manual
            check(known, "the manual of %s lacks %s" % (name, word))
        check(run("help", name)[1].decode() == text, "help %s is another" % name)
    check(run("--help")[1] == run("help")[1] == run("-h")[1], "help, -h and --help differ")
    expect("help of nothing", 2, b"", ["masure: no such subcommand"], "help", "masure")
    version = [line for line in open(os.path.join(ROOT, "command", "Cargo.toml")) if line.startswith("version")]
    expect("version", 0, ("carolsedge %s\n" % version[0].split('"')[1]).encode(), [], "--version")


def test():
    capture, luma = stream("clip", ".pcap"), stream("clip", ".y")
    wrong(capture, luma)
    right(capture, luma)
    helps()
    dashed = write("-dash.y", read(luma))
    expect("a file whose name has a dash", 0, None, None, "measure", *RAW, "-o", "record", "--", capture, dashed)
    return "words: %d runs: each wrong word is named, options stand anywhere, every help fits a screen" % counted()
