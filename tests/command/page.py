# page: every figure of show and of shelf list on one HTML page, in tables, in drawings and in a browser's document;
# what it quotes stands in docs/RULE.md; refusals, wrong words, and names that look like marks.
import os
import random
import re
import shutil
import struct
import subprocess
import zlib
from html.parser import HTMLParser
from common import (NEWEST, ROOT, capture, carrying, check, counted, expect, packets, proved, read, run, stream,
                    streams, write)
from shelf import laid_out
from show import DAMAGED, SAMPLE, figures, made

VOID = {"meta"}
MARKS = {"html", "head", "meta", "title", "style", "body", "main", "footer", "nav", "section", "h1", "h2", "p", "a",
         "b", "code", "dl", "div", "dt", "dd", "q", "cite", "figure", "figcaption", "svg", "g", "rect", "line", "text",
         "table", "caption", "thead", "tbody", "tr", "th", "td"}
SPACE = 'xmlns="http://www.w3.org/2000/svg"'
UNIT = ["least time, µs", "greatest time, µs", "bytes", "packets", "lost"]
SCENE = ["first", "pictures", "repeated", "longest run", "cut scores, sum", "greatest", "changes, sum"]


class Page(HTMLParser):
    """A page taken apart: marks are closed in turn; texts by identifier; rows of tables; bars of drawings."""

    def __init__(self, name, text):
        super().__init__()
        self.name, self.open, self.ids, self.rows, self.quotes, self.drawn = name, [], {}, {}, [], {}
        self.texts, self.drawing, self.term, self.rules = [], None, None, {}
        self.feed(text)
        self.close()
        check(self.open == [], "%s: not closed: %s" % (name, self.open))

    def handle_starttag(self, tag, pairs):
        given = dict(pairs)
        check(tag in MARKS, "%s: a mark %s" % (self.name, tag))
        check(not {"src", "style"} & set(given), "%s: %s %s" % (self.name, tag, given))
        check(given.get("href", "#")[0] == "#", "%s: leads to %s" % (self.name, given.get("href")))
        check(not [key for key in given if key.startswith("on")], "%s: %s %s" % (self.name, tag, given))
        check("id" not in given or given["id"] not in self.ids, "%s: %s twice" % (self.name, given.get("id")))
        if tag not in VOID:
            self.open.append((tag, given.get("id"), []))
        if given.get("id"):
            self.ids[given["id"]] = ""
        if tag == "table":
            self.table = self.rows[given["id"]] = []
        elif tag == "tr":
            self.table.append([])
        elif tag == "svg":
            named = given.get("role") == "img" and given.get("aria-labelledby")
            check(named, self.name + ": a drawing without a name")
            self.drawing = self.drawn[given["aria-labelledby"][:-2]] = {}
        elif tag == "rect":
            self.drawing.setdefault(given["class"], []).append(given)

    def handle_startendtag(self, tag, pairs):
        check(any(tag == "svg" for tag, *_ in self.open), "%s: %s closes itself" % (self.name, tag))
        self.handle_starttag(tag, pairs)
        self.handle_endtag(tag)

    def handle_endtag(self, tag):
        check(self.open and self.open[-1][0] == tag, "%s: %s ends in %s" % (self.name, tag, self.open[-3:]))
        _, id, parts = self.open.pop()
        text = "".join(parts)
        if id:
            self.ids[id] = text
        if tag in ("td", "th"):
            self.table[-1].append(text)
        elif tag == "q":
            self.quotes.append([text.strip("“”"), None])
            self.rules.setdefault(self.term, []).append(self.quotes[-1][0])
        elif tag == "dt":
            self.term = text
        elif tag == "cite":
            self.quotes[-1][1] = text
        elif tag == "title" and self.open[-1][0] == "g":
            self.drawing.setdefault("said", []).append(text)
        elif tag in ("p", "dd", "h1", "title"):
            self.texts.append(text)

    def handle_data(self, data):
        for _, _, parts in self.open:
            parts.append(data)

    def lines(self):
        """The lines of the program show."""
        plain = lambda text: text.replace(",", "")
        words = ["sample", *(plain(self.ids[key]) for key in SAMPLE), self.ids["index_bits"]]
        out = [" ".join(words)]
        for kind, names in (("unit", UNIT), ("scene", SCENE)):
            headings, *rows = self.rows[kind + "s-rows"]
            for row in rows:
                told = dict(zip(headings, row))
                out.append(" ".join([kind, told["No."], *(plain(told[name]) for name in names)]))
        return "".join(line + "\n" for line in out).encode()


def rule():
    """docs/RULE.md by sections, without names of definitions, marks of lists and emphasis."""
    with open(os.path.join(ROOT, "docs", "RULE.md")) as file:
        parts = re.split(r"^## (\d+)\..*$", file.read(), flags=re.M)
    sections = dict(zip(["at the top"] + parts[1::2], parts[::2]))
    for name, text in sections.items():
        text = re.sub(r"\s*\(`[^()]*\)", "", text)
        sections[name] = " ".join(re.sub(r"^ *- |[*`]", "", text, flags=re.M).split())
    return sections


RULE = rule()


def opened(name, text):
    """A page that needs nothing but itself, and whose quotes are the rule's."""
    check("http:" not in text.replace(SPACE, "") and "https:" not in text, name + ": leads to another place")
    check("url(" not in text and "@import" not in text, name + ": the style loads something")
    page = Page(name, text)
    for sentence, place in page.quotes:
        section = place.replace("RULE.md, ", "")
        check(sentence in RULE[section], "%s: not in %s of the rule: %s" % (name, section, sentence))
    return page


def of_show(name, page, record):
    """Every figure is show's: the lines of the program, and the rows of the page for people."""
    check(page.lines() == run(program="show", stdin=record)[1], name + ": other figures than show's")
    shown = run("show", "-", stdin=record)[1].decode().splitlines()
    for line in shown:
        if line.startswith(("  index ", "  captured ", "  edition ")):
            check(line.split(None, 1)[1] in page.texts, "%s: not on the page: %s" % (name, line))
    starts = [i for i, line in enumerate(shown) if line.startswith("   No.")]
    for start, id in zip(starts, ("units-rows", "scenes-rows")):
        rows = page.rows[id][1:]
        for line, row in zip(shown[start + 1 :], rows):
            check(line.split() == " ".join(row).split()[: len(line.split())], "%s: %s: %s" % (name, row, line))
    totals = [line.split(": ", 1)[1] for line in shown if line.startswith(("Units: ", "Scenes: "))]
    for total, noun in zip(totals, ("unit", "scene")):
        said = re.sub(r"^([\d,]*\d)", lambda m: "%s %s%s" % (m[1], noun, "" if m[1] == "1" else "s"), total)
        check(said in page.texts, "%s: not on the page: %s" % (name, said))


def of_parts(name, page, record):
    """The index's two parts, by section 11 of the rule, and whether they give the record's index."""
    sample, unit, scene = figures(page.lines())
    n, packets, lost = sample["pictures"], sum(row["packets"] for row in unit), sum(row["lost"] for row in unit)
    fresh = n - sum(row["repeated"] for row in scene)
    if fresh < 0:
        check("ic" not in page.ids, name + ": Ic of rows that have none")
        return False
    ic, ip = 4 * (fresh / n), packets / (packets + lost)
    check((float(page.ids["ic"]), float(page.ids["ip"])) == (ic, ip), name + ": other parts of the index")
    given = struct.pack("<d", 1 + ic * ip) == record[56:64]
    said = "is the record's index, bit by bit" if given else "is not the record's index"
    check(any(said in text for text in page.texts), "%s: %s: not said" % (name, said))
    return given


def of_drawings(name, page, record):
    """A bar for each figure that is not 0, as high as the greatest is to it; a text for each unit and scene."""
    sample, unit, scene = figures(page.lines())
    for drawing, kinds, rows in (
        ("units-drawing", [("packets", "packets"), ("lost", "lost")], unit),
        ("scenes-drawing", [(key, key) for key in ("score", "peak", "repeated", "longest", "change")], scene),
    ):
        drawn = page.drawn[drawing]
        check(len(drawn["said"]) == len(rows), "%s: %s: %d texts" % (name, drawing, len(drawn["said"])))
        for kind, key in kinds:
            values = [row[key] for row in rows if row[key]]
            heights = [float(bar["height"]) for bar in drawn.get(kind, [])]
            wanted = [max(44 * value / max(values), 1.5) for value in values]
            near = len(heights) == len(wanted) and all(abs(a - b) < 0.06 for a, b in zip(heights, wanted))
            check(near, "%s: %s: bars %s" % (name, kind, heights))
    check(any("units of one time lie over each other" in text for text in page.texts), name + ": the units' caption")
    known = record[0] >= DAMAGED
    damaged = [struct.unpack_from("<I", record, 64 + 32 * j + 28)[0] for j in range(len(unit))]
    check(("damaged" in page.rows["units-rows"][0]) == known, name + ": damaged packets of this edition")
    if known:
        at = page.rows["units-rows"][0].index("damaged")
        told = [int(row[at].replace(",", "")) for row in page.rows["units-rows"][1:]]
        bars = page.drawn["units-drawing"].get("damaged", [])
        check(told == damaged and len(bars) == sum(map(bool, damaged)), name + ": other damaged packets")


def of_damage(name, page, edition):
    """What edition 4 does with damaged packets is quoted by it, and by no other."""
    for term, end in (
        ("Bad packets", "it is in no unit and counts as a bad packet."),
        ("Unit", "the gap of the next packet that is not damaged is measured from the last one that is not."),
        ("Lost", "the gap of the next packet that is not damaged is measured from the last one that is not."),
    ):
        behind = "From edition 4 on a damaged wanted packet is set apart."
        quoted = page.rules[term][-2:]
        told = quoted[0] == behind and quoted[-1].endswith(end)
        check(told == (edition >= DAMAGED), "%s: %s: quoted last: %s" % (name, term, quoted))
        check(told or behind not in page.rules[term], "%s: %s: a rule of edition 4" % (name, term))


def whole(name, record, sealed=True):
    """A record's page, on standard output and in a file. The parts of a sealed record's index give it."""
    write("record", record)
    text = expect(name, 0, None, [], "page", "record")[1]
    expect(name, 0, b"", [], "page", "record", "-o", "page.html")
    check(read("page.html") == text, name + ": another page in the file")
    other = expect(name, 0, None, [], "page", "-", stdin=record)[1]
    check(other == text.replace(b"Record record", b"Record standard input"), name + ": another page of standard input")
    page = opened(name, text.decode())
    of_show(name, page, record)
    of_drawings(name, page, record)
    of_damage(name, page, record[0])
    check(of_parts(name, page, record) or not sealed, name + ": the parts do not give the index")
    return text.decode()


def shelf(name, records):
    """A shelf's page: the lines of shelf list, and the totals of shelf check."""
    write("shelf", laid_out(records))
    text = expect(name, 0, None, [], "page", "shelf")[1].decode()
    page = opened(name, text)
    lines = run("shelf", "list", "shelf")[1].decode().splitlines()
    rows = [" ".join(row).replace(",", "").split() for row in page.rows["records-rows"]]
    check(rows == [line.split() for line in lines], name + ": other lines than shelf list's")
    lost = page.rules["Lost"]
    check(len(lost) == 2 and lost[0].startswith("Reading a shelf "), "%s: the rule of lost is %s" % (name, lost))
    totals = "records %s lost %s\n" % (page.ids["records-total"], page.ids["lost-total"])
    check(totals.replace(",", "").encode() == run("shelf", "check", "shelf")[1], "%s: totals: %s" % (name, totals))
    check(len(page.drawn["records-drawing"].get("said", [])) == len(records), name + ": the drawing has other records")
    return text


def names():
    """What is a mark in a name is none on the page."""
    record = made(random.Random(3))
    for name, seen in (
        ("<script>alert(1)</script>", None),
        ("</title></style><img src=x onerror=y>", None),
        ("a&lt;b & \"c\" 'd'.record", None),
        ("Bühne — 7.record", None),
        ("two\nlines\x1b[31m", "two\ufffdlines\ufffd[31m"),
        (b"\xff\xfe.record", "\ufffd\ufffd.record"),
        ("\u202egpj.exe \u0085\u009b31m", r"\xe2\x80\xaegpj.exe " + "\ufffd\ufffd31m"),
    ):
        os.makedirs(os.path.dirname(name) or ".", exist_ok=True)
        write(name, record)
        page = opened(repr(name), expect(repr(name), 0, None, [], "page", name)[1].decode())
        check(page.texts[:2] == ["Record " + (seen or name)] * 2, "%r: named %r" % (name, page.texts[:2]))


def refused(records):
    bad = laid_out(records[:2] + [b"\x09" + records[2][1:]] + records[3:])
    whole, shelf = records[0], laid_out(records)
    for name, data, line, said in (
        ("nothing", b"", b"refused 16 0\n", "nor is it a shelf: refused 27"),
        ("63 bytes", whole[:63], b"refused 16 0\n", "cut short"),
        ("another edition", b"\x09" + whole[1:], b"refused 17 0\n", "nor is it a shelf: refused 27"),
        ("one byte short", whole[:-1], b"refused 18 0\n", "altered or cut"),
        ("one byte long", whole + b"\0", b"refused 18 0\n", "nor is it a shelf: refused 27"),
        ("a capture", read(stream("clip", ".pcap")), b"refused 17 0\n", "no record"),
        ("a shelf with a byte more", shelf + b"\0", b"refused 17 0\n", "nor is it a shelf: refused 27"),
        ("a shelf with a refused record", bad, b"refused 28 2\n", "number, from 0"),
    ):
        write("data", data)
        write("page.html", b"old")
        told = ["carolsedge page: refused %s: " % line.split()[1].decode(), said]
        expect(name, 1, line, told, "page", "data")
        expect(name, 1, line, told, "page", "data", "-o", "page.html")
        check(read("page.html") == b"old", name + ": a refused run altered the page that stood there")
    expect("an endless file", 1, b"refused 17 0\n", None, "page", "/dev/zero")


def wrong(record):
    write("good", record)
    os.symlink("good", "link")
    for name, said, *words in (
        ("no record", "RECORD or SHELF is missing"),
        ("a word too many", "more: a word too many", "good", "more"),
        ("-o without a word", "-o: a word is missing", "good", "-o"),
        ("-o twice", "-o: given twice", "good", "-o", "new", "-o", "new"),
        ("-o -", "-o -: not the name of a file", "good", "-o", "-"),
        ("-o with no name", "-o : not the name of a file", "good", "-o", ""),
        ("no such option", "--html: no such option", "good", "--html"),
        ("no file", "nowhere: No such file or directory", "nowhere"),
        ("a folder", ".: Is a directory", "."),
        ("the record itself", "good: it is the same file as good, which is read", "good", "-o", "good"),
        ("a link", "link: it is a symbolic link, and is left alone", "good", "-o", "link"),
        ("over a folder", ".: it is a folder, and is left alone", "good", "-o", "."),
        ("no such folder", "none/new: No such file or directory", "good", "-o", "none/new"),
    ):
        expect(name, 2, b"", ["carolsedge page: " + said], "page", *words)
    check(read("good") == record and not os.path.lexists("new"), "a run with wrong words made or altered a file")


def browser(program, *options):
    words = [program, "--headless=new", "--no-sandbox", "--disable-gpu", "--hide-scrollbars"]
    words += ["--enable-logging=stderr", "--user-data-dir=" + os.path.abspath("profile"), *options]
    done = subprocess.run(words, capture_output=True, timeout=300)
    said = done.stderr.decode(errors="replace")
    well = done.returncode == 0 and "CONSOLE" not in said
    check(well, "%s: status %d\n%s" % (options, done.returncode, said[-2000:]))
    return done.stdout.decode()


def png(name, width):
    """A picture so wide that is not all of one colour; its height."""
    data = read(name)
    wide, high = struct.unpack_from(">II", data, 16)
    at, packed = 8, b""
    while at < len(data):
        length, kind = struct.unpack_from(">I4s", data, at)
        packed += data[at + 8 : at + 8 + length] if kind == b"IDAT" else b""
        at += 12 + length
    check(wide == width and len(set(zlib.decompress(packed))) > 50, "%s: %d wide, or blank" % (name, wide))


def in_browser(pages):
    """A browser opens each page without an error, has the same figures in its document, draws it wide and narrow, and
    prints it."""
    program = shutil.which("chromium")
    if not program:
        return "no browser: chromium is not installed"
    for name, (text, record) in pages.items():
        write("page.html", text.encode())
        place = "file://" + os.path.abspath("page.html")
        document = Page(name, browser(program, "--dump-dom", place))
        page = Page(name, text)
        check((document.rows, document.ids) == (page.rows, page.ids), name + ": another page in the browser")
        if record:
            check(document.lines() == run(program="show", stdin=record)[1], name + ": other figures in the browser")
        for width in (1280, 390):
            browser(program, "--window-size=%d,2000" % width, "--screenshot=page.png", place)
            png("page.png", width)
        browser(program, "--print-to-pdf=page.pdf", place)
        check(read("page.pdf").startswith(b"%PDF"), name + ": not printed")
    return "the same in " + browser(program, "--version").split(" built")[0].strip()


def greatest():
    """A record of 750 units, some of them with losses and damaged packets, and 250 scenes."""
    def unit(j):
        return packets(1 + j * j % 7, counter=7 * j) + packets(j % 11 // 8, damaged=True)

    write("greatest.pcap", capture([carrying(unit(j)) for j in range(750)]))
    write("greatest.y", run("32", "30", "200000", "750", program="busiest")[1])
    record = proved(32, 30, 200000, 256, "greatest.pcap", "greatest.y")[0]
    check(len(record) == 64 + 32 * 1000, "the greatest record has %d bytes" % len(record))
    return record


def test():
    for name, *opening in streams():
        for edition in range(1, NEWEST + 1):
            record = proved(*opening, stream(name, ".pcap"), stream(name, ".y"), edition)[0]
            whole("%s, edition %d" % (name, edition), record)
    pages = {}
    damaged = proved(64, 48, 40000, 256, stream("damaged", ".pcap"), stream("dropped", ".y"))[0]
    for name, record in (("damaged", damaged), ("greatest", greatest())):
        pages[name] = whole(name, record), record
    records = [made(random.Random(seed), edition=1 + seed % NEWEST) for seed in range(20)]
    for seed, record in enumerate(records):
        whole("seed %d" % seed, record, sealed=False)
    for bits in (0, 0x7FF << 52, 0xFFF << 52, 0x7FF8000000000001, 1 << 63):
        whole("bits %X" % bits, made(random.Random(9), bits), sealed=False)
    for n in (0, 1, 2, 3, 4, 5, 20):
        pages["shelf"] = shelf("a shelf of %d" % n, records[:n]), None
    names()
    refused(records[:7])
    wrong(records[0])
    said = "page: %d runs: every figure of show and of shelf list, and the rule's words; %s"
    return said % (counted(), in_browser(pages))
