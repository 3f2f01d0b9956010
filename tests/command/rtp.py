# rtp: packets on standard input or in a capture, a line a unit; what is refused, and what is said of it. tests/run
# compares random packets with the independent program; of the stored streams tshark says the same.
import random
import struct
from common import (FAULTY, capture, carrying, check, counted, ethernet, expect, ipv4, stream, typed, udp,
                    write)


def packets(*rows, count=None):
    """A count and the rows: sequence number, marker, time, length."""
    out = struct.pack("<I", len(rows) if count is None else count)
    return out + b"".join(struct.pack("<HHQH", *row) for row in rows)


def listed():
    """Packets on standard input."""
    for name, out, rows in (
        ("a row dropped", b"40 70 123 3 1\n", [(5, 0, 50, 100), (7, 1, 70, 20), (4, 0, 40, 3), (5, 1, 10, 9)]),
        ("a marker of 256", b"9 9 1 1 0\n8 8 5 2 2\n", [(1, 256, 9, 1), (4, 0, 8, 2), (5, 0, 8, 3)]),
        ("numbers that wrap", b"1 2 2 2 0\n", [(65535, 0, 1, 1), (0, 0, 2, 1)]),
        ("a step of 32,768 goes back", b"2 2 1 1 0\n1 1 1 1 32767\n", [(32768, 0, 1, 1), (0, 1, 2, 1)]),
        ("times of 64 bits", b"0 18446744073709551615 65535 2 0\n", [(1, 0, 2**64 - 1, 65535), (2, 0, 0, 0)]),
    ):
        expect(name, 0, out, [], "rtp", stdin=packets(*rows))
    # place 0, 32,767, 0 (dropped), and 32,769 from the dropped row on: -32,767
    late = packets((0, 0, 1, 1), (32767, 0, 2, 1), (0, 1, 3, 1), (32769, 0, 4, 1))
    expect("the place before is a dropped row's", 0, b"1 4 3 3 65532\n", [], "rtp", stdin=late)
    full = [(i % 65536, 0, i, 1) for i in range(4096)]
    expect("4,096 packets", 0, b"0 4095 4096 4096 0\n", [], "rtp", stdin=packets(*full))
    row = (1, 0, 1, 1)
    for name, data, said in (
        ("nothing", b"", "inside the count"),
        ("half a count", b"\1\0", "inside the count"),
        ("no packets", packets(), "1 to 4,096 packets"),
        ("4,097 packets", packets(*full, row), "1 to 4,096 packets"),
        ("a byte short", packets(row)[:-1], "13 bytes or more stand behind a count of 1 packets"),
        ("a byte long", packets(row) + b"\0", "15 bytes or more stand behind"),
        ("a count of one more", packets(row, count=2), "behind a count of 2 packets"),
        ("much too long", bytes(200000), "behind a count of 0 packets"),
    ):
        expect(name, 1, b"refused 25 0\n", ["carolsedge rtp: refused 25: ", said], "rtp", stdin=data)


SOURCE = 0x5EA7


def rtp(sequence, marker=0, payload=b"", ssrc=SOURCE, kind=96, first=0x80):
    return struct.pack(">BBHII", first, marker << 7 | kind, sequence % 65536, 0, ssrc) + payload


def to(port, payload):
    return ethernet(0x0800, ipv4(udp(payload, port)))


def taken(name, frames, out, said, *words):
    """Of a file and of standard input; each frame is a millisecond behind the one before, from 10 seconds on."""
    data = capture(frames)
    write("capture", data)
    for word, how in (("capture", {}), ("-", {"stdin": data})):
        got = expect(name, 0, out, None, "rtp", word, "--port", "5004", *words, **how)
        check(got[2] == said + "\n", name + ": said " + got[2])


def captured():
    """What counts as a packet of the port, and what is said to be left out."""
    plain = [rtp(65535, 0, bytes(100)), rtp(0, 1, bytes(20)), rtp(2, 0, bytes(7)), rtp(1, 0, b"")]
    units = b"10000000 10001000 120 2 0\n10002000 10003000 7 2 0\n"
    line = "4 RTP packets of source 0x00005EA7 to port 5004; left out: "
    taken("packets", map(carrying, plain), units, line + "nothing")
    named = rtp(7, 1, bytes(4 * 3 + 4 + 8 + 50 + 2), first=0x80 | 0x20 | 0x10 | 3)
    one = "1 RTP packet of source 0x00005EA7 to port 5004; left out: "
    taken("sources, extension and padding count", [carrying(named)], b"10000000 10000000 76 1 0\n", one + "nothing")
    control = [rtp(5, 1, bytes(16), kind=kind) for kind in (64, 72, 95)]
    near = [rtp(3, 0, b"x", kind=72), rtp(4, 1, b"y", kind=63), rtp(5, 1, b"z", kind=96)]
    frames = [carrying(packet) for packet in control + near]
    taken("RTCP", frames, b"10003000 10004000 2 2 0\n10005000 10005000 1 1 0\n",
          "3 RTP packets of source 0x00005EA7 to port 5004; left out: 3 RTCP")
    strange = [rtp(1)[:11], b"", rtp(1, first=0x40), rtp(1, first=0xC0), bytes([0]) + rtp(1)[1:]]
    taken("no RTP", [carrying(packet) for packet in plain + strange], units, line + "5 no RTP")
    whole = carrying(rtp(9))
    others = [
        to(5005, rtp(9)), to(5005, b""), to(9, rtp(9)),
        ethernet(0x8100, bytes(4) + whole[14:]), ethernet(0x86DD, bytes(60)), ethernet(0x0806, bytes(28)),
        ethernet(0x0800, ipv4(udp(rtp(9)), first=0x46)), ethernet(0x0800, ipv4(udp(rtp(9)), fragment=0x2000)),
        ethernet(0x0800, ipv4(udp(rtp(9)), fragment=1)), ethernet(0x0800, ipv4(udp(rtp(9)), protocol=6)),
        whole[:38] + b"\0\7" + whole[40:], whole[:-1],
    ]
    said = ("1 with a VLAN tag, 1 IPv6, 1 not IPv4, 1 with IPv4 options, 2 IPv4 fragments, 1 not UDP, "
            "2 whose IP and UDP lengths do not agree, 2 to port 5005, 1 to port 9")
    taken("frames that hold none", [*map(carrying, plain), *others], units, line + said)
    ports = [to(port, b"") for port in (1, 2, 3, 4, 5, 5, 6)]
    said = "2 to port 5, 1 to port 1, 1 to port 2, 1 to port 3, 2 to other ports"
    taken("many ports", [*map(carrying, plain), *ports], units, line + said)
    write("capture", capture(map(carrying, plain), snap=62))
    said = "2 RTP packets of source 0x00005EA7 to port 5004; left out: 2 cut short by the snap length"
    expect("cut short", 0, b"10002000 10003000 7 2 0\n", [said], "rtp", "capture", "--port", "5004")
    taken("bytes behind the datagram", [carrying(packet) + bytes(9) for packet in plain], units, line + "nothing")


def sources():
    """The source with most packets, the first to come among equals; or the one that is asked for."""
    last = 0xFFFFFFFF
    mixed = [(1, 1), (2, 1), (last, 7), (2, 3), (last, 8)]
    frames = [carrying(rtp(sequence, 1, b"xyz", ssrc=ssrc)) for ssrc, sequence in mixed]
    said = "2 RTP packets of source 0x00000002 to port 5004; left out: 2 of source 0xFFFFFFFF, 1 of source 0x00000001"
    taken("most", frames, b"10001000 10001000 3 1 0\n10003000 10003000 3 1 1\n", said)
    said = "2 RTP packets of source 0xFFFFFFFF to port 5004; left out: 2 of source 0x00000002, 1 of source 0x00000001"
    for word in ("0xFFFFFFFF", "4294967295"):
        taken("asked for", frames, b"10002000 10002000 3 1 0\n10004000 10004000 3 1 0\n", said, "--ssrc", word)


def strangers():
    """Captures that are refused, ports without packets, too many packets, and wrong words."""
    for name, data, number, place in FAULTY:
        write("capture", data)
        said = ["carolsedge rtp: refused %d: " % number]
        expect(name, 1, b"refused %d %d\n" % (number, place), said, "rtp", "capture", "--port", "5004")
    for name, frames, words, said in (
        ("no frame", [], [], "no RTP packets to port 5004; left out: nothing\nGive --port"),
        ("another port", [to(5006, rtp(1))], [], "no RTP packets to port 5004; left out: 1 to port 5006\nGive --port"),
        ("another source", [carrying(rtp(1))], ["--ssrc", "7"],
         "no RTP packets of source 0x00000007 to port 5004; left out: 1 of source 0x00005EA7\nGive --port"),
        ("4,097 packets", [carrying(rtp(i)) for i in range(4097)], [],
         "4,097 RTP packets of source 0x00005EA7 to port 5004; left out: nothing\nCut the capture by time"),
    ):
        write("capture", capture(frames))
        said = ["carolsedge rtp: refused 25: ", said]
        expect(name, 1, b"refused 25 0\n", said, "rtp", "capture", "--port", "5004", *words)
    write("capture", capture([carrying(rtp(i)) for i in range(4096)]))
    expect("4,096 packets", 0, b"10000000 14095000 0 4096 0\n", None, "rtp", "capture", "--port", "5004")
    for name, said, *words in (
        ("no port", "--port P is missing", "capture"),
        ("no capture", "CAPTURE is missing", "--port", "5004"),
        ("a source alone", "CAPTURE is missing", "--ssrc", "1"),
        ("no such port", "--port 65536: not a port, 0 to 65535", "capture", "--port", "65536"),
        ("no such source", "--ssrc x: not a source's identifier", "capture", "--port", "1", "--ssrc", "x"),
        ("a word too many", "more: a word too many", "capture", "more", "--port", "5004"),
        ("no file", "nowhere: No such file or directory", "nowhere", "--port", "5004"),
    ):
        expect(name, 2, b"", ["carolsedge rtp: " + said], "rtp", *words)


def shuffled():
    """A capture's packets give the lines that the same rows on standard input give."""
    for seed in range(40):
        rng = random.Random(seed)
        first, rows, frames = rng.randrange(65536), [], []
        for i in range(rng.choice([1, 2, 30, 300])):
            sequence, marker = (first + i + rng.choice([0, 0, 0, 1, -1, 5, -20])) % 65536, rng.randrange(4) == 0
            length = rng.choice([0, 1, 1400, rng.randrange(1500)])
            frames.append(carrying(rtp(sequence, marker, bytes(length))))
            rows.append((sequence, marker, 10_000_000 + 1000 * len(rows), length))
        out = expect("shuffled", 0, None, [], "rtp", stdin=packets(*rows))[1]
        write("capture", capture(frames))
        expect("shuffled, seed %d" % seed, 0, out, None, "rtp", "capture", "--port", "5004")


def stored():
    """ffmpeg's RTP on the loopback: packets, lost and markers are those that tshark's RTP analysis gives."""
    many = 0
    for line in open(stream("rtp", ".txt")):
        if line.startswith("#"):
            continue
        name, *numbers = line.split()
        port, *told = map(int, numbers)
        out = expect(name, 0, None, None, "rtp", stream(name, ".pcap"), "--port", str(port))[1].decode()
        units = [list(map(int, row.split())) for row in out.splitlines()]
        size, packets, lost = (sum(unit[at] for unit in units) for at in (2, 3, 4))
        ours = [packets, lost, len(units), size]
        check(ours == told, "%s: packets, lost, units, bytes are %s; tshark says %s" % (name, ours, told))
        many += 1
    return many


def test():
    listed()
    captured()
    sources()
    strangers()
    shuffled()
    many = stored()
    typed("PACKETS", "rtp")
    said = "units of packets and of captures, %d streams as tshark has them, refusal 25" % many
    return "rtp: %d runs: %s" % (counted(), said)
