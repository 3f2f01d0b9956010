# Captures: what is said of frames that carry nothing, and of a capture without a packet of the identifier.
import random
import re
import struct
from common import (WHOLE, capture, carrying, check, counted, ethernet, expect, good, ipv4, packets, proved, read, run,
                    udp, write)

RAW = ["--size", "30x30", "--time", "40000", "--pid", "256"]


def rtp(payload, kind=33):
    return struct.pack(">BBHII", 0x80, kind, 7, 0, 0) + payload


def vlan(payload):
    return ethernet(0x8100, struct.pack(">HH", 5, 0x0800) + ipv4(udp(payload)))


def ipv6(payload):
    return ethernet(0x86DD, struct.pack(">IHBB", 0x60000000, 8 + len(payload), 17, 64) + bytes(32) + udp(payload))


SEVEN = packets(7)
LONG = (SEVEN[:188] + bytes(16)) * 7
CUT = ethernet(0x0800, ipv4(udp(SEVEN), fragment=0x2000))
ARP = ethernet(0x0806, bytes(46))
# Each way in which frames with the stream in them carry nothing: frames, snap length, reason, what mends it.
SKIPPED = {
    "a VLAN tag": ([vlan(SEVEN)], 65535, "1 with a VLAN tag", "take the tag off"),
    "IPv6": ([ipv6(SEVEN)], 65535, "1 IPv6", "only IPv4"),
    "RTP": ([carrying(rtp(SEVEN))], 65535, "1 RTP", "12 bytes of RTP"),
    "a short snap length": ([carrying(SEVEN)], 96, "1 cut short by the snap length", "tcpdump -s 0"),
    "a very short snap length": ([carrying(SEVEN)], 30, "1 cut short by the snap length", "tcpdump -s 0"),
    "packets of 204 bytes": ([carrying(LONG)], 65535, "1 with packets of 204 bytes", "188 bytes"),
    "1,472 bytes": ([carrying(2 * SEVEN[:736])], 65535, "1 whose bytes are no multiple of 188", "pkt_size=1316"),
    "fragments": ([CUT], 65535, "1 IPv4 fragments", "too long for the network"),
    "no IPv4": ([ARP, ethernet(0x88CC, bytes(60))], 65535, "2 not IPv4", ""),
    "TCP": ([ethernet(0x0800, ipv4(bytes(200), protocol=6))], 65535, "1 not UDP", ""),
    "options": ([ethernet(0x0800, ipv4(bytes(4) + udp(SEVEN), first=0x46))], 65535, "1 with IPv4 options", ""),
    "an empty datagram": ([carrying(b"")], 65535, "1 whose bytes are no multiple of 188", ""),
}


def measured(name, frames, status, line, said, pid="256", snap=65535):
    """A capture of these frames; said is all that is to be found in what is told."""
    write("capture.pcap", capture(frames, snap))
    words = ["measure", "capture.pcap", "black.y", "-o", "record", *RAW[:-1], pid]
    return expect(name, status, line, said, *words)[2]


def unhinted(name, frames, said, **how):
    """The same, refused with 12, and no identifier is proposed."""
    told = measured(name, frames, 1, b"refused 12 0\n", said, **how)
    check("--pid" not in told, name + ": a hint about the identifier: " + told)


def skipped():
    """Frames that carry nothing, alone and beside the stream: why, and what mends it."""
    for name, (frames, snap, reason, mends) in SKIPPED.items():
        said = ["No frame carries transport packets", reason, mends]
        unhinted(name, frames, ["refused 12", *said], snap=snap)
        expect(name + ", surveyed", 1, b"refused 21 0\n", ["refused 21", *said], "survey", "capture.pcap")
        write("capture.pcap", capture(frames, snap) + capture(good(1))[24:])
        said = "record: warning: %d of %d frames skipped" % (len(frames), len(frames) + 1)
        said = ["1 picture beside 1 unit", said, reason, "record:   " if mends else "", mends]
        words = ["measure", "capture.pcap", "black.y", "-o", "record", *RAW]
        expect(name + " beside the stream", 0, b"sealed 128\n", said, *words)


def none():
    """No packet of the identifier: what there is instead."""
    unhinted("no frames", [], ["The capture has no frames"])
    unhinted("all bad", [carrying(packets(7, sync=0x48))] * 3, ["All 21 packets in 3 frames are bad"])
    others = [carrying(packets(7, pid=pid)) for pid in (0, 0, 0, 8191, 8191, 8191, 8191, 300, 300, 17)]
    most = "8191 (28 packets), 0 (21 packets), 300 (14 packets)"
    said = ["No packet in 10 frames has identifier 256", most, "Most likely: --pid 300"]
    measured("another identifier", others, 1, b"refused 12 0\n", said)
    more = [carrying(packets(5, pid=300, damaged=True))] * 2 + [carrying(packets(5))]
    said = ["No packet in 3 frames has identifier 99. There are: 256 (5 packets).", "marked 10 packets as damaged"]
    said.append("Most likely: --pid 256")
    measured("more damaged packets than good ones", more, 1, b"refused 12 0\n", said, pid="99")
    expect("as the survey has it", 0, b"survey 256 5\n", None, "survey", "capture.pcap")
    said = "The receiver marked 10 packets of identifier 300 as damaged, and there is no other of it."
    measured("damaged packets beside good ones", more, 1, b"refused 12 0\n", [said], pid="300")
    frames = [carrying(packets(2, pid=300, damaged=True) + packets(1, sync=0x48))]
    said = ["No packet in 1 frame is good: 1 packet without 0x47.", "marked 2 packets as damaged"]
    unhinted("no good packet", frames, said, pid="99")


def warned():
    """Bad and damaged packets beside the stream, and damaged ones alone."""
    bad, broken = carrying(packets(2, sync=0)), carrying(packets(3, damaged=True))
    said = ["2 bad packets", "record: warning: 2 packets without 0x47"]
    measured("bad packets", good(1) + [bad], 0, b"sealed 128\n", said)
    said = ["5 bad packets", "warning: 2 packets without 0x47", "warning: 3 packets marked as damaged before the"]
    measured("damaged packets", [broken] + good(1) + [bad, broken], 0, b"sealed 128\n", said)
    unhinted("damaged packets alone", [broken] * 2, ["The receiver marked 6 packets of identifier 256 as damaged"])


def broken():
    """What is no capture, or one cut short."""
    words = ["measure", "capture.pcap", "black.y", "-o", "record", *RAW]
    for name, data, line, said in (
        ("nothing at all", b"", b"refused 11 0\n", "cut short"),
        ("big-endian", b"\xa1\xb2\xc3\xd4" + WHOLE[4:], b"refused 5 3\n", "editcap -F pcap"),
        ("nanoseconds", b"\x4d\x3c\xb2\xa1" + WHOLE[4:], b"refused 5 3\n", "editcap -F pcap"),
        ("another link", WHOLE[:20] + b"\x71" + WHOLE[21:], b"refused 6 23\n", "not -i any"),
        ("microseconds", WHOLE[:28] + struct.pack("<I", 10**6) + WHOLE[32:], b"refused 7 31\n", "damaged"),
        ("a frame's length", WHOLE[:32] + struct.pack("<I", 65536) + WHOLE[36:], b"refused 8 35\n", "damaged"),
        ("cut short", WHOLE[:1000], b"refused 11 1000\n", "cut short"),
    ):
        write("capture.pcap", data)
        expect(name, 1, line, [": capture.pcap\n", said], *words)


def mixed(pick):
    """Frames of every kind, some with a byte changed."""
    kinds = [frames[0] for frames, *_ in SKIPPED.values()] + good(3) + [carrying(packets(3, pid=300)), b"", bytes(41)]
    frames = []
    for _ in range(pick.randrange(1, 60)):
        frame = bytearray(pick.choice(kinds))
        if frame and pick.random() < 0.5:
            at = pick.randrange(min(len(frame), 60))
            frame[at] = pick.choice((0, 8, 0x45, 0x47, 17, frame[at] ^ 1, pick.getrandbits(8)))
        frames.append(bytes(frame))
    return capture(frames + good(1), pick.choice((65535, 65535, 300, 96)))


def counts():
    """On random captures the reasons add up to the record's count of skipped frames, which the library made."""
    sealed = 0
    for seed in range(150):
        write("capture.pcap", mixed(random.Random(seed)))
        status, out, err = run("measure", "capture.pcap", "black.y", "-o", "record", *RAW)
        if status == 1:
            check(out == b"refused 12 0\n", "seed %d: %r" % (seed, out))
            continue
        record, line = proved(30, 30, 40000, 256, "capture.pcap", "black.y")
        check((out, read("record")) == (line, record), "seed %d: another record" % seed)
        skipped = int.from_bytes(record[48:52], "little")
        told = re.search(r"warning: .* skipped: (.*)", err)
        reasons = sum(int(n) for n in re.findall(r"(?:^|, )(\d+) ", told.group(1))) if told else 0
        check(reasons == skipped, "seed %d: %d frames skipped, reasons for %d" % (seed, skipped, reasons))
        sealed += 1
    check(sealed > 50, "only %d of the random captures were sealed" % sealed)
    return sealed


def test():
    write("black.y", bytes(900))
    skipped()
    none()
    warned()
    broken()
    sealed = counts()
    return "captures: %d runs; on %d random captures the reasons add up to the skipped frames" % (counted(), sealed)
