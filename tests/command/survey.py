# survey: the identifier with most good packets, the lowest among equals, of the stored streams as tshark counts them;
# refusals with their exit status.
import os
from common import FAULTY, capture, carrying, counted, ethernet, expect, identifiers, packets, stream, write


def found(name, data, pid, count):
    """Of a file, and of standard input."""
    line = b"survey %d %d\n" % (pid, count)
    write("capture", data)
    expect(name, 0, line, [], "survey", "capture")
    expect(name, 0, line, [], "survey", "-", stdin=data)


def refused(name, data, number, place):
    write("capture", data)
    said = ["carolsedge survey: refused %d: " % number]
    expect(name, 1, b"refused %d %d\n" % (number, place), said, "survey", "capture")


def test():
    three, two = carrying(packets(3, pid=300)), carrying(packets(2, pid=200))
    found("most", capture([two, three]), 300, 3)
    found("lowest among equals", capture([carrying(packets(2, pid=8191)), carrying(packets(2, pid=0))]), 0, 2)
    found("8191", capture([carrying(packets(1, pid=8191))]), 8191, 1)
    found("bad packets do not count", capture([carrying(packets(5, pid=7, sync=0x46)), two]), 200, 2)
    found("damaged packets do not count", capture([carrying(packets(5, pid=7, damaged=True)), two]), 200, 2)
    found("frames that do not carry", capture([three, ethernet(0x86DD, three), ethernet(0x0806, bytes(28))]), 300, 3)
    found("many starts", capture([carrying(packets(1, pid=256))] * 2000), 256, 2000)
    for name, (most, _) in identifiers().items():
        expect(name, 0, b"survey %d %d\n" % most, [], "survey", stream(name, ".pcap"))
    for fault in FAULTY:
        refused(*fault)
    refused("no frame", capture([]), 21, 0)
    refused("no good packet", capture([carrying(packets(1, sync=0))]), 21, 0)
    refused("damaged packets alone", capture([carrying(packets(3, damaged=True))]), 21, 0)
    refused("inside a frame, no good packet", capture([carrying(packets(1, sync=0))]) + b"\0", 11, 24 + 16 + 230 + 1)
    expect("no capture", 2, b"", ["CAPTURE is missing"], "survey")
    expect("no file", 2, b"", ["nowhere: No such file or directory"], "survey", "nowhere")
    os.mkdir("folder")
    expect("a folder", 2, b"", ["folder: Is a directory"], "survey", "folder")
    return "survey: %d runs: identifiers, equals and refusals" % counted()
