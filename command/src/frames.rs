//! A way through a capture beside the library's: only to say what was found, and to find what a decoder or the RTP
//! lists are given. It makes no figure of a record.
use crate::input::little_endian;

/// Why a frame is passed over.
#[derive(Clone, Copy, PartialEq)]
pub enum Skip {
    Vlan,
    Ipv6,
    NotIpv4,
    Options,
    Fragment,
    NotUdp,
    CutShort,
    Lengths,
    Rtp,
    Packets204,
    NoMultiple,
}

/// Each reason in words, with what mends it where the frames may have held the stream.
const SKIPS: [(Skip, &str, &str); 11] = [
    (Skip::Vlan, "with a VLAN tag", "take the tag off every frame: editcap -F pcap -C 12:4 IN OUT"),
    (Skip::Ipv6, "IPv6", "only IPv4 is measured"),
    (Skip::NotIpv4, "not IPv4", ""),
    (Skip::Options, "with IPv4 options", ""),
    (Skip::Fragment, "IPv4 fragments", "the sender's datagrams are too long for the network: send 1,316 bytes each"),
    (Skip::NotUdp, "not UDP", ""),
    (Skip::CutShort, "cut short by the snap length", "capture whole frames: tcpdump -s 0"),
    (Skip::Lengths, "whose IP and UDP lengths do not agree", ""),
    (
        Skip::Rtp,
        "RTP",
        "the 12 bytes of RTP before the packets are not measured; send plain UDP (ffmpeg -f mpegts udp://..)",
    ),
    (
        Skip::Packets204,
        "with packets of 204 bytes",
        "send packets of 188 bytes, without the 16 bytes of error correction",
    ),
    (
        Skip::NoMultiple,
        "whose bytes are no multiple of 188",
        "send 1,316 bytes a datagram (ffmpeg: udp://HOST:PORT?pkt_size=1316)",
    ),
];

/// How many frames were passed over for each reason.
#[derive(Default)]
pub struct Skipped([u64; SKIPS.len()]);

impl Skipped {
    pub fn add(&mut self, skip: Skip) {
        if let Some(frames) = self.0.get_mut(skip as usize) {
            *frames += 1;
        }
    }

    /// The reasons that there were: how many frames, the words, and what mends it.
    pub fn reasons(&self) -> impl Iterator<Item = (u64, &'static str, &'static str)> + '_ {
        let frames = |skip: Skip| self.0.get(skip as usize).copied().unwrap_or(0);
        let reasons = SKIPS.iter().map(move |&(skip, words, mends)| (frames(skip), words, mends));
        reasons.filter(|reason| reason.0 > 0)
    }
}

/// A frame that has come whole.
#[derive(Clone, Copy)]
pub struct Frame<'a> {
    /// Microseconds.
    pub time: u64,
    /// How long it was on the line.
    original: u32,
    bytes: &'a [u8],
}

/// A UDP datagram of plain IPv4.
pub struct Datagram<'a> {
    /// The port that it goes to.
    pub port: u16,
    /// The bytes behind the UDP header.
    pub payload: &'a [u8],
}

impl<'a> Frame<'a> {
    /// The datagram of a frame that holds a whole one; otherwise why it does not.
    pub fn datagram(&self) -> Result<Datagram<'a>, Skip> {
        let cut = (self.bytes.len() as u64) < u64::from(self.original);
        let Some((frame, _)) = self.bytes.split_first_chunk::<42>() else {
            return Err(if cut { Skip::CutShort } else { Skip::NotIpv4 });
        };
        let word = |high: u8, low: u8| u16::from_be_bytes([high, low]);
        match word(frame[12], frame[13]) {
            0x0800 => {}
            0x8100 | 0x88A8 | 0x9100 => return Err(Skip::Vlan),
            0x86DD => return Err(Skip::Ipv6),
            _ => return Err(Skip::NotIpv4),
        }
        if frame[14] != 0x45 {
            return Err(if frame[14] >> 4 == 4 { Skip::Options } else { Skip::NotIpv4 });
        }
        if word(frame[20], frame[21]) & 0x3FFF != 0 {
            return Err(Skip::Fragment);
        }
        if frame[23] != 17 {
            return Err(Skip::NotUdp);
        }
        let (total, udp) = (usize::from(word(frame[16], frame[17])), usize::from(word(frame[38], frame[39])));
        if total != udp + 20 || udp < 8 {
            return Err(Skip::Lengths);
        }
        match self.bytes.get(42..14 + total) {
            Some(payload) => Ok(Datagram { port: word(frame[36], frame[37]), payload }),
            None => Err(if cut { Skip::CutShort } else { Skip::Lengths }),
        }
    }
}

/// What the bytes to come are.
#[derive(Clone, Copy, Default)]
enum Next {
    #[default]
    FileHeader,
    FrameHeader,
    Frame {
        stored: usize,
        time: u64,
        original: u32,
    },
    Nothing,
}

/// The frames of a capture that comes in pieces.
#[derive(Default)]
pub struct Frames {
    next: Next,
    /// What has come of it where a piece ended inside.
    come: Vec<u8>,
}

impl Frames {
    /// Takes a piece of the capture, and hands on each frame that has come whole.
    pub fn take(&mut self, mut piece: &[u8], mut frame: impl FnMut(Frame)) {
        while let Some(need) = self.need() {
            if self.come.is_empty() && need <= piece.len() {
                let (whole, rest) = piece.split_at(need);
                piece = rest;
                self.whole(whole, &mut frame);
                continue;
            }
            let (more, rest) = piece.split_at(piece.len().min(need - self.come.len()));
            self.come.extend(more);
            piece = rest;
            if self.come.len() < need {
                return;
            }
            let mut whole = std::mem::take(&mut self.come);
            self.whole(&whole, &mut frame);
            whole.clear();
            self.come = whole;
        }
    }

    fn need(&self) -> Option<usize> {
        match self.next {
            Next::FileHeader => Some(24),
            Next::FrameHeader => Some(16),
            Next::Frame { stored, .. } => Some(stored),
            Next::Nothing => None,
        }
    }

    fn whole(&mut self, bytes: &[u8], frame: &mut impl FnMut(Frame)) {
        let word = |at: usize| little_endian(bytes.get(at..at + 4).unwrap_or_default()) as u32;
        self.next = match self.next {
            Next::FileHeader => Next::FrameHeader,
            Next::FrameHeader if word(8) > 65_535 => Next::Nothing,
            Next::FrameHeader => {
                let time = u64::from(word(0)) * 1_000_000 + u64::from(word(4));
                Next::Frame { stored: word(8) as usize, time, original: word(12) }
            }
            Next::Frame { time, original, .. } => {
                frame(Frame { time, original, bytes });
                Next::FrameHeader
            }
            Next::Nothing => Next::Nothing,
        };
    }
}
