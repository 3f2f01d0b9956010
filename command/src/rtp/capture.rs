//! RTP packets of a capture: those in plain UDP datagrams to one port.
use super::Packets;
use crate::frames::{Frame, Frames, Skipped};
use crate::input::Input;
use crate::output::{count, grouped, say};
use crate::stop::Stop;
use carolsedge::Survey;
use std::collections::BTreeMap;

/// How many bytes are read at a time.
const PIECE: usize = 1 << 16;

/// Bytes of an RTP header that every packet has; sources named behind them, and an extension, count as its length.
const HEADER: usize = 12;

/// A packet as it arrived.
struct Packet {
    ssrc: u32,
    sequence: u16,
    marker: bool,
    time: u64,
    length: u16,
}

/// What a capture has: the packets to the port, and what was left out.
#[derive(Default)]
pub struct Found {
    port: u16,
    /// The source whose packets are taken; none where there are no packets at all.
    ssrc: Option<u32>,
    packets: Vec<Packet>,
    skipped: Skipped,
    /// Datagrams to other ports.
    elsewhere: BTreeMap<u16, u64>,
    /// Datagrams to the port that are RTCP, and those that are neither.
    control: u64,
    other: u64,
}

/// Reads a whole capture for the packets to a port, of the source or else of the one that has most. Refused as the
/// library refuses it: 4 to 8 or 11.
pub fn find(input: &mut Input, port: u16, ssrc: Option<u32>) -> Result<Found, Stop> {
    let mut found = Found { port, ..Found::default() };
    let (mut frames, mut survey) = (Frames::default(), Survey::open());
    let mut buffer = vec![0; PIECE];
    loop {
        let piece = input.read(&mut buffer)?;
        if piece.is_empty() || survey.feed(piece).is_err() {
            break;
        }
        frames.take(piece, |frame| found.frame(&frame));
    }
    match survey.ask() {
        // That there are no transport packets is no fault here.
        Err(refusal) if refusal.number != 21 => return Err(Stop::from(refusal).of(input.name())),
        _ => {}
    }
    found.ssrc = ssrc.or_else(|| found.most());
    Ok(found)
}

impl Found {
    fn frame(&mut self, frame: &Frame) {
        match frame.datagram() {
            Err(skip) => self.skipped.add(skip),
            Ok(datagram) if datagram.port == self.port => self.datagram(datagram.payload, frame.time),
            Ok(datagram) => *self.elsewhere.entry(datagram.port).or_default() += 1,
        }
    }

    /// A datagram is RTP if it has the header and version 2, and is not RTCP, whose second byte is 192 to 223 where
    /// both go to one port (RFC 5761).
    fn datagram(&mut self, payload: &[u8], time: u64) {
        let header = payload.split_first_chunk::<HEADER>().filter(|(header, _)| header[0] >> 6 == 2);
        let Some((header, rest)) = header else {
            self.other += 1;
            return;
        };
        if (192..=223).contains(&header[1]) {
            self.control += 1;
            return;
        }
        let ssrc = u32::from_be_bytes([header[8], header[9], header[10], header[11]]);
        let sequence = u16::from_be_bytes([header[2], header[3]]);
        // A datagram's length is itself a number of 16 bits.
        self.packets.push(Packet { ssrc, sequence, marker: header[1] >= 0x80, time, length: rest.len() as u16 });
    }

    /// Each source with its packets, in the order in which they came first.
    fn sources(&self) -> Vec<(u32, u64)> {
        let mut sources: BTreeMap<u32, (usize, u64)> = BTreeMap::new();
        for (first, packet) in self.packets.iter().enumerate() {
            sources.entry(packet.ssrc).or_insert((first, 0)).1 += 1;
        }
        let mut sources: Vec<_> = sources.into_iter().collect();
        sources.sort_by_key(|(_, (first, _))| *first);
        sources.into_iter().map(|(ssrc, (_, packets))| (ssrc, packets)).collect()
    }

    /// The source that has most packets, the first to come among equals.
    fn most(&self) -> Option<u32> {
        let sources = self.sources();
        let most = sources.iter().map(|source| source.1).max()?;
        sources.iter().find(|source| source.1 == most).map(|source| source.0)
    }

    fn is_taken(&self, packet: &Packet) -> bool {
        Some(packet.ssrc) == self.ssrc
    }

    /// The packets that are taken.
    pub fn packets(&self) -> Packets {
        let mut packets = Packets::default();
        for packet in self.packets.iter().filter(|packet| self.is_taken(packet)) {
            packets.push(packet.sequence, packet.marker, packet.time, packet.length);
        }
        packets
    }

    /// The frames that are left out, by reason.
    fn left(&self) -> Vec<String> {
        let mut left: Vec<_> = self.skipped.reasons().map(|(n, words, _)| (n, words.to_string())).collect();
        let elsewhere = self.elsewhere.iter().map(|(port, n)| (*n, format!("to port {port}")));
        left.extend(first_few(elsewhere, "to other ports"));
        left.push((self.control, "RTCP".into()));
        left.push((self.other, "no RTP".into()));
        let others = self.sources().into_iter().filter(|source| Some(source.0) != self.ssrc);
        left.extend(first_few(others.map(|(ssrc, n)| (n, format!("of source {ssrc:#010X}"))), "of other sources"));
        left.iter().filter(|(n, _)| *n > 0).map(|(n, words)| format!("{} {words}", grouped(*n))).collect()
    }

    /// What is taken and what is left out, in a line.
    fn line(&self) -> String {
        let many = self.packets.iter().filter(|packet| self.is_taken(packet)).count() as u64;
        let of = self.ssrc.map(|ssrc| format!(" of source {ssrc:#010X}")).unwrap_or_default();
        let left = self.left();
        let left = if left.is_empty() { "nothing".into() } else { left.join(", ") };
        format!("{}{of} to port {}; left out: {left}", count(many, "RTP packet"), self.port)
    }

    /// Says what is taken and what is left out.
    pub fn tell(&self) {
        say(&format!("{}\n", self.line()));
    }

    /// What is said of packets that are refused, as none or too many.
    pub fn refused(&self) -> Vec<String> {
        let mends = if self.packets.iter().any(|packet| self.is_taken(packet)) {
            "Cut the capture by time (editcap -F pcap -i 20 IN OUT): 4,096 packets are the most."
        } else {
            "Give --port that the packets go to, and --ssrc of one of their sources or none; send plain UDP over IPv4."
        };
        vec![self.line(), mends.into()]
    }
}

/// The four that have most, in words, and the rest together.
fn first_few(all: impl Iterator<Item = (u64, String)>, others: &str) -> Vec<(u64, String)> {
    let mut all: Vec<_> = all.collect();
    all.sort_by_key(|named| std::cmp::Reverse(named.0));
    let rest = all.split_off(all.len().min(4)).iter().map(|named| named.0).sum();
    all.push((rest, others.into()));
    all
}
