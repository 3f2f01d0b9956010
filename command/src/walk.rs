//! What is found in a capture beside the library: why frames were skipped, which identifiers there are, and the
//! transport packets that a decoder is given. It makes no figure of a record.
use crate::frames::{Frame, Frames, Skip, Skipped};
use crate::output::{count, grouped};

pub struct Walk {
    frames: Frames,
    skipped: Skipped,
    carrying: u64,
    bad: u64,
    /// Of each identifier, the good packets, and those marked as damaged.
    good: Vec<u64>,
    damaged: Vec<u64>,
}

/// Identifiers have 13 bits.
const IDENTIFIERS: usize = 8192;

impl Walk {
    pub fn new() -> Walk {
        let (good, damaged) = (vec![0; IDENTIFIERS], vec![0; IDENTIFIERS]);
        Walk { frames: Frames::default(), skipped: Skipped::default(), carrying: 0, bad: 0, good, damaged }
    }

    /// Takes a piece of the capture, and hands on the transport packets of each frame that has come whole.
    pub fn take(&mut self, piece: &[u8], mut packets: impl FnMut(&[u8])) {
        let mut frames = std::mem::take(&mut self.frames);
        frames.take(piece, |frame| self.frame(&frame, &mut packets));
        self.frames = frames;
    }

    fn frame(&mut self, frame: &Frame, packets: &mut impl FnMut(&[u8])) {
        match carried(frame) {
            Err(skip) => self.skipped.add(skip),
            Ok(payload) => {
                self.carrying += 1;
                for packet in payload.chunks_exact(188) {
                    let [0x47, high, low, ..] = *packet else {
                        self.bad += 1;
                        continue;
                    };
                    let of = if high & 0x80 == 0 { &mut self.good } else { &mut self.damaged };
                    if let Some(count) = of.get_mut(usize::from(high & 0x1F) * 256 + usize::from(low)) {
                        *count += 1;
                    }
                    packets(packet);
                }
            }
        }
    }

    /// Frames that carry packets.
    pub fn carrying(&self) -> u64 {
        self.carrying
    }

    /// Packets that do not begin with 0x47.
    pub fn bad(&self) -> u64 {
        self.bad
    }

    /// Frames that were skipped.
    pub fn skipped(&self) -> u64 {
        self.skipped.reasons().map(|reason| reason.0).sum()
    }

    /// The skipped frames by reason: `2 not IPv4, 1 RTP`.
    pub fn reasons(&self) -> String {
        let all = self.skipped.reasons().map(|(frames, words, _)| format!("{} {words}", grouped(frames)));
        all.collect::<Vec<_>>().join(", ")
    }

    /// What mends each reason that may have cost packets: lines that stand below the reasons.
    pub fn mends(&self) -> Vec<String> {
        let all = self.skipped.reasons().filter(|reason| !reason.2.is_empty());
        all.map(|(_, words, mends)| format!("  {words}: {mends}")).collect()
    }

    /// How many packets the receiver marked as damaged, of all identifiers, if any.
    pub fn marked(&self) -> Option<String> {
        let damaged = self.damaged.iter().sum();
        let said = |all: String| format!("The receiver marked {all} as damaged, whose identifiers may be wrong.");
        (damaged > 0).then(|| said(count(damaged, "packet")))
    }

    /// Why no packet is good, where none is.
    pub fn nothing_good(&self) -> Vec<String> {
        if self.carrying == 0 && self.skipped() == 0 {
            return vec!["The capture has no frames: was there traffic, and did tcpdump's filter let it pass?".into()];
        }
        if self.carrying == 0 {
            let frames = count(self.skipped(), "frame");
            let mut lines = vec![format!("No frame carries transport packets. Of {frames}: {}.", self.reasons())];
            lines.extend(self.mends());
            return lines;
        }
        let (frames, bads) = (count(self.carrying, "frame"), count(self.bad, "packet"));
        match self.marked() {
            None => {
                vec![format!(
                    "All {bads} in {frames} are bad: none begins with 0x47, so this is no transport stream."
                )]
            }
            Some(marked) if self.bad == 0 => vec![format!("No packet in {frames} is good."), marked],
            Some(marked) => vec![format!("No packet in {frames} is good: {bads} without 0x47."), marked],
        }
    }

    /// Packets of an identifier that the receiver marked as damaged.
    pub fn damaged_of(&self, pid: u32) -> u64 {
        self.damaged.get(pid as usize).copied().unwrap_or(0)
    }

    /// The identifiers of good packets, with how many each has, most first and the lowest among equals.
    pub fn identifiers(&self) -> Vec<(usize, u64)> {
        let mut all: Vec<_> = self.good.iter().copied().enumerate().filter(|&(_, packets)| packets > 0).collect();
        all.sort_by_key(|&(_, packets)| std::cmp::Reverse(packets));
        all
    }
}

/// The transport packets of a frame that carries; otherwise why it does not.
fn carried<'a>(frame: &Frame<'a>) -> Result<&'a [u8], Skip> {
    let payload = frame.datagram()?.payload;
    if payload.is_empty() || payload.len() % 188 != 0 {
        return Err(odd(payload));
    }
    Ok(payload)
}

/// What a datagram may be whose bytes are no multiple of 188.
fn odd(payload: &[u8]) -> Skip {
    match (payload, payload.len().checked_sub(12)) {
        ([0x80..=0xBF, kind, ..], Some(rest @ 1..)) if rest.is_multiple_of(188) || kind & 0x7F == 33 => Skip::Rtp,
        ([0x47, ..], _) if payload.len().is_multiple_of(204) => Skip::Packets204,
        _ => Skip::NoMultiple,
    }
}
