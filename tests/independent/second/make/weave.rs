//! Cuts the bytes of both sides into pieces and weaves them, with seals and questions between, into a script.

use crate::opening::Opening;
use crate::prng::Prng;
use crate::sample::Sample;
use crate::script::{write_call, write_opening, Call, LONGEST_BUFFER, LONGEST_PIECE};
use std::io::{self, Write};

/// The bytes of one side, and where its header, records or pictures end or other cuts are worth while.
#[derive(Default)]
pub struct Side {
    pub bytes: Vec<u8>,
    pub ends: Vec<usize>,
}

impl Side {
    pub fn mark_end(&mut self) {
        self.ends.push(self.bytes.len());
    }

    /// Drops all bytes from this length on.
    pub fn cut_to(&mut self, length: usize) {
        self.bytes.truncate(length);
        self.ends.retain(|&end| end <= length);
    }
}

/// How pieces are cut.
#[derive(Clone, Copy)]
pub enum Cutting {
    /// Lengths of every kind, with many ends of records and pictures among them.
    Any,
    /// Mostly where records and pictures end.
    AtEnds,
    /// 0 to 3 bytes.
    Tiny,
}

/// A script to be woven.
pub struct Plan {
    pub opening: Opening,
    pub capture: Side,
    pub luma: Side,
    pub cutting: Cutting,
    /// One seal in so many feeds; two sides at rest are sealed more often.
    pub seal_every: usize,
    /// Feeds after which the rest comes in long pieces.
    pub feeds: usize,
}

/// One side while it is woven.
pub struct Thread {
    side: Side,
    at: usize,
    next_end: usize,
}

impl Thread {
    pub fn new(side: Side) -> Self {
        Thread { side, at: 0, next_end: 0 }
    }

    pub fn left(&self) -> usize {
        self.side.bytes.len() - self.at
    }

    /// Bytes to the next end of a record or picture, or to the end of all.
    pub fn bytes_to_end(&mut self) -> usize {
        while self.side.ends.get(self.next_end).is_some_and(|&end| end <= self.at) {
            self.next_end += 1;
        }
        self.side.ends.get(self.next_end).map_or(self.left(), |&end| end - self.at)
    }

    /// Whether the bytes so far end with a header, a record or a picture.
    pub fn at_rest(&self) -> bool {
        self.side.ends.binary_search(&self.at).is_ok()
    }

    pub fn take(&mut self, length: usize) -> Vec<u8> {
        let end = self.at + length.min(self.left()).min(LONGEST_PIECE);
        let piece = self.side.bytes[self.at..end].to_vec();
        self.at = end;
        piece
    }
}

/// Writes a script; runs along a sample of its own, only to know how long buffers should be.
struct Weaver<'r, W> {
    random: &'r mut Prng,
    script: W,
    sample: Sample,
}

/// Weaves a plan into a script.
pub fn weave(random: &mut Prng, plan: Plan, mut script: impl Write) -> io::Result<()> {
    write_opening(&mut script, &plan.opening)?;
    let mut weaver = Weaver { random, script, sample: Sample::open(plan.opening) };
    let mut capture = Thread::new(plan.capture);
    let mut luma = Thread::new(plan.luma);
    let mut feeds = plan.feeds;
    while capture.left() + luma.left() > 0 {
        let cutting = if feeds == 0 { None } else { Some(plan.cutting) };
        feeds = feeds.saturating_sub(1);
        weaver.feed(&mut capture, &mut luma, cutting)?;
        let at_rest = capture.at_rest() && luma.at_rest() && weaver.random.once_in(3);
        if feeds > 0 && (at_rest || weaver.random.once_in(plan.seal_every)) {
            weaver.seal()?;
        }
        if feeds > 0 && weaver.random.once_in(5) {
            weaver.ask()?;
        }
    }
    weaver.end()
}

/// The length of the next piece of a side.
pub fn piece_length(random: &mut Prng, cutting: Cutting, to_end: usize, left: usize) -> usize {
    let kind = random.below(20);
    match (cutting, kind) {
        (Cutting::Tiny, _) => random.pick(&[0, 1, 1, 2, 3]),
        (Cutting::AtEnds, 3..) => to_end,
        (_, 0) => 0,
        (_, 1 | 2) => 1,
        (_, 3) => 2,
        (_, 4) => 3,
        (_, 5) => 7,
        (_, 6) => 188,
        (_, 7..=9) => random.below(left.min(6_000) + 1),
        (_, 10) => to_end.saturating_sub(1),
        (_, 11) => to_end + 1,
        (_, 12) => left / 2,
        _ => to_end,
    }
}

impl<W: Write> Weaver<'_, W> {
    /// Feeds one piece of either side; without a cutting, the longest possible.
    fn feed(&mut self, capture: &mut Thread, luma: &mut Thread, cutting: Option<Cutting>) -> io::Result<()> {
        let capture_left = capture.left() * (1 + capture.side.ends.len());
        let luma_left = luma.left() * (1 + luma.side.ends.len());
        let from_capture = match (capture_left, luma_left) {
            (0, _) => self.random.once_in(30),
            (_, 0) => !self.random.once_in(30),
            _ => self.random.once_in(2),
        };
        let thread = if from_capture { capture } else { luma };
        let length = match cutting {
            None => thread.left(),
            Some(cutting) => piece_length(self.random, cutting, thread.bytes_to_end(), thread.left()),
        };
        let piece = thread.take(length);
        self.call(if from_capture { Call::Capture(piece) } else { Call::Luma(piece) })
    }

    fn call(&mut self, call: Call) -> io::Result<()> {
        write_call(&mut self.script, &call)?;
        let _ = match &call {
            Call::Capture(piece) => self.sample.feed_capture(piece),
            Call::Luma(piece) => self.sample.feed_luma(piece),
            Call::Seal(_) | Call::Index | Call::Repeats(..) => Ok(0),
        };
        Ok(())
    }

    /// A call that neither feeds nor seals.
    fn ask(&mut self) -> io::Result<()> {
        if self.random.once_in(2) {
            return self.call(Call::Index);
        }
        let (first, end) = self.passage();
        self.call(Call::Repeats(first, end))
    }

    /// A passage, mostly within the pictures: anywhere, at the ends of 64-bit words, at its bounds or past them.
    fn passage(&mut self) -> (u32, u32) {
        let pictures = self.sample.pictures();
        let mut place = || {
            let any = self.random.below(pictures as usize + 1) as u32;
            let word = 64 * self.random.below(pictures as usize / 64 + 1) as u32;
            let near = (word + self.random.pick(&[0, 0, 1, 63])).min(pictures);
            self.random.pick(&[any, any, near, near, 0, pictures, pictures])
        };
        let (one, other) = (place(), place());
        match self.random.below(12) {
            0 => (one.max(other) + 1, one.min(other)),
            1 => (one, pictures + 1),
            2 => self.random.pick(&[(u32::MAX, u32::MAX), (0, u32::MAX), (750, 751), (0, 768), (u32::MAX, 0)]),
            _ => (one.min(other), one.max(other)),
        }
    }

    /// A seal into no buffer, a buffer of one byte, one too short, one that fits, a longer one.
    fn seal(&mut self) -> io::Result<()> {
        let needed = self.sample.record().map_or(self.random.pick(&[1, 64, 128]), |record| record.len());
        let longer = needed + self.random.between(1, 200);
        let length = match self.random.below(16) {
            0 => 0,
            1 => 1,
            2..=4 => needed - 1,
            5..=11 => needed,
            12..=14 => longer,
            _ => self.random.below(2 * needed),
        };
        self.call(Call::Seal(length.min(LONGEST_BUFFER)))
    }

    /// When both sides are fed: some seals, then feeding on and sealing again.
    fn end(&mut self) -> io::Result<()> {
        for _ in 0..self.random.between(2, 5) {
            self.seal()?;
        }
        self.ask()?;
        for _ in 0..self.random.below(4) {
            let length = self.random.pick(&[0, 1, 3, 16, 450]);
            let piece = self.random.bytes(length);
            let capture = self.random.once_in(2);
            self.call(if capture { Call::Capture(piece) } else { Call::Luma(piece) })?;
            self.ask()?;
            self.seal()?;
        }
        self.script.flush()
    }
}
