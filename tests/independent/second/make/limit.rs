//! The family `limit`: captures of exactly 268,435,456 bytes, and past it (refusal 4).

use super::captures::CaptureMaker;
use crate::capture::MOST_CAPTURE_BYTES;
use crate::opening::Opening;
use crate::prng::Prng;
use crate::script::{write_call, write_opening, write_question, Call, LONGEST_PIECE};
use std::io::{self, Write};

const OPENING: Opening = Opening { width: 30, height: 30, display_time: 40_000, pid: 256, edition: 1 };

/// Gathers capture bytes and writes them in pieces of 1 MiB.
struct Pieces<W> {
    script: W,
    waiting: Vec<u8>,
    /// All capture bytes so far.
    total: usize,
}

impl<W: Write> Pieces<W> {
    fn add(&mut self, bytes: &[u8]) -> io::Result<()> {
        self.total += bytes.len();
        self.waiting.extend(bytes);
        if self.waiting.len() >= LONGEST_PIECE {
            let rest = self.waiting.split_off(LONGEST_PIECE);
            let piece = std::mem::replace(&mut self.waiting, rest);
            write_call(&mut self.script, &Call::Capture(piece))?;
        }
        Ok(())
    }

    fn flush(&mut self) -> io::Result<()> {
        write_call(&mut self.script, &Call::Capture(std::mem::take(&mut self.waiting)))
    }
}

/// By seed modulo 4: 0 and 1 the last record ends with the last allowed byte (1: one piece goes past
/// it); 2 wrong microseconds end with the last allowed byte (refusal 7); 3 with the surplus one (4).
pub fn make(seed: u64, mut script: impl Write) -> io::Result<()> {
    write_opening(&mut script, &OPENING)?;
    write_call(&mut script, &Call::Luma(vec![0; 1800]))?;
    feed_capture(seed, &mut script)?;
    finish(script)
}

/// The same capture for a survey.
pub fn make_survey(seed: u64, mut script: impl Write) -> io::Result<()> {
    feed_capture(seed, &mut script)?;
    write_question(&mut script)?;
    for piece in [Vec::new(), vec![7], vec![1, 2, 3], Vec::new()] {
        write_call(&mut script, &Call::Capture(piece))?;
        write_question(&mut script)?;
    }
    script.flush()
}

fn feed_capture(seed: u64, script: impl Write) -> io::Result<()> {
    let mut random = Prng::new(seed);
    let mut maker = CaptureMaker::new(&mut random, OPENING.pid);
    maker.carrying_record(7);
    maker.carrying_record(7);
    let front = maker.side.bytes;
    let mut pieces = Pieces { script, waiting: Vec::new(), total: 0 };
    pieces.add(&front)?;
    let case = seed % 4;
    let end = MOST_CAPTURE_BYTES - if case == 2 { 8 } else if case == 3 { 7 } else { 0 };
    let frame = random.bytes(65_535);
    while end - pieces.total >= 2 * (16 + frame.len()) {
        pieces.add(&record(0, &frame))?;
    }
    for left in [2, 1] {
        let length = (end - pieces.total) / left - 16;
        pieces.add(&record(999_999, &frame[..length]))?;
    }
    if case >= 2 {
        pieces.add(&record(1_000_000, &[]))?;
    } else if case == 1 {
        pieces.add(&[0; 100])?;
    }
    pieces.flush()
}

/// Seals and feeds at the bound, past it, and on the other side.
fn finish(mut script: impl Write) -> io::Result<()> {
    let seal = Call::Seal(400);
    write_call(&mut script, &seal)?;
    for piece in [Vec::new(), vec![7], vec![1, 2, 3], Vec::new()] {
        write_call(&mut script, &Call::Capture(piece))?;
        write_call(&mut script, &seal)?;
        write_call(&mut script, &Call::Index)?;
    }
    write_call(&mut script, &Call::Luma(vec![0; 901]))?;
    write_call(&mut script, &seal)?;
    script.flush()
}

fn record(microseconds: u32, frame: &[u8]) -> Vec<u8> {
    let words = [3, microseconds, frame.len() as u32, 0];
    let mut record: Vec<u8> = words.iter().flat_map(|word| word.to_le_bytes()).collect();
    record.extend(frame);
    record
}
