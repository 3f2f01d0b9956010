//! Random surveys (request R-4): captures of many identifiers, cut into pieces, with questions between.

use super::captures::CaptureMaker;
use super::weave::{piece_length, Cutting, Side, Thread};
use super::{capture, unfinished_capture};
use crate::prng::Prng;
use crate::script::{write_call, write_question, Call};
use std::io::{self, Write};

/// The script of a seed.
pub fn make(seed: u64, mut script: impl Write) -> io::Result<()> {
    let mut random = Prng::new(Prng::new(seed).next());
    let mut thread = Thread::new(surveyed(&mut random));
    let cutting = random.pick(&[Cutting::Any, Cutting::AtEnds, Cutting::AtEnds, Cutting::Tiny]);
    let ask_every = random.pick(&[2, 20]);
    let mut feeds: usize = random.pick(&[6, 60, 300]);
    while thread.left() > 0 {
        let to_end = thread.bytes_to_end();
        let length =
            if feeds == 0 { thread.left() } else { piece_length(&mut random, cutting, to_end, thread.left()) };
        feeds = feeds.saturating_sub(1);
        write_call(&mut script, &Call::Capture(thread.take(length)))?;
        if (thread.at_rest() && random.once_in(3)) || random.once_in(ask_every) {
            write_question(&mut script)?;
        }
    }
    write_question(&mut script)?;
    for _ in 0..random.below(4) {
        let length = random.pick(&[0, 1, 3, 16, 450]);
        write_call(&mut script, &Call::Capture(random.bytes(length)))?;
        write_question(&mut script)?;
    }
    script.flush()
}

/// The capture file of a seed: the one that its script feeds first.
pub fn capture_file(seed: u64) -> Vec<u8> {
    surveyed(&mut Prng::new(Prng::new(seed).next())).bytes
}

/// A capture for a survey: identifiers in equal numbers, no good cell, faults, ends, or any other.
fn surveyed(random: &mut Prng) -> Side {
    let pid = random.pick(&[0, 1, 256, 4_096, 8_191]);
    match random.below(10) {
        0..=4 => equals(random),
        5 => none_good(random),
        6 => capture(random, "faults", pid),
        7 => capture(random, "ends", pid),
        8 => {
            let side = equals(random);
            unfinished_capture(random, side)
        }
        _ => capture(random, "frames", pid),
    }
}

/// Two to five identifiers with as many cells each, or one more of one of them, in any order.
fn equals(random: &mut Prng) -> Side {
    let lowest = random.pick(&[0, 254, 4_096, 8_187]);
    let identifiers: Vec<u32> = (0..random.between(2, 5) as u32).map(|number| lowest + number).collect();
    let each = random.between(1, 12);
    let mut cells = identifiers.repeat(each);
    if random.once_in(3) {
        cells.push(random.pick(&identifiers));
    }
    for place in (1..cells.len()).rev() {
        cells.swap(place, random.below(place + 1));
    }
    let lengths: Vec<usize> = (0..cells.len()).map(|_| random.between(1, 7)).collect();
    let skipped: Vec<bool> = (0..cells.len()).map(|_| random.once_in(6)).collect();
    let mut maker = CaptureMaker::new(random, lowest);
    let mut left = &cells[..];
    for (&length, &skip) in lengths.iter().zip(&skipped) {
        let (now, later) = left.split_at(length.min(left.len()));
        left = later;
        if !now.is_empty() {
            maker.listed_record(now);
        }
        if skip {
            maker.skipped_record();
        }
    }
    maker.damaged_record(2, false);
    maker.side
}

/// A capture without a good cell: nothing but a header, records that don't carry, bad or damaged cells.
fn none_good(random: &mut Prng) -> Side {
    let (skipped, bad, damaged) = (random.below(4), random.below(4), random.below(3));
    let mut maker = CaptureMaker::new(random, 256);
    for _ in 0..skipped {
        maker.skipped_record();
    }
    for cells in 0..bad {
        maker.bad_record(1 + cells);
    }
    for cells in 0..damaged {
        maker.damaged_record(1 + cells, cells > 0);
    }
    maker.side
}

#[cfg(test)]
mod tests {
    use super::*;
    use crate::replay::replay_survey;
    use std::collections::BTreeSet;

    /// The last words of a script: what is asked behind the whole capture.
    fn lines(seed: u64) -> Vec<String> {
        let mut script = Vec::new();
        make(seed, &mut script).unwrap();
        let mut out = Vec::new();
        replay_survey(&script[..], &mut out).unwrap();
        String::from_utf8(out).unwrap().lines().map(String::from).collect()
    }

    #[test]
    fn every_refusal_of_a_survey_occurs() {
        let refused = |line: &String| line.split_once("survey refused ").map(|(_, rest)| rest.to_string());
        let all: BTreeSet<String> = (0..200)
            .flat_map(lines)
            .filter_map(|line| refused(&line))
            .filter_map(|rest| rest.split(' ').next().map(String::from))
            .collect();
        assert_eq!(all, ["11", "21", "5", "6", "7", "8"].map(String::from).into());
    }
}
