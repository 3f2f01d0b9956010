//! `recut`: the same bytes and questions as a script, cut differently. All but its feeds must answer alike.

use crate::prng::Prng;
use crate::script::{read_call, read_opening, write_call, write_opening, Call, LONGEST_PIECE};
use std::io::{self, Read, Write};

/// Bytes of both sides that were fed since the last other call.
#[derive(Default)]
struct Waiting {
    capture: Vec<u8>,
    luma: Vec<u8>,
}

pub fn recut(seed: u64, mut script: impl Read, mut out: impl Write) -> io::Result<()> {
    let mut random = Prng::new(seed);
    let Some(opening) = read_opening(&mut script) else {
        return Ok(());
    };
    write_opening(&mut out, &opening)?;
    let mut waiting = Waiting::default();
    while let Some(call) = read_call(&mut script) {
        match call {
            Call::Capture(piece) => waiting.capture.extend(piece),
            Call::Luma(piece) => waiting.luma.extend(piece),
            Call::Seal(_) | Call::Index | Call::Repeats(..) => {
                waiting.feed(&mut random, &mut out)?;
                write_call(&mut out, &call)?;
            }
        }
    }
    waiting.feed(&mut random, &mut out)?;
    out.flush()
}

impl Waiting {
    /// Writes everything that waits as pieces of random lengths, both sides in turn at random.
    fn feed(&mut self, random: &mut Prng, out: &mut impl Write) -> io::Result<()> {
        let most = (self.capture.len().max(self.luma.len()) / 20).clamp(40, LONGEST_PIECE);
        let (mut capture, mut luma) = (&self.capture[..], &self.luma[..]);
        while !capture.is_empty() || !luma.is_empty() {
            let from_capture = luma.is_empty() || (!capture.is_empty() && random.once_in(2));
            let side = if from_capture { &mut capture } else { &mut luma };
            let short = random.between(0, 8);
            let length = random.pick(&[short, most]);
            let (piece, rest) = side.split_at(random.below(length + 1).min(side.len()));
            *side = rest;
            let piece = piece.to_vec();
            write_call(out, &if from_capture { Call::Capture(piece) } else { Call::Luma(piece) })?;
        }
        *self = Waiting::default();
        Ok(())
    }
}

#[cfg(test)]
mod tests {
    use super::*;
    use crate::make::{make, KINDS};
    use crate::replay::replay;

    /// The lines of a script's calls that don't feed, by running it.
    fn answers(script: &[u8]) -> Vec<String> {
        let mut out = Vec::new();
        replay(script, &mut out).unwrap();
        let lines = String::from_utf8(out).unwrap();
        let feeds = |line: &&str| line.starts_with("capture") || line.starts_with("luma");
        lines.lines().filter(|line| !feeds(line)).map(String::from).collect()
    }

    #[test]
    fn questions_are_answered_alike_however_the_sides_are_cut() {
        for (kind, _) in KINDS {
            for seed in 0..12 {
                let mut script = Vec::new();
                assert!(make(seed, kind, &mut script).unwrap());
                let mut other = Vec::new();
                recut(seed, &script[..], &mut other).unwrap();
                assert_eq!(answers(&script), answers(&other), "seed {seed}, {kind}");
            }
        }
    }
}
