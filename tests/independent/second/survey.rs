//! A survey (request R-4): which identifier has most good cells of a capture.

use crate::capture::Capture;
use crate::cells::{self, Kind, TakeCells};
use crate::opening::Refusal;
use crate::units::TooManyUnits;

/// Good cells of each identifier.
struct Counts([u32; 8192]);

impl TakeCells for Counts {
    fn take_head(&mut self, _time: u64, head: &[u8]) -> Result<bool, TooManyUnits> {
        if cells::kind(head) == Kind::Good {
            self.0[cells::identifier(head) as usize] += 1;
        }
        Ok(false)
    }

    fn take_adaptation(&mut self, _field: &[u8]) {}
}

/// What a survey gives: the identifier, and its good cells.
#[derive(Clone, Copy, Debug, PartialEq, Eq)]
pub struct Found {
    pub pid: u32,
    pub count: u32,
}

pub struct Survey(Box<Capture<Counts>>);

impl Survey {
    pub fn new() -> Self {
        Survey(Box::new(Capture::new(Counts([0; 8192]))))
    }

    /// Feeds one piece: its length, or refusal 4 to 8.
    pub fn feed(&mut self, piece: &[u8]) -> Result<usize, Refusal> {
        self.0.feed(piece)
    }

    /// The lowest of the identifiers with most good cells; refusals 4 to 8, 11, 21.
    pub fn answer(&self) -> Result<Found, Refusal> {
        if let Some(refusal) = self.0.refusal() {
            return Err(refusal);
        }
        if !self.0.between_records() {
            return Err(Refusal::at(11, self.0.bytes_fed()));
        }
        let mut found = Found { pid: 0, count: 0 };
        for (pid, &count) in self.0.cells.0.iter().enumerate() {
            if count > found.count {
                found = Found { pid: pid as u32, count };
            }
        }
        if found.count == 0 { Err(Refusal::unplaced(21)) } else { Ok(found) }
    }
}

#[cfg(test)]
mod tests {
    use super::*;

    const HEADER: [u8; 24] = [0xD4, 0xC3, 0xB2, 0xA1, 2, 0, 4, 0, 0, 0, 0, 0, 0, 0, 0, 0, 0, 0, 1, 0, 1, 0, 0, 0];

    /// A carrying record with a cell for each of these first three bytes.
    fn record(cells: &[[u8; 3]]) -> Vec<u8> {
        let datagram = 8 + 188 * cells.len();
        let mut frame = vec![0; 42];
        frame[12..15].copy_from_slice(&[8, 0, 0x45]);
        frame[16..18].copy_from_slice(&(datagram as u16 + 20).to_be_bytes());
        frame[23] = 17;
        frame[38..40].copy_from_slice(&(datagram as u16).to_be_bytes());
        for head in cells {
            frame.extend(head);
            frame.extend([0x47; 185]);
        }
        let words = [7, 999_999, frame.len() as u32, 0];
        words.iter().flat_map(|word: &u32| word.to_le_bytes()).chain(frame).collect()
    }

    /// What a fresh survey answers, which has to be the same for every piece length.
    fn survey(capture: &[u8]) -> Result<(u32, u32), (u32, u64)> {
        let mut answers: Vec<_> = [1, 2, 3, 5, 100, 188, 1 << 20]
            .iter()
            .map(|&piece| {
                let mut survey = Survey::new();
                for bytes in capture.chunks(piece) {
                    let _ = survey.feed(bytes);
                }
                survey.answer()
            })
            .collect();
        answers.dedup();
        assert_eq!(answers.len(), 1);
        answers[0].map(|found| (found.pid, found.count)).map_err(|refusal| (refusal.number, refusal.place))
    }

    #[test]
    fn the_lowest_among_equals_of_the_good_cells() {
        let (low, high, bad) = ([0x47, 0x41, 0], [0x47, 0x5F, 0xFF], [0x46, 0, 0]);
        let capture = |cells: &[[u8; 3]]| [&HEADER[..], &record(cells)].concat();
        assert_eq!(survey(&capture(&[high, low])), Ok((256, 1)));
        assert_eq!(survey(&capture(&[high, low, high, bad, bad, bad])), Ok((8_191, 2)));
        assert_eq!(survey(&capture(&[bad])), Err((21, 0)));
        let twice = [capture(&[high, low]), record(&[low, [0x47, 0, 0]])].concat();
        assert_eq!(survey(&twice), Ok((256, 2)));
        let damaged = [0x47, 0xC1, 0];
        assert_eq!(survey(&capture(&[damaged, damaged, high])), Ok((8_191, 1)));
        assert_eq!(survey(&capture(&[damaged, bad])), Err((21, 0)));
        let mut passed_over = capture(&[low]);
        passed_over[40 + 23] = 6;
        assert_eq!(survey(&passed_over), Err((21, 0)));
    }

    #[test]
    fn refusals_of_the_capture() {
        let mut capture = [&HEADER[..], &record(&[[0x47, 1, 0]])].concat();
        assert_eq!(survey(&[]), Err((11, 0)));
        assert_eq!(survey(&capture[..23]), Err((11, 23)));
        assert_eq!(survey(&HEADER), Err((21, 0)));
        assert_eq!(survey(&capture[..capture.len() - 1]), Err((11, 269)));
        capture[24 + 10] = 1;
        assert_eq!(survey(&capture), Err((8, 35)));
        capture[24 + 7] = 1;
        assert_eq!(survey(&capture), Err((7, 31)));
        capture[21] = 1;
        assert_eq!(survey(&capture), Err((6, 23)));
        capture[2] = 1;
        assert_eq!(survey(&capture), Err((5, 3)));
    }

    #[test]
    fn more_than_750_start_marks_refuse_nothing() {
        let capture = [HEADER.to_vec(), record(&[[0x47, 0x41, 0]; 7]).repeat(200)].concat();
        assert_eq!(survey(&capture), Ok((256, 1_400)));
    }
}
