//! What every call may answer with (a refusal), and the given values of an opening.

use std::ops::RangeInclusive;

/// A refusal of document 01 or 02: its number, and its place (0 where none is named).
#[derive(Clone, Copy, Debug, PartialEq, Eq)]
pub struct Refusal {
    pub number: u32,
    pub place: u64,
}

impl Refusal {
    pub fn at(number: u32, place: u64) -> Self {
        Refusal { number, place }
    }

    pub fn unplaced(number: u32) -> Self {
        Refusal { number, place: 0 }
    }
}

/// Rule editions that an opening and the reader of records take.
pub const EDITIONS: RangeInclusive<u32> = 1..=4;

/// Width W and height H of a picture, display time d in microseconds, packet identifier PID, and the
/// edition of the rules.
#[derive(Clone, Copy, Debug, PartialEq, Eq)]
pub struct Opening {
    pub width: u32,
    pub height: u32,
    pub display_time: u32,
    pub pid: u32,
    pub edition: u32,
}

impl Opening {
    /// Refusals 1, 2, 3, 20, tried in this order.
    pub fn check(&self) -> Result<(), Refusal> {
        self.check_figures()?;
        if EDITIONS.contains(&self.edition) { Ok(()) } else { Err(Refusal::unplaced(20)) }
    }

    /// Refusals 1, 2, 3, tried in this order.
    pub fn check_figures(&self) -> Result<(), Refusal> {
        let (width, height) = (u64::from(self.width), u64::from(self.height));
        let sides = (15..=1920).contains(&width) && (30..=1088).contains(&height);
        if !sides || height > 2 * width || width > 4 * height {
            return Err(Refusal::unplaced(1));
        }
        if !(10_000..=200_000).contains(&self.display_time) {
            return Err(Refusal::unplaced(2));
        }
        if self.pid > 8191 {
            return Err(Refusal::unplaced(3));
        }
        Ok(())
    }
}

#[cfg(test)]
mod tests {
    use super::*;

    fn number(width: u32, height: u32, display_time: u32, pid: u32) -> u32 {
        let opening = Opening { width, height, display_time, pid, edition: 1 };
        opening.check().err().map_or(0, |refusal| refusal.number)
    }

    #[test]
    fn bounds_of_the_opening() {
        for (width, height) in [(640, 29), (640, 1089), (14, 30), (1921, 1080), (15, 31), (121, 30)] {
            assert_eq!(number(width, height, 40_000, 256), 1);
        }
        for (width, height) in [(15, 30), (120, 30), (1920, 1088), (544, 1088), (1920, 480)] {
            assert_eq!(number(width, height, 40_000, 256), 0);
        }
        assert_eq!(number(640, 480, 9_999, 256), 2);
        assert_eq!(number(640, 480, 200_001, 9_000), 2);
        assert_eq!(number(640, 480, 10_000, 8_192), 3);
        assert_eq!(number(640, 480, 200_000, 8_191), 0);
        assert_eq!(number(640, 29, 9_999, 8_192), 1);
        assert_eq!(number(u32::MAX, u32::MAX, 40_000, 256), 1);
    }

    #[test]
    fn editions_come_after_the_identifier() {
        let opening = Opening { width: 640, height: 480, display_time: 40_000, pid: 256, edition: 1 };
        for (edition, pid, number) in [(1, 256, 0), (4, 256, 0), (0, 256, 20), (5, 256, 20), (5, 8_192, 3)] {
            let answer = Opening { pid, edition, ..opening }.check();
            assert_eq!(answer.err(), (number > 0).then_some(Refusal::unplaced(number)));
        }
    }
}
