//! Units: the rows that the cells of one packet identifier make.

/// Most units of a sample; the next one is refusal 9.
pub const MOST_UNITS: usize = 750;

/// Bytes that a cell adds to the size of its unit.
pub const CELL_PAYLOAD: u32 = 184;

#[derive(Clone, Copy, Debug, PartialEq, Eq)]
pub struct Unit {
    pub least_time: u64,
    pub greatest_time: u64,
    pub cells: u32,
    pub lost: u32,
    /// Damaged cells, which only edition 4 sets apart.
    pub damaged: u32,
}

/// Refusal 9 without its place, which only the capture side knows.
#[derive(Debug, PartialEq, Eq)]
pub struct TooManyUnits;

/// A damaged cell came before any unit had begun.
#[derive(Debug, PartialEq, Eq)]
pub struct NoUnitYet;

#[derive(Default)]
pub struct Units {
    rows: Vec<Unit>,
    last_counter: u8,
    /// What the last cell's gap added to lost.
    last_lost: u32,
}

impl Units {
    pub fn rows(&self) -> &[Unit] {
        &self.rows
    }

    /// Cells and lost of all rows together.
    pub fn totals(&self) -> (u32, u32) {
        let cells = self.rows.iter().map(|unit| unit.cells).sum();
        (cells, self.rows.iter().map(|unit| unit.lost).sum())
    }

    /// What the last counted cell added to lost.
    pub fn last_lost(&self) -> u32 {
        self.last_lost
    }

    /// Takes in one cell of PID, carried by a record of this time.
    #[inline]
    pub fn take_cell(&mut self, time: u64, start_mark: bool, counter: u8) -> Result<(), TooManyUnits> {
        let lost = if self.rows.is_empty() { 0 } else { lost_between(self.last_counter, counter) };
        if self.rows.is_empty() || start_mark {
            if self.rows.len() == MOST_UNITS {
                return Err(TooManyUnits);
            }
            self.rows.push(Unit { least_time: time, greatest_time: time, cells: 0, lost: 0, damaged: 0 });
        }
        self.last_counter = counter;
        self.last_lost = lost;
        if let Some(unit) = self.rows.last_mut() {
            unit.least_time = unit.least_time.min(time);
            unit.greatest_time = unit.greatest_time.max(time);
            unit.cells += 1;
            unit.lost += lost;
        }
        Ok(())
    }

    /// Takes in one damaged cell of PID: it adds one to the current unit, and nothing else.
    pub fn take_damaged(&mut self) -> Result<(), NoUnitYet> {
        self.rows.last_mut().ok_or(NoUnitYet)?.damaged += 1;
        Ok(())
    }

    /// The last cell turns out to be spliced: its own gap adds no loss.
    pub fn forgive_gap(&mut self) {
        if let Some(unit) = self.rows.last_mut() {
            unit.lost -= self.last_lost;
            self.last_lost = 0;
        }
    }
}

/// Cells lost between two counters of 4 bits: g - 1 if their gap g modulo 16 exceeds 1.
pub fn lost_between(before: u8, counter: u8) -> u32 {
    let gap = counter.wrapping_sub(before) & 15;
    u32::from(gap.saturating_sub(1))
}

#[cfg(test)]
mod tests {
    use super::*;

    #[test]
    fn lost_cells_of_the_worked_samples() {
        assert_eq!(lost_between(15, 0), 0);
        assert_eq!(lost_between(3, 3), 0);
        assert_eq!(lost_between(3, 5), 1);
        assert_eq!(lost_between(3, 2), 14);
    }

    #[test]
    fn a_gap_belongs_to_the_unit_that_the_start_mark_begins() {
        let mut units = Units::default();
        units.take_cell(7, false, 9).unwrap();
        units.take_cell(5, true, 12).unwrap();
        units.take_cell(6, false, 13).unwrap();
        let first = Unit { least_time: 7, greatest_time: 7, cells: 1, lost: 0, damaged: 0 };
        let second = Unit { least_time: 5, greatest_time: 6, cells: 2, lost: 2, damaged: 0 };
        assert_eq!(units.rows(), [first, second]);
    }

    #[test]
    fn a_forgiven_gap_leaves_the_counter_for_later_ones() {
        let mut units = Units::default();
        units.take_cell(0, true, 9).unwrap();
        units.forgive_gap();
        units.take_cell(0, false, 12).unwrap();
        units.take_cell(0, false, 7).unwrap();
        units.forgive_gap();
        units.take_cell(0, false, 9).unwrap();
        assert_eq!(units.rows()[0].lost, 2 + 1);
    }

    #[test]
    fn the_751st_unit_is_refused() {
        let mut units = Units::default();
        for _ in 0..MOST_UNITS {
            units.take_cell(1, true, 0).unwrap();
        }
        assert_eq!(units.take_cell(1, false, 0), Ok(()));
        assert_eq!(units.take_cell(1, true, 0), Err(TooManyUnits));
    }
}
