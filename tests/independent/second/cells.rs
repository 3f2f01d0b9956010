//! Cells (transport stream packets of 188 bytes), and who takes them in: the sample takes those of its PID.

use crate::opening::Opening;
use crate::units::{NoUnitYet, TooManyUnits, Units};

/// Bytes of a cell.
pub const CELL: usize = 188;

/// Bytes of a cell that are looked at first.
pub const CELL_HEAD: usize = 4;

/// Bytes of an adaptation field that are looked at: its length, its flags.
pub const ADAPTATION: usize = 2;

/// Whoever takes in the cells of carrying records.
pub trait TakeCells {
    /// Looks at the head of a cell, in a record of this time; true if its adaptation field matters.
    fn take_head(&mut self, time: u64, head: &[u8]) -> Result<bool, TooManyUnits>;

    /// Looks at the front of the adaptation field of the cell whose head came last.
    fn take_adaptation(&mut self, field: &[u8]);
}

/// What a cell is.
#[derive(Clone, Copy, Debug, PartialEq, Eq)]
pub enum Kind {
    Good,
    /// It starts as it should, but whoever received it marked it as broken.
    Damaged,
    /// It doesn't start with 0x47.
    Bad,
}

#[inline]
pub fn kind(head: &[u8]) -> Kind {
    match head[0] {
        0x47 if head[1] & 0x80 == 0 => Kind::Good,
        0x47 => Kind::Damaged,
        _ => Kind::Bad,
    }
}

#[inline]
pub fn identifier(head: &[u8]) -> u32 {
    u32::from(head[1] & 0x1F) * 256 + u32::from(head[2])
}

/// What a sample keeps of the cells.
pub struct SampleCells {
    pid: u32,
    /// Whether a splice forgives a gap: from edition 2 on.
    splices: bool,
    /// Whether the heads of damaged cells are trusted: up to edition 3.
    trusting: bool,
    pub bad: u32,
    pub units: Units,
}

impl SampleCells {
    pub fn new(opening: &Opening) -> Self {
        SampleCells {
            pid: opening.pid,
            splices: opening.edition >= 2,
            trusting: opening.edition <= 3,
            bad: 0,
            units: Units::default(),
        }
    }
}

impl SampleCells {
    /// Cells and lost over all units, without a cell that isn't whole yet.
    pub fn whole(&self, unfinished: Option<&[u8; CELL_HEAD]>) -> (u32, u32) {
        let (cells, lost) = self.units.totals();
        match unfinished {
            Some(head) if self.counts(head) => (cells - 1, lost - self.units.last_lost()),
            _ => (cells, lost),
        }
    }

    /// Whether a cell is counted in a unit.
    fn counts(&self, head: &[u8]) -> bool {
        let trusted = kind(head) == Kind::Good || (kind(head) == Kind::Damaged && self.trusting);
        trusted && identifier(head) == self.pid
    }
}

impl TakeCells for SampleCells {
    #[inline]
    fn take_head(&mut self, time: u64, head: &[u8]) -> Result<bool, TooManyUnits> {
        match kind(head) {
            Kind::Bad => self.bad += 1,
            _ if identifier(head) != self.pid => {}
            Kind::Damaged if !self.trusting => {
                if self.units.take_damaged() == Err(NoUnitYet) {
                    self.bad += 1;
                }
            }
            _ => {
                self.units.take_cell(time, head[1] & 0x40 != 0, head[3] & 0x0F)?;
                return Ok(self.splices && head[3] & 0x20 != 0);
            }
        }
        Ok(false)
    }

    /// A spliced cell has a field longer than 0, with the discontinuity indicator.
    fn take_adaptation(&mut self, field: &[u8]) {
        if field[0] > 0 && field[1] & 0x80 != 0 {
            self.units.forgive_gap();
        }
    }
}
