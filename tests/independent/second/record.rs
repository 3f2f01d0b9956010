//! The record: writing it, reading it, showing it.

use crate::film::Scene;
use crate::opening::{Opening, Refusal, EDITIONS};
use crate::units::{Unit, CELL_PAYLOAD};
use std::fmt::Write;

pub const HEADER: usize = 64;
pub const ROW: usize = 32;

/// Bytes of the longest record: 750 units and 250 scenes.
pub const LONGEST: usize = HEADER + ROW * (750 + 250);

/// Bytes of a record with so many unit rows and scene rows.
pub fn length(units: usize, scenes: usize) -> usize {
    HEADER + ROW * (units + scenes)
}

/// Ic, Ip and the index made of them, as one value.
#[derive(Clone, Copy, Debug, PartialEq)]
pub struct Index {
    pub continuity: f64,
    pub packets: f64,
    pub index: f64,
}

impl Index {
    /// Each operation is rounded once.
    pub fn new(unrepeated: u32, pictures: u32, cells: u32, lost: u32) -> Self {
        let continuity = 4.0 * (f64::from(unrepeated) / f64::from(pictures));
        let packets = f64::from(cells) / f64::from(cells + lost);
        Index { continuity, packets, index: 1.0 + (continuity * packets) }
    }
}

/// Header figures that aren't counts of rows or offsets.
#[derive(Clone, Copy, Debug, PartialEq, Eq)]
pub struct Figures {
    pub opening: Opening,
    pub pictures: u32,
    pub records: u32,
    pub passed_over: u32,
    pub bad_cells: u32,
    pub index_bits: u64,
}

/// A record of these figures and rows.
pub fn write(figures: &Figures, units: &[Unit], scenes: &[Scene]) -> Vec<u8> {
    let length = length(units.len(), scenes.len());
    let mut record = Vec::with_capacity(length);
    let mut words = |words: &[u32]| record.extend(words.iter().flat_map(|word| word.to_le_bytes()));
    let scene_offset = HEADER + ROW * units.len();
    let opening = &figures.opening;
    words(&[opening.edition, length as u32]);
    words(&[units.len() as u32, HEADER as u32, scenes.len() as u32, scene_offset as u32]);
    words(&[opening.width, opening.height, opening.display_time, opening.pid]);
    words(&[figures.pictures, figures.records, figures.passed_over, figures.bad_cells]);
    words(&halves(figures.index_bits));
    for unit in units {
        words(&halves(unit.least_time));
        words(&halves(unit.greatest_time));
        words(&[unit.cells * CELL_PAYLOAD, unit.cells, unit.lost, unit.damaged]);
    }
    for scene in scenes {
        words(&[scene.first, scene.pictures, scene.repeated, scene.longest_run]);
        words(&[scene.strength_sum, scene.strength_most, scene.change_sum, 0]);
    }
    record
}

/// The low and the high word of 64 bits.
fn halves(number: u64) -> [u32; 2] {
    [number as u32, (number >> 32) as u32]
}

/// A view of one opened record.
pub struct View<'r> {
    record: &'r [u8],
    pub units: usize,
    pub scenes: usize,
}

impl<'r> View<'r> {
    /// Opens a record: refusals 16, 17, 18, tried in this order.
    pub fn open(record: &'r [u8]) -> Result<Self, Refusal> {
        if record.len() < HEADER {
            return Err(Refusal::unplaced(16));
        }
        if !EDITIONS.contains(&word(record, 0)) {
            return Err(Refusal::unplaced(17));
        }
        let view = View { record, units: word(record, 8) as usize, scenes: word(record, 16) as usize };
        let allowed = view.header_allowed() && view.units_allowed() && view.scenes_allowed();
        if allowed { Ok(view) } else { Err(Refusal::unplaced(18)) }
    }

    fn header_allowed(&self) -> bool {
        let counts = (1..=750).contains(&self.units) && (1..=250).contains(&self.scenes);
        let figures = self.figures();
        counts
            && word(self.record, 4) as usize == self.record.len()
            && self.record.len() == length(self.units, self.scenes)
            && word(self.record, 12) as usize == HEADER
            && word(self.record, 20) as usize == length(self.units, 0)
            && (1..=750).contains(&figures.pictures)
            && figures.opening.check_figures().is_ok()
            && figures.passed_over <= figures.records
    }

    /// Whether unit rows have damaged cells in their last word.
    pub fn tells_damaged(&self) -> bool {
        word(self.record, 0) == 4
    }

    /// Only asked once the header is allowed, so every row lies in the record.
    fn units_allowed(&self) -> bool {
        self.record[HEADER..length(self.units, 0)].chunks_exact(ROW).all(|row| {
            let cells = u64::from(word(row, 20));
            let size = u64::from(word(row, 16));
            double_word(row, 0) <= double_word(row, 8)
                && cells >= 1
                && size == u64::from(CELL_PAYLOAD) * cells
                && (word(row, 28) == 0 || self.tells_damaged())
        })
    }

    fn scenes_allowed(&self) -> bool {
        let mut next = 0;
        for row in self.record[length(self.units, 0)..].chunks_exact(ROW) {
            let (first, pictures) = (u64::from(word(row, 0)), u64::from(word(row, 4)));
            if first != next || pictures == 0 || word(row, 28) != 0 {
                return false;
            }
            next += pictures;
        }
        next == u64::from(self.figures().pictures)
    }

    pub fn figures(&self) -> Figures {
        let word = |place| word(self.record, place);
        Figures {
            opening: Opening {
                width: word(24),
                height: word(28),
                display_time: word(32),
                pid: word(36),
                edition: word(0),
            },
            pictures: word(40),
            records: word(44),
            passed_over: word(48),
            bad_cells: word(52),
            index_bits: double_word(self.record, 56),
        }
    }

    /// The unit of this number, from 0; refusal 19 at or past the count.
    pub fn unit(&self, number: usize) -> Result<Unit, Refusal> {
        let row = self.row(number, self.units, HEADER)?;
        Ok(Unit {
            least_time: double_word(row, 0),
            greatest_time: double_word(row, 8),
            cells: word(row, 20),
            lost: word(row, 24),
            damaged: word(row, 28),
        })
    }

    /// The scene of this number, from 0; refusal 19 at or past the count.
    pub fn scene(&self, number: usize) -> Result<Scene, Refusal> {
        let row = self.row(number, self.scenes, length(self.units, 0))?;
        Ok(Scene {
            first: word(row, 0),
            pictures: word(row, 4),
            repeated: word(row, 8),
            longest_run: word(row, 12),
            strength_sum: word(row, 16),
            strength_most: word(row, 20),
            change_sum: word(row, 24),
        })
    }

    fn row(&self, number: usize, count: usize, offset: usize) -> Result<&'r [u8], Refusal> {
        if number >= count {
            return Err(Refusal::unplaced(19));
        }
        Ok(&self.record[offset + number * ROW..][..ROW])
    }
}

fn word(bytes: &[u8], place: usize) -> u32 {
    u32::from_le_bytes([bytes[place], bytes[place + 1], bytes[place + 2], bytes[place + 3]])
}

fn double_word(bytes: &[u8], place: usize) -> u64 {
    u64::from(word(bytes, place)) | u64::from(word(bytes, place + 4)) << 32
}

/// What the program `show` prints about a record.
pub fn show(record: &[u8]) -> String {
    match shown(record) {
        Ok(lines) => lines,
        Err(refusal) => format!("refused {}\n", refusal.number),
    }
}

fn shown(record: &[u8]) -> Result<String, Refusal> {
    let view = View::open(record)?;
    let Figures { opening, pictures, records, passed_over, bad_cells, index_bits } = view.figures();
    let Opening { width, height, display_time, pid, .. } = opening;
    let mut lines = format!("sample {width} {height} {display_time} {pid} {pictures} ");
    let _ = writeln!(lines, "{records} {passed_over} {bad_cells} {index_bits:016X}");
    for number in 0..view.units {
        let Unit { least_time, greatest_time, cells, lost, .. } = view.unit(number)?;
        let size = u64::from(cells) * u64::from(CELL_PAYLOAD);
        let _ = writeln!(lines, "unit {number} {least_time} {greatest_time} {size} {cells} {lost}");
    }
    for number in 0..view.scenes {
        let Scene { first, pictures, repeated, longest_run, .. } = view.scene(number)?;
        let Scene { strength_sum, strength_most, change_sum, .. } = view.scene(number)?;
        let _ = write!(lines, "scene {number} {first} {pictures} {repeated} {longest_run} ");
        let _ = writeln!(lines, "{strength_sum} {strength_most} {change_sum}");
    }
    Ok(lines)
}

#[cfg(test)]
mod tests {
    use super::*;

    #[test]
    fn index_of_the_worked_sample() {
        let index = Index::new(75, 100, 3, 1);
        assert_eq!((index.continuity, index.packets, index.index), (3.0, 0.75, 3.25));
        assert_eq!(index.index.to_bits(), 0x400A_0000_0000_0000);
    }

    fn example() -> Vec<u8> {
        let opening = Opening { width: 30, height: 30, display_time: 40_000, pid: 256, edition: 1 };
        let index_bits = 0x4008_0000_0000_0000;
        let figures = Figures { opening, pictures: 2, records: 1, passed_over: 0, bad_cells: 0, index_bits };
        let unit = Unit { least_time: 10_000_005, greatest_time: 10_000_005, cells: 1, lost: 0, damaged: 0 };
        let scene = Scene {
            first: 0,
            pictures: 2,
            repeated: 1,
            longest_run: 1,
            strength_sum: 0,
            strength_most: 0,
            change_sum: 0,
        };
        write(&figures, &[unit], &[scene])
    }

    #[test]
    fn the_example_is_shown() {
        let lines = "sample 30 30 40000 256 2 1 0 0 4008000000000000\n\
                     unit 0 10000005 10000005 184 1 0\n\
                     scene 0 0 2 1 1 0 0 0\n";
        assert_eq!(show(&example()), lines);
    }

    #[test]
    fn small_inputs_of_the_refusals_of_reading() {
        let record = example();
        assert_eq!(show(&record[..63]), "refused 16\n");
        assert_eq!(show(&record[..127]), "refused 18\n");
        let mut changed = record.clone();
        changed[0] = 0;
        assert_eq!(show(&changed), "refused 17\n");
        for edition in EDITIONS {
            changed[0] = edition as u8;
            assert_eq!(show(&changed), show(&record));
        }
        changed[1] = 1;
        assert_eq!(show(&changed), "refused 17\n");
        let words = [(1, 64, false), (3, 64, false), (4, 64, true), (4, 96, false), (5, 64, false)];
        for (edition, row, allowed) in words {
            changed = record.clone();
            changed[0] = edition;
            changed[row + 28..row + 32].fill(0xFF);
            assert_eq!(View::open(&changed).is_ok(), allowed);
            assert!(!allowed || show(&changed) == show(&record));
        }
        let view = View::open(&record).unwrap();
        assert_eq!(view.unit(1), Err(Refusal::unplaced(19)));
        assert_eq!(view.scene(1), Err(Refusal::unplaced(19)));
        assert!(view.unit(0).is_ok() && view.scene(0).is_ok());
    }
}
