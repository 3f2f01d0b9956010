//! Whether a record could have been sealed: the first mark of a sealed record that it lacks, or the index that its
//! rows reach (RULE.md, 30).

use crate::batch;
use crate::busiest;
use crate::film::Scene;
use crate::opening::Refusal;
use crate::record::{Figures, Index, View};
use crate::records::Parts;
use crate::units::Unit;
use std::io::{self, Read, Write};

const LONGEST_CAPTURE: u64 = 268_435_456;
const FILE_HEADER: u64 = 24;
const RECORD_HEADER: u64 = 16;
/// Bytes of a carrying record before its first cell, and of a cell.
const BEFORE_CELLS: u64 = 42;
const CELL: u64 = 188;
/// Cells of the longest record: its 65,535 bytes have 42 before them.
const MOST_CELLS: u64 = (65_535 - BEFORE_CELLS) / CELL;
/// What one gap loses at most.
const MOST_LOST: u64 = 14;
const LATEST: u64 = 4_294_967_295_999_999;
const MOST_STRENGTH: u64 = 1_000_000;
/// A change of 255 steps, in hundredths.
const MOST_CHANGE: u64 = 25_500;
/// A scene starts where the cut strength is at least this, and so long after the start before, in microseconds.
const LEAST_STRENGTH: u64 = 1_001;
const LEAST_TIME: u64 = 600_000;

/// A mark that a record lacks: its number, the row, what is found there, and the most or least that may be.
#[derive(Clone, Copy, Debug, PartialEq, Eq)]
pub struct Lacking {
    pub mark: u32,
    pub row: usize,
    pub found: u64,
    pub limit: u64,
}

/// What the rows add up to, and the index that they reach.
#[derive(Clone, Copy, Debug, PartialEq)]
pub struct Reached {
    pub unrepeated: u64,
    pub pictures: u64,
    pub cells: u64,
    pub lost: u64,
    pub index: Index,
}

#[derive(Clone, Copy, Debug, PartialEq)]
pub enum Verdict {
    CouldBe(Reached),
    CouldNot(Lacking),
}

/// The verdict about a record, or refusal 16, 17 or 18.
pub fn verify(record: &[u8]) -> Result<Verdict, Refusal> {
    let view = View::open(record)?;
    let Parts { figures, units, scenes } = Parts::of(&view);
    let lacking = of_all(&figures, &units, scenes.len())
        .or_else(|| units.iter().enumerate().find_map(|(row, unit)| of_unit(row, unit)))
        .or_else(|| scenes.iter().enumerate().find_map(|(row, scene)| of_scene(row, scene, scenes.len(), &figures)));
    if let Some(lacking) = lacking {
        return Ok(Verdict::CouldNot(lacking));
    }
    let reached = reach(&figures, &units, &scenes);
    let bits = reached.index.index.to_bits();
    if bits != figures.index_bits {
        return Ok(Verdict::CouldNot(Lacking { mark: 16, row: 0, found: figures.index_bits, limit: bits }));
    }
    Ok(Verdict::CouldBe(reached))
}

/// Lacking, where the number found is more than may be.
fn at_most(mark: u32, row: usize, found: u64, limit: u64) -> Option<Lacking> {
    (found > limit).then_some(Lacking { mark, row, found, limit })
}

/// Lacking, where the number found is less than has to be.
fn at_least(mark: u32, row: usize, found: u64, limit: u64) -> Option<Lacking> {
    (found < limit).then_some(Lacking { mark, row, found, limit })
}

/// Marks 1 to 3.
fn of_all(figures: &Figures, units: &[Unit], scenes: usize) -> Option<Lacking> {
    let records = u64::from(figures.records);
    let carrying = records - u64::from(figures.passed_over);
    let in_units: u64 = units.iter().map(|unit| u64::from(unit.cells) + u64::from(unit.damaged)).sum();
    let cells = u64::from(figures.bad_cells) + in_units;
    let bytes = FILE_HEADER + RECORD_HEADER * records + BEFORE_CELLS * carrying + CELL * cells;
    let most = busiest::most(figures.opening.display_time, figures.pictures).map_or(0, u64::from);
    at_most(1, 0, bytes, LONGEST_CAPTURE)
        .or_else(|| at_most(2, 0, cells, MOST_CELLS * carrying))
        .or_else(|| at_most(3, 0, scenes as u64, most))
}

/// Marks 4 and 5. Nothing is lost before the very first cell.
fn of_unit(row: usize, unit: &Unit) -> Option<Lacking> {
    let gaps = u64::from(unit.cells) - u64::from(row == 0);
    at_most(4, row, unit.lost.into(), MOST_LOST * gaps).or_else(|| at_most(5, row, unit.greatest_time, LATEST))
}

/// Marks 6 to 15. A repeated picture has no strength and no change, nor has the very first one.
fn of_scene(row: usize, scene: &Scene, scenes: usize, figures: &Figures) -> Option<Lacking> {
    let [pictures, repeated, longest] = [scene.pictures, scene.repeated, scene.longest_run].map(u64::from);
    let [sum, most, change] = [scene.strength_sum, scene.strength_most, scene.change_sum].map(u64::from);
    if repeated >= pictures {
        return Some(Lacking { mark: 6, row, found: repeated, limit: pictures - 1 });
    }
    let unrepeated = pictures - repeated;
    let moving = unrepeated - u64::from(row == 0);
    at_most(7, row, longest, repeated)
        .or_else(|| at_most(8, row, repeated, longest * unrepeated))
        .or_else(|| at_most(9, row, most, sum))
        .or_else(|| at_most(10, row, most, MOST_STRENGTH))
        .or_else(|| at_most(11, row, sum, most * moving))
        .or_else(|| at_most(12, row, change, MOST_CHANGE * moving))
        .or_else(|| if row > 0 { of_a_start(row, scene, figures.pictures) } else { None })
        .or_else(|| {
            let lasts = pictures * u64::from(figures.opening.display_time);
            if row + 1 < scenes { at_least(15, row, lasts, LEAST_TIME) } else { None }
        })
}

/// Marks 13 and 14, of every scene but the first. More than one scene needs N above 2: mark 3 came before.
fn of_a_start(row: usize, scene: &Scene, pictures: u32) -> Option<Lacking> {
    at_least(13, row, scene.strength_most.into(), LEAST_STRENGTH)
        .or_else(|| at_most(14, row, scene.first.into(), u64::from(pictures) - 3))
}

/// The totals of the rows; they fit 32 bits once marks 1 to 15 hold.
fn reach(figures: &Figures, units: &[Unit], scenes: &[Scene]) -> Reached {
    let repeated: u32 = scenes.iter().map(|scene| scene.repeated).sum();
    let cells: u32 = units.iter().map(|unit| unit.cells).sum();
    let lost: u32 = units.iter().map(|unit| unit.lost).sum();
    let unrepeated = figures.pictures - repeated;
    Reached {
        unrepeated: unrepeated.into(),
        pictures: figures.pictures.into(),
        cells: cells.into(),
        lost: lost.into(),
        index: Index::new(unrepeated, figures.pictures, cells, lost),
    }
}

/// The line about a record.
pub fn line(record: &[u8]) -> String {
    match verify(record) {
        Ok(Verdict::CouldBe(Reached { unrepeated, pictures, cells, lost, index })) => {
            let [ic, ip, index] = [index.continuity, index.packets, index.index].map(f64::to_bits);
            format!("reached {unrepeated} {pictures} {cells} {lost} {ic:016X} {ip:016X} {index:016X}\n")
        }
        Ok(Verdict::CouldNot(Lacking { mark, row, found, limit })) => {
            format!("not sealed {mark} {row} {found} {limit}\n")
        }
        Err(Refusal { number, place }) => format!("refused {number} {place}\n"),
    }
}

/// A line for each record of a batch.
pub fn print_each(mut records: impl Read, out: &mut impl Write) -> io::Result<()> {
    while let Some(record) = batch::next(&mut records)? {
        out.write_all(line(&record).as_bytes())?;
    }
    Ok(())
}

#[cfg(test)]
mod tests {
    use super::*;
    use crate::opening::Opening;
    use crate::record;

    /// The worked record of RULE.md, 30.
    fn parts() -> (Figures, Vec<Unit>, Vec<Scene>) {
        let opening = Opening { width: 30, height: 30, display_time: 40_000, pid: 256, edition: 4 };
        let index_bits = 0x400A_0000_0000_0000;
        let figures = Figures { opening, pictures: 100, records: 2, passed_over: 0, bad_cells: 0, index_bits };
        let unit =
            |time, cells, lost| Unit { least_time: time, greatest_time: time, cells, lost, damaged: 0 };
        let scene = |first, pictures, repeated, strength| Scene {
            first,
            pictures,
            repeated,
            longest_run: 1,
            strength_sum: strength,
            strength_most: strength,
            change_sum: 0,
        };
        let units = vec![unit(10_000_005, 2, 0), unit(10_040_005, 1, 1)];
        (figures, units, vec![scene(0, 60, 15, 0), scene(60, 40, 10, 1_000_000)])
    }

    type Change = fn(&mut Figures, &mut Vec<Unit>, &mut Vec<Scene>);

    fn line_after(change: Change) -> String {
        let (mut figures, mut units, mut scenes) = parts();
        change(&mut figures, &mut units, &mut scenes);
        line(&record::write(&figures, &units, &scenes))
    }

    #[test]
    fn the_worked_record_comes_to_three_and_a_quarter() {
        let reached = "reached 75 100 3 1 4008000000000000 3FE8000000000000 400A000000000000\n";
        assert_eq!(line_after(|_, _, _| {}), reached);
    }

    #[test]
    fn every_mark_on_either_side_of_its_edge() {
        let cases: [(Change, &str); 30] = [
            (|f, _, _| (f.records, f.passed_over) = (16_777_174, 16_777_172), "reached"),
            (|f, _, _| (f.records, f.passed_over) = (16_777_175, 16_777_173), "not sealed 1 0 268435472 268435456"),
            (|f, _, _| f.passed_over = 2, "not sealed 2 0 3 0"),
            (|f, _, _| f.bad_cells = 693, "reached"),
            (|f, _, _| f.bad_cells = 694, "not sealed 2 0 697 696"),
            (|_, u, _| u[1].damaged = 693, "reached"),
            (|_, u, _| u[0].damaged = 694, "not sealed 2 0 697 696"),
            (|f, _, _| f.opening.display_time = 10_000, "reached"),
            (|f, _, s| (f.pictures, s[1].pictures, s[1].repeated, s[1].longest_run) = (62, 2, 0, 0), "not sealed 14 1 60 59"),
            (|_, u, _| u[0].lost = 14, "not sealed 16 0 4614500768194494464 4609434218613702656"),
            (|_, u, _| u[0].lost = 15, "not sealed 4 0 15 14"),
            (|_, u, _| u[1].lost = 15, "not sealed 4 1 15 14"),
            (|_, u, _| u[1].greatest_time = LATEST, "reached"),
            (|_, u, _| u[1].greatest_time = LATEST + 1, "not sealed 5 1 4294967296000000 4294967295999999"),
            (|_, _, s| s[1].repeated = 40, "not sealed 6 1 40 39"),
            (|_, _, s| s[0].longest_run = 16, "not sealed 7 0 16 15"),
            (|_, _, s| s[0].longest_run = 0, "not sealed 8 0 15 0"),
            (|_, _, s| s[0].strength_most = 1, "not sealed 9 0 1 0"),
            (|_, _, s| (s[1].strength_most, s[1].strength_sum) = (1_000_001, 2_000_000), "not sealed 10 1"),
            (|_, _, s| (s[0].strength_most, s[0].strength_sum) = (10, 440), "reached"),
            (|_, _, s| (s[0].strength_most, s[0].strength_sum) = (10, 441), "not sealed 11 0 441 440"),
            (|_, _, s| s[1].strength_sum = 30_000_000, "reached"),
            (|_, _, s| s[1].strength_sum = 30_000_001, "not sealed 11 1 30000001 30000000"),
            (|_, _, s| s[0].change_sum = 44 * 25_500, "reached"),
            (|_, _, s| s[0].change_sum = 44 * 25_500 + 1, "not sealed 12 0 1122001 1122000"),
            (|_, _, s| s[1].change_sum = 30 * 25_500 + 1, "not sealed 12 1 765001 765000"),
            (|_, _, s| (s[1].strength_most, s[1].strength_sum) = (1_001, 1_001), "reached"),
            (|_, _, s| (s[1].strength_most, s[1].strength_sum) = (1_000, 1_000), "not sealed 13 1 1000 1001"),
            (|f, _, _| f.index_bits += 1, "not sealed 16 0 4614500768194494465 4614500768194494464"),
            (|f, _, _| f.pictures = 99, "refused 18 0"),
        ];
        for (number, (change, said)) in cases.into_iter().enumerate() {
            let line = line_after(change);
            assert!(line.starts_with(said), "case {number}: {line}");
        }
    }

    #[test]
    fn few_and_short_scenes() {
        let three: Change = |f, _, s| {
            f.opening.display_time = 40_000;
            let last = Scene { first: 75, pictures: 25, repeated: 5, ..s[1] };
            (s[1].pictures, s[1].repeated) = (15, 5);
            s.push(last);
        };
        assert!(line_after(three).starts_with("reached"));
        let short: Change = |f, _, s| {
            f.opening.display_time = 40_000;
            let last = Scene { first: 74, pictures: 26, repeated: 5, ..s[1] };
            (s[1].pictures, s[1].repeated) = (14, 5);
            s.push(last);
        };
        assert_eq!(line_after(short), "not sealed 15 1 560000 600000\n");
        let many: Change = |f, _, s| {
            f.opening.display_time = 10_000;
            let last = Scene { first: 75, pictures: 25, repeated: 5, ..s[1] };
            (s[1].pictures, s[1].repeated) = (15, 5);
            s.push(last);
        };
        assert_eq!(line_after(many), "not sealed 3 0 3 2\n");
    }
}
