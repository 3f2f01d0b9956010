//! The reading room's sheet (request R-1): a record as pages of 60 lines of 100 columns.

use crate::film::Scene;
use crate::opening::Refusal;
use crate::record::View;
use crate::units::CELL_PAYLOAD;
use std::fmt::Display;

const COLUMNS: usize = 100;
const LINES_OF_PAGE: usize = 60;

/// Columns of a field, and of a time or the index bits.
const NARROW: usize = 11;
const WIDE: usize = 21;

/// What the program `sheet` prints: the pages, or a refusal as `show` has it.
pub fn print(record: &[u8]) -> Vec<u8> {
    pages(record).unwrap_or_else(|refusal| format!("refused {}\n", refusal.number).into_bytes())
}

/// The pages of a record; reading's refusals 16 to 18 otherwise.
pub fn pages(record: &[u8]) -> Result<Vec<u8>, Refusal> {
    let view = View::open(record)?;
    let mut lines = vec![sample_line(&view)];
    for number in 0..view.units {
        lines.push(unit_line(&view, number)?);
    }
    for number in 0..view.scenes {
        lines.push(scene_line(number, &view.scene(number)?));
    }
    while !lines.len().is_multiple_of(LINES_OF_PAGE) {
        lines.push(String::new());
    }
    let filled = lines.iter().map(|line| format!("{line:COLUMNS$}\n"));
    Ok(filled.collect::<String>().into_bytes())
}

fn sample_line(view: &View) -> String {
    let figures = view.figures();
    let mut line = String::from(" ");
    fields(&mut line, &[figures.opening.width, figures.opening.height, figures.pictures]);
    field(&mut line, WIDE, format!("{:016X}", figures.index_bits));
    line
}

fn unit_line(view: &View, number: usize) -> Result<String, Refusal> {
    let unit = view.unit(number)?;
    let mut line = String::from("U");
    field(&mut line, NARROW, number);
    field(&mut line, WIDE, unit.least_time);
    field(&mut line, WIDE, unit.greatest_time);
    fields(&mut line, &[unit.cells * CELL_PAYLOAD, unit.cells, unit.lost]);
    if view.tells_damaged() {
        field(&mut line, NARROW, unit.damaged);
    }
    Ok(line)
}

fn scene_line(number: usize, scene: &Scene) -> String {
    let mut line = String::from("S");
    field(&mut line, NARROW, number);
    fields(&mut line, &[scene.first, scene.pictures, scene.repeated, scene.longest_run]);
    fields(&mut line, &[scene.strength_sum, scene.strength_most, scene.change_sum]);
    line
}

fn fields(line: &mut String, values: &[u32]) {
    values.iter().for_each(|value| field(line, NARROW, value));
}

/// Adds a field, right-aligned in its columns.
fn field(line: &mut String, columns: usize, value: impl Display) {
    line.push_str(&format!("{value:>columns$}"));
}

#[cfg(test)]
mod tests {
    use super::*;
    use crate::opening::Opening;
    use crate::record::{self, Figures};
    use crate::units::Unit;

    const OPENING: Opening = Opening { width: 1920, height: 1080, display_time: 40_000, pid: 256, edition: 1 };

    const UNIT: Unit = Unit {
        least_time: u64::MAX - 1,
        greatest_time: u64::MAX,
        cells: 23_342_213,
        lost: u32::MAX,
        damaged: 0,
    };

    /// A record of so many like units and scenes of one picture.
    fn record(units: usize, scenes: u32) -> Vec<u8> {
        let figures = Figures {
            opening: OPENING,
            pictures: scenes,
            records: 1,
            passed_over: 0,
            bad_cells: 0,
            index_bits: 0x400A_0000_0000_0000,
        };
        let scene = |first| Scene {
            first,
            pictures: 1,
            repeated: 4,
            longest_run: 5,
            strength_sum: 6,
            strength_most: 7,
            change_sum: u32::MAX,
        };
        record::write(&figures, &vec![UNIT; units], &(0..scenes).map(scene).collect::<Vec<_>>())
    }

    #[test]
    fn columns_of_every_line() {
        let pages = String::from_utf8(pages(&record(1, 2)).unwrap()).unwrap();
        assert!(pages.ends_with('\n'));
        let lines: Vec<&str> = pages.lines().collect();
        let sample = "        1920       1080          2     400A000000000000";
        assert_eq!((sample.len(), lines[0].trim_end()), (55, sample));
        let unit = "U          0 18446744073709551614 18446744073709551615 4294967192   23342213 4294967295";
        assert_eq!((unit.len(), lines[1].trim_end()), (87, unit));
        let scene = "S          1          1          1          4          5          6          7 4294967295";
        assert_eq!((scene.len(), lines[3].trim_end()), (89, scene));
        assert!(lines.len() == 60 && lines.iter().all(|line| line.len() == 100));
        assert!(lines[4..].iter().all(|line| line.trim_end().is_empty()));
    }

    #[test]
    fn a_unit_of_edition_4_has_its_damaged_cells_as_the_last_field() {
        let mut record = record(1, 1);
        record[0] = 4;
        record[64 + 28..96].fill(0xFF);
        let pages = String::from_utf8(pages(&record).unwrap()).unwrap();
        let lines: Vec<&str> = pages.lines().collect();
        assert_eq!(&lines[1][76..], " 4294967295 4294967295  ");
        assert_eq!(lines[2].trim_end().len(), 89);
        record[0] = 3;
        record[64 + 28..96].fill(0);
        assert_eq!(unit_line(&View::open(&record).unwrap(), 0).unwrap().len(), 87);
    }

    #[test]
    fn a_page_is_filled_before_the_next_one_begins() {
        for (units, pages_of) in [(1, 1), (57, 1), (58, 1), (59, 2), (118, 2), (119, 3), (750, 13)] {
            let length = pages(&record(units, 1)).unwrap().len();
            assert_eq!(length, pages_of * 60 * 101, "{units} units");
        }
        assert_eq!(pages(&record(750, 250)).unwrap().len(), 17 * 6_060);
    }

    #[test]
    fn what_reading_refuses_has_no_pages() {
        let mut record = record(1, 1);
        assert_eq!(pages(&record[..63]), Err(Refusal::unplaced(16)));
        assert_eq!(pages(&record[..127]), Err(Refusal::unplaced(18)));
        assert_eq!(print(&record[..127]), b"refused 18\n");
        record[0] = 0;
        assert_eq!(pages(&record), Err(Refusal::unplaced(17)));
    }
}
