//! Records that were sealed and changed afterwards: in one figure at random, or in some that a mark is about.

use crate::batch;
use crate::film::Scene;
use crate::prng::Prng;
use crate::record::{Index, View, HEADER, ROW};
use crate::records::Parts;
use crate::units::Unit;
use std::io::{self, Read, Write};

/// A figure: its name, its place in the header or the row, and its bytes.
type Figure = (&'static str, usize, usize);

const OF_HEADER: [Figure; 10] = [
    ("edition", 0, 4),
    ("width", 24, 4),
    ("height", 28, 4),
    ("display-time", 32, 4),
    ("pid", 36, 4),
    ("pictures-in-all", 40, 4),
    ("records", 44, 4),
    ("passed-over", 48, 4),
    ("bad", 52, 4),
    ("index", 56, 8),
];

/// The last one is a figure in edition 4 alone.
const OF_UNIT: [Figure; 6] =
    [("least", 0, 8), ("greatest", 8, 8), ("size", 16, 4), ("cells", 20, 4), ("lost", 24, 4), ("damaged", 28, 4)];

const OF_SCENE: [Figure; 7] = [
    ("first", 0, 4),
    ("pictures", 4, 4),
    ("repeated", 8, 4),
    ("longest", 12, 4),
    ("strength-sum", 16, 4),
    ("strength-most", 20, 4),
    ("change-sum", 24, 4),
];

/// How one figure changes: to any other value that its bytes hold, or by 1 to 10.
#[derive(Clone, Copy)]
pub enum Way {
    Far,
    Near,
}

impl Way {
    pub fn named(name: &str) -> Option<Way> {
        match name {
            "far" => Some(Way::Far),
            "near" => Some(Way::Near),
            _ => None,
        }
    }

    fn other(self, random: &mut Prng, value: u64, most: u64) -> u64 {
        loop {
            let step = random.between(1, 10) as u64;
            let other = match self {
                Way::Far => random.next() & most,
                Way::Near if random.once_in(2) => value.saturating_sub(step),
                Way::Near => value.saturating_add(step).min(most),
            };
            if other != value {
                return other;
            }
        }
    }
}

/// Each record of a batch with one figure changed, every figure as likely as any other; a line of names says which.
pub fn change_each(
    way: Way,
    seed: u64,
    mut records: impl Read,
    names: &mut impl Write,
    out: &mut impl Write,
) -> io::Result<()> {
    let mut random = Prng::new(seed);
    while let Some(mut record) = batch::next(&mut records)? {
        writeln!(names, "{}", change(way, &mut random, &mut record))?;
        batch::put(out, &record)?;
    }
    Ok(())
}

fn change(way: Way, random: &mut Prng, record: &mut [u8]) -> &'static str {
    let figures = figures(record);
    let (name, at, length) = random.pick(&figures);
    let bytes = &mut record[at..at + length];
    let value = bytes.iter().rev().fold(0, |value, &byte| value << 8 | u64::from(byte));
    let other = way.other(random, value, u64::MAX >> (64 - 8 * length));
    bytes.copy_from_slice(&other.to_le_bytes()[..length]);
    name
}

/// Every figure of a sealed record.
fn figures(record: &[u8]) -> Vec<Figure> {
    let view = View::open(record).expect("a sealed record is allowed");
    let of_unit = if view.tells_damaged() { &OF_UNIT[..] } else { &OF_UNIT[..5] };
    let rows = (0..view.units).map(|_| of_unit).chain((0..view.scenes).map(|_| &OF_SCENE[..]));
    let in_row = |(row, figures): (usize, &[Figure])| {
        let start = HEADER + ROW * row;
        figures.iter().map(|&(name, place, length)| (name, start + place, length)).collect::<Vec<_>>()
    };
    OF_HEADER.into_iter().chain(rows.enumerate().flat_map(in_row)).collect()
}

/// Each record of a batch with one to three figures put at the edge of a mark; most of them have the index that their
/// rows then reach.
pub fn forge_each(seed: u64, mut records: impl Read, out: &mut impl Write) -> io::Result<()> {
    let mut random = Prng::new(seed);
    while let Some(record) = batch::next(&mut records)? {
        let mut parts = Parts::of(&View::open(&record).expect("a sealed record is allowed"));
        for _ in 0..random.between(1, 3) {
            match random.below(4) {
                0 => aim_at_all(&mut random, &mut parts),
                1 => aim_at_unit(&mut random, &mut parts),
                2 => aim_at_scene(&mut random, &mut parts),
                _ => move_boundary(&mut random, &mut parts),
            }
        }
        if !random.once_in(4) {
            parts.figures.index_bits = reached(&parts);
        }
        batch::put(out, &parts.written())?;
    }
    Ok(())
}

/// The number, one less or one more.
fn about(random: &mut Prng, number: u64) -> u32 {
    let near = random.pick(&[number, number.saturating_sub(1), number + 1]);
    near.min(u32::MAX.into()) as u32
}

/// Marks 1 to 3 and 16.
fn aim_at_all(random: &mut Prng, parts: &mut Parts) {
    let figures = &mut parts.figures;
    let carrying = u64::from(figures.records - figures.passed_over);
    let in_units: u64 = parts.units.iter().map(|unit| u64::from(unit.cells) + u64::from(unit.damaged)).sum();
    let room = (348 * carrying).saturating_sub(in_units);
    match random.below(5) {
        0 => {
            let cells = u64::from(figures.bad_cells) + in_units;
            let rest = 268_435_456u64.saturating_sub(24 + 42 * carrying + 188 * cells);
            figures.records = about(random, rest / 16).max(figures.records);
            figures.passed_over = figures.records - carrying as u32;
        }
        1 => figures.bad_cells = about(random, room),
        2 if figures.opening.edition == 4 => {
            let unit = random.below(parts.units.len());
            let damaged = u64::from(parts.units[unit].damaged);
            parts.units[unit].damaged = about(random, (room + damaged).saturating_sub(figures.bad_cells.into()));
        }
        3 => figures.index_bits ^= random.pick(&[1, 1 << 51, 1 << 63]),
        _ => {
            let apart = figures.pictures.saturating_sub(3) / (parts.scenes.len() as u32 - 1).max(1);
            let of_scene = random.pick(&parts.scenes).pictures;
            let pictures = random.pick(&[of_scene, apart, apart + 1]).max(1);
            let edge = about(random, u64::from(600_000u32.div_ceil(pictures)));
            figures.opening.display_time = edge.clamp(10_000, 200_000);
        }
    }
}

/// Marks 4 and 5.
fn aim_at_unit(random: &mut Prng, parts: &mut Parts) {
    let row = if random.once_in(3) { 0 } else { random.below(parts.units.len()) };
    let Unit { greatest_time, cells, lost, .. } = &mut parts.units[row];
    if random.once_in(3) {
        *greatest_time = (*greatest_time).max(4_294_967_295_999_999 + u64::from(random.once_in(2)));
    } else {
        let gaps = u64::from(*cells) - u64::from(random.once_in(2));
        *lost = about(random, 14 * gaps);
    }
}

/// Marks 6 to 13.
fn aim_at_scene(random: &mut Prng, parts: &mut Parts) {
    let row = random.below(parts.scenes.len());
    let scene = &mut parts.scenes[row];
    let unrepeated = u64::from(scene.pictures.saturating_sub(scene.repeated));
    let moving = unrepeated.saturating_sub(u64::from(row == 0));
    match random.below(8) {
        0 => scene.repeated = about(random, scene.pictures.into()),
        1 => scene.repeated = about(random, u64::from(scene.longest_run) * unrepeated),
        2 => scene.longest_run = about(random, scene.repeated.into()),
        3 => scene.longest_run = about(random, u64::from(scene.repeated) / unrepeated.max(1)),
        4 => scene.strength_most = about(random, scene.strength_sum.into()),
        5 => {
            let most = random.pick(&[1_000, 1_001, 1_000_000]);
            scene.strength_most = about(random, most);
            scene.strength_sum = scene.strength_most * random.between(1, moving.max(1) as usize) as u32;
        }
        6 => scene.strength_sum = about(random, u64::from(scene.strength_most) * moving),
        _ => scene.change_sum = about(random, 25_500 * moving),
    }
}

/// Marks 14 and 15: a scene ends elsewhere, and the next one begins there.
fn move_boundary(random: &mut Prng, parts: &mut Parts) {
    let last = parts.scenes.len().saturating_sub(2);
    let row = if random.once_in(2) { last } else { random.below(last + 1) };
    let Some([one, next]) = parts.scenes.get_mut(row..row + 2) else {
        return;
    };
    let both = one.pictures + next.pictures;
    let long = 600_000u32.div_ceil(parts.figures.opening.display_time);
    let end = random.pick(&[both.saturating_sub(2), both.saturating_sub(3), long, long - 1]).clamp(1, both - 1);
    (one.pictures, next.first, next.pictures) = (end, one.first + end, both - end);
    for Scene { pictures, repeated, longest_run, .. } in [one, next] {
        *repeated = (*repeated).min(*pictures - 1);
        *longest_run = (*longest_run).min(*repeated);
    }
}

/// The bits of the index that the rows reach; those of 1 where there are too many repeated pictures.
fn reached(parts: &Parts) -> u64 {
    let pictures = parts.figures.pictures;
    let repeated: u64 = parts.scenes.iter().map(|scene| u64::from(scene.repeated)).sum();
    let unrepeated = u64::from(pictures).saturating_sub(repeated) as u32;
    let cells = parts.units.iter().map(|unit| unit.cells).sum();
    let lost = parts.units.iter().map(|unit| unit.lost).sum();
    Index::new(unrepeated, pictures, cells, lost).index.to_bits()
}

#[cfg(test)]
mod tests {
    use super::*;
    use crate::lean::tests::sealed;
    use crate::verify;

    fn lines(records: &[u8]) -> Vec<String> {
        let mut out = Vec::new();
        verify::print_each(records, &mut out).unwrap();
        String::from_utf8(out).unwrap().lines().map(str::to_string).collect()
    }

    #[test]
    fn sealed_records_could_be_and_changed_ones_are_found() {
        let sealed = sealed();
        let lines_of_sealed = lines(&sealed);
        assert!(lines_of_sealed.len() > 300, "{}", lines_of_sealed.len());
        assert!(lines_of_sealed.iter().all(|line| line.starts_with("reached ")));
        for way in [Way::Far, Way::Near] {
            let (mut names, mut changed) = (Vec::new(), Vec::new());
            change_each(way, 1, &sealed[..], &mut names, &mut changed).unwrap();
            let names = String::from_utf8(names).unwrap();
            for (name, line) in names.lines().zip(lines(&changed)) {
                let told = !line.starts_with("reached ");
                assert!(told || !["index", "cells", "lost", "repeated", "size", "first"].contains(&name), "{name}");
            }
        }
    }

    #[test]
    fn every_mark_is_lacking_in_some_forged_record() {
        let mut forged = Vec::new();
        forge_each(1, &sealed()[..], &mut forged).unwrap();
        let lines = lines(&forged);
        for mark in 1..=16 {
            assert!(lines.iter().any(|line| line.starts_with(&format!("not sealed {mark} "))), "mark {mark}");
        }
        assert!(lines.iter().any(|line| line.starts_with("reached ")));
    }
}
