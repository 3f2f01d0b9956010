//! `records`: random record files for comparing what `show` says, allowed or damaged in one place.

use crate::film::Scene;
use crate::opening::Opening;
use crate::prng::Prng;
use crate::record::{self, Figures, View, HEADER, ROW};
use crate::units::Unit;

/// The parts of a record, before it is written.
pub struct Parts {
    pub figures: Figures,
    pub units: Vec<Unit>,
    pub scenes: Vec<Scene>,
}

impl Parts {
    /// The parts of an allowed record.
    pub fn of(view: &View) -> Parts {
        let units = (0..view.units).filter_map(|number| view.unit(number).ok()).collect();
        let scenes = (0..view.scenes).filter_map(|number| view.scene(number).ok()).collect();
        Parts { figures: view.figures(), units, scenes }
    }

    pub fn written(&self) -> Vec<u8> {
        record::write(&self.figures, &self.units, &self.scenes)
    }
}

/// Number of ways to damage a record, the last ones leaving it allowed.
const WAYS: u64 = 24;

/// The record file of a seed: seeds run through the ways to damage it.
pub fn random_record(seed: u64) -> Vec<u8> {
    let mut random = Prng::new(seed);
    let mut parts = random_parts(&mut random);
    match seed % WAYS {
        0..=7 => damage_parts(&mut random, &mut parts, seed % WAYS),
        18 => at_the_bounds(&mut parts),
        19 => unlikely_figures(&mut random, &mut parts),
        _ => {}
    }
    let mut bytes = parts.written();
    let scene_row = record::length(parts.units.len(), 0);
    match seed % WAYS {
        8..=13 => damage_words(&mut random, &mut bytes, scene_row, seed % WAYS),
        14..=17 => damage_bytes(&mut random, &mut bytes, seed % WAYS),
        _ => {}
    }
    bytes
}

/// A random record that the reader allows.
pub fn allowed_record(random: &mut Prng) -> Vec<u8> {
    let way = if random.once_in(40) { 18 } else { random.pick(&[19, 20, 21, 22, 23]) };
    random_record(WAYS * (random.next() >> 8) + way)
}

fn random_parts(random: &mut Prng) -> Parts {
    let (units, scenes) = (random.between(1, 6), random.between(1, 6));
    let edition = random.pick(&[1, 2, 3, 4, 4]);
    let units = (0..units).map(|_| random_unit(random, edition)).collect();
    let mut pictures = 0;
    let scenes = (0..scenes)
        .map(|_| {
            let scene = random_scene(random, pictures);
            pictures += scene.pictures;
            scene
        })
        .collect();
    let (width, height) = random.pick(&[(15, 30), (120, 30), (1920, 1088), (544, 1088), (640, 480)]);
    let display_time = random.pick(&[10_000, 40_000, 200_000]);
    let pid = random.pick(&[0, 256, 8_191]);
    let opening = Opening { width, height, display_time, pid, edition };
    let records = random.word();
    let passed_over = random.pick(&[0, records / 2, records]);
    let bad_cells = random.word();
    let index_bits = random.pick(&[0x400A_0000_0000_0000, 0x3FF0_0000_0000_0000, 0xABC]);
    let figures = Figures { opening, pictures, records, passed_over, bad_cells, index_bits };
    Parts { figures, units, scenes }
}

fn random_unit(random: &mut Prng, edition: u32) -> Unit {
    let least_time = random.next() >> random.below(64);
    let greatest_time = least_time.saturating_add(random.pick(&[0, 1, 40_000, 1 << 40]));
    let cells = random.pick(&[1, 2, 1_000, u32::MAX / 184]);
    let damaged = random.pick(&[0, 1, u32::MAX]);
    let damaged = if edition == 4 { damaged } else { 0 };
    Unit { least_time, greatest_time, cells, lost: random.word(), damaged }
}

fn random_scene(random: &mut Prng, first: u32) -> Scene {
    Scene {
        first,
        pictures: random.between(1, 100) as u32,
        repeated: random.below(9) as u32,
        longest_run: random.below(9) as u32,
        strength_sum: random.word(),
        strength_most: random.word(),
        change_sum: random.word(),
    }
}

/// Breaks a condition while every length and offset stays as it should be.
fn damage_parts(random: &mut Prng, parts: &mut Parts, way: u64) {
    let unit = random.below(parts.units.len());
    let scene = random.below(parts.scenes.len());
    let figures = &mut parts.figures;
    match way {
        0 => {
            let sides = random.pick(&[(14, 30), (15, 29), (15, 31), (121, 30), (1921, 1088), (1000, 1089), (0, 0)]);
            (figures.opening.width, figures.opening.height) = sides;
        }
        1 => figures.opening.display_time = random.pick(&[0, 9_999, 200_001, u32::MAX]),
        2 => figures.opening.pid = random.pick(&[8_192, u32::MAX]),
        3 => {
            figures.records = random.below(100) as u32;
            figures.passed_over = figures.records + 1;
        }
        4 => match random.below(3) {
            0 => parts.units.clear(),
            1 => parts.scenes.clear(),
            _ => parts.units[unit].cells = 0,
        },
        5 => {
            let count = random.pick(&[750, 751]);
            parts.units.resize(count, parts.units[unit]);
        }
        6 => parts.units[unit].least_time = parts.units[unit].greatest_time.saturating_add(1),
        _ => damage_scenes(random, parts, scene),
    }
}

/// Breaks how scenes join and total N.
fn damage_scenes(random: &mut Prng, parts: &mut Parts, scene: usize) {
    let scenes = &mut parts.scenes;
    match random.below(8) {
        0 => scenes[scene].pictures = 0,
        1 => scenes[0].first = 1,
        2 => scenes[scene].first += 1,
        3 => scenes[scene].pictures += 1,
        4 => parts.figures.pictures = random.pick(&[0, 751, parts.figures.pictures - 1]),
        5 => many_scenes(parts, 251),
        6 => {
            parts.figures.pictures = 751;
            scenes.truncate(1);
            scenes[0].pictures = 751;
        }
        _ => {
            // First pictures and pictures that join only if 32 bits are allowed to overflow.
            scenes.truncate(1);
            scenes.push(Scene { first: u32::MAX, pictures: 11, ..scenes[0] });
            scenes[0].pictures = u32::MAX;
            parts.figures.pictures = 10;
        }
    }
}

/// So many scenes of two pictures.
fn many_scenes(parts: &mut Parts, count: u32) {
    let like = parts.scenes[0];
    parts.scenes = (0..count).map(|number| Scene { first: 2 * number, pictures: 2, ..like }).collect();
    parts.figures.pictures = 2 * count;
}

/// 750 units, 250 scenes, 750 pictures: still allowed.
fn at_the_bounds(parts: &mut Parts) {
    parts.units.resize(750, parts.units[0]);
    many_scenes(parts, 250);
    parts.scenes[249].pictures += 250;
    parts.figures.pictures = 750;
}

/// Figures that no seal gives, yet the reader allows.
fn unlikely_figures(random: &mut Prng, parts: &mut Parts) {
    parts.figures.index_bits = random.pick(&[u64::MAX, 0x7FF0_0000_0000_0000, 0, 1]);
    parts.figures.records = 0;
    parts.figures.passed_over = 0;
    parts.scenes[0].repeated = u32::MAX;
    parts.scenes[0].longest_run = u32::MAX;
    parts.units[0].lost = u32::MAX;
}

/// Sets one word of the finished record.
fn damage_words(random: &mut Prng, bytes: &mut [u8], scene_row: usize, way: u64) {
    let unit_row = HEADER;
    let place = match way {
        8 => 0,
        9 => random.pick(&[4, 8, 16]),
        10 => random.pick(&[12, 20]),
        11 => random.pick(&[unit_row, scene_row]) + 28,
        12 => unit_row + random.pick(&[16, 20]),
        _ => random.below(bytes.len() / 4) * 4,
    };
    let word = u32::from_le_bytes([bytes[place], bytes[place + 1], bytes[place + 2], bytes[place + 3]]);
    let changed = match random.below(6) {
        0 => word.wrapping_add(1),
        1 => word.wrapping_sub(1),
        2 => word ^ 1 << random.below(32),
        3 => random.word(),
        4 => word.wrapping_add(ROW as u32),
        _ => u32::MAX,
    };
    bytes[place..place + 4].copy_from_slice(&changed.to_le_bytes());
    if way == 12 && random.once_in(2) {
        // 184 × 23,342,214 = 2^32 + 80: right only in 32 bits.
        bytes[unit_row + 16..unit_row + 20].copy_from_slice(&80u32.to_le_bytes());
        bytes[unit_row + 20..unit_row + 24].copy_from_slice(&23_342_214u32.to_le_bytes());
    }
}

/// Changes the length of the file, or bytes anywhere.
fn damage_bytes(random: &mut Prng, bytes: &mut Vec<u8>, way: u64) {
    match way {
        14 => {
            let length = random.pick(&[0, 1, 4, 63, 64, 65, bytes.len() - 1, bytes.len() - ROW]);
            bytes.truncate(length);
        }
        15 => {
            let more = random.pick(&[1, 2, 32, 64, 100_000]);
            bytes.extend(random.bytes(more));
        }
        16 => {
            for _ in 0..random.between(1, 3) {
                let place = random.below(bytes.len());
                bytes[place] ^= 1 << random.below(8);
            }
        }
        _ => {
            let length = random.below(300);
            let edition = random.once_in(2);
            *bytes = random.bytes(length);
            if edition && length >= 4 {
                bytes[..4].copy_from_slice(&[random.pick(&[1, 2, 3, 4]), 0, 0, 0]);
            }
        }
    }
}
