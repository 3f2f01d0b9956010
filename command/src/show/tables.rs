//! Every figure of a record: as the program `show` prints them, as JSON, and as CSV.
use carolsedge::{Header, Record, Scene, Unit};

const SAMPLE: [&str; 9] = ["width", "height", "time", "pid", "pictures", "frames", "skipped", "bad", "index_bits"];
const UNIT: [&str; 6] = ["least", "greatest", "size", "packets", "lost", "damaged"];
const SCENE: [&str; 7] = ["first", "pictures", "repeated", "longest", "score", "peak", "change"];

/// The sample's figures but the index.
fn sample(h: &Header) -> [u32; 8] {
    [h.width, h.height, h.time, h.pid, h.pictures, h.frames, h.skipped, h.bad]
}

fn unit(u: Unit) -> [u64; 6] {
    [u.least, u.greatest, u.size.into(), u.packets.into(), u.lost.into(), u.damaged.into()]
}

fn scene(s: Scene) -> [u64; 7] {
    let row = [s.first, s.pictures, s.repeated, s.longest, s.score, s.peak, s.change];
    row.map(u64::from)
}

/// The index's bits, 16 digits.
pub fn bits(h: &Header) -> String {
    format!("{:016X}", h.index.to_bits())
}

fn joined<T: ToString>(figures: &[T], between: &str) -> String {
    figures.iter().map(T::to_string).collect::<Vec<_>>().join(between)
}

/// What the program `show` prints.
pub fn lines(record: &Record) -> String {
    let h = record.header();
    let mut text = format!("sample {} {}\n", joined(&sample(&h), " "), bits(&h));
    for (j, row) in record.units().map(unit).enumerate() {
        text += &format!("unit {j} {}\n", joined(&row[..5], " "));
    }
    for (j, row) in record.scenes().map(scene).enumerate() {
        text += &format!("scene {j} {}\n", joined(&row, " "));
    }
    text
}

/// The index in a field that no spreadsheet takes for a formula: left empty where it is negative or no number, as no
/// seal's is; its bits stand before it.
fn plain_index(h: &Header) -> String {
    match h.index.is_finite() && h.index.is_sign_positive() {
        true => h.index.to_string(),
        false => String::new(),
    }
}

pub fn csv(record: &Record) -> String {
    let h = record.header();
    let mut text = format!("sample,edition,{},index\n", SAMPLE.join(","));
    text += &format!("sample,{},{},{},{}\n", h.edition, joined(&sample(&h), ","), bits(&h), plain_index(&h));
    text += &format!("unit,number,{}\n", UNIT.join(","));
    for (j, row) in record.units().map(unit).enumerate() {
        text += &format!("unit,{j},{}\n", joined(&row, ","));
    }
    text += &format!("scene,number,{}\n", SCENE.join(","));
    for (j, row) in record.scenes().map(scene).enumerate() {
        text += &format!("scene,{j},{}\n", joined(&row, ","));
    }
    text
}

/// `"name": figure, ..`
fn members<T: ToString>(names: &[&str], figures: &[T]) -> String {
    let all = names.iter().zip(figures).map(|(name, figure)| format!("\"{name}\": {}", figure.to_string()));
    all.collect::<Vec<_>>().join(", ")
}

fn objects<T: ToString>(names: &[&str], rows: impl Iterator<Item = Vec<T>>) -> String {
    let all = rows.map(|row| format!("    {{{}}}", members(names, &row)));
    all.collect::<Vec<_>>().join(",\n")
}

pub fn json(record: &Record) -> String {
    let h = record.header();
    let index = match h.index.is_finite() {
        true => format!("{:?}", h.index),
        false => "null".into(),
    };
    let sample = members(&SAMPLE, &sample(&h));
    let units = objects(&UNIT, record.units().map(|row| unit(row).to_vec()));
    let scenes = objects(&SCENE, record.scenes().map(|row| scene(row).to_vec()));
    format!(
        "{{\n  \"edition\": {}, {sample},\n  \"index\": {index}, \"index_bits\": \"{}\",\n  \
         \"units\": [\n{units}\n  ],\n  \"scenes\": [\n{scenes}\n  ]\n}}\n",
        h.edition,
        bits(&h)
    )
}
