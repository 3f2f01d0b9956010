//! The units over time, on a record's page.
use super::drawing::{part, strips, Place, Strip};
use super::html::{self, paragraph, table, terms};
use super::record::Figures;
use super::rules::{self, quoted};
use crate::output::{count, grouped};
use crate::show::date::{date, seconds};
use crate::show::knows_damage;
use carolsedge::Unit;

pub fn section(read: &Figures) -> String {
    let units = &read.units;
    let first = units.iter().map(|unit| unit.least).min().unwrap_or(0);
    let known = knows_damage(&read.h);
    let parts =
        [paragraph(&totals(units, known)), drawing(units, first, known), told(read), rows(units, first, known)];
    html::section("units", "Units", &parts)
}

fn totals(units: &[Unit], known: bool) -> String {
    let sum = |figure: fn(&Unit) -> u32| units.iter().map(|unit| u64::from(figure(unit))).sum();
    let (packets, lost, damaged) = (sum(|unit| unit.packets), sum(|unit| unit.lost), sum(|unit| unit.damaged));
    let also = if known { format!(", {} damaged", grouped(damaged)) } else { String::new() };
    format!(
        "{}, {}, {} lost (counted modulo 16: there may be more){also}",
        count(units.len() as u64, "unit"),
        count(packets, "packet"),
        grouped(lost)
    )
}

fn drawing(units: &[Unit], first: u64, known: bool) -> String {
    let all = units.iter().map(|unit| unit.greatest - first).max().unwrap_or(0);
    let figures = |figure: fn(&Unit) -> u32| units.iter().map(|unit| u64::from(figure(unit))).collect::<Vec<_>>();
    let mut bars = vec![
        Strip::of("packets", "packets", "unit", &figures(|unit| unit.packets)),
        Strip::of("lost", "lost", "unit", &figures(|unit| unit.lost)),
    ];
    if known {
        bars.push(Strip::of("damaged", "damaged", "unit", &figures(|unit| unit.damaged)));
    }
    let places: Vec<_> = units.iter().enumerate().map(|(j, unit)| place(j, unit, first, all, known)).collect();
    let title = "Units over time: a bar begins at its unit's first packet; units of one time lie over each other";
    strips("units-drawing", title, &places, &bars)
}

fn place(j: usize, unit: &Unit, first: u64, all: u64, known: bool) -> Place {
    let after = seconds(unit.least - first);
    let [packets, lost, damaged] = [unit.packets, unit.lost, unit.damaged].map(|figure| grouped(figure.into()));
    let also = if known { format!(", {damaged} damaged") } else { String::new() };
    Place {
        at: part(unit.least - first, all),
        mark: part(unit.least - first, all),
        width: part(unit.greatest - unit.least, all),
        said: format!("unit {j}, after {after} s: {packets} packets, {lost} lost{also}"),
        below: [format!("unit {j}"), format!("{after} s")],
    }
}

fn told(read: &Figures) -> String {
    let quoted = |rules| quoted(rules, read.h.edition);
    let mut entries = vec![
        ("Unit", quoted(rules::UNIT)),
        ("Least and greatest time", quoted(rules::TIMES)),
        ("Bytes, packets", quoted(rules::PACKETS)),
        ("Lost", quoted(rules::LOST)),
    ];
    if knows_damage(&read.h) {
        entries.push(("Damaged", quoted(rules::DAMAGED)));
    }
    terms(&entries)
}

fn rows(units: &[Unit], first: u64, known: bool) -> String {
    let mut headings = vec!["No.", "first packet (UTC)", "after s", "lasts s", "bytes", "packets", "lost"];
    headings.extend(known.then_some("damaged"));
    headings.extend(["least time, µs", "greatest time, µs"]);
    let row = |(j, u): (usize, &Unit)| {
        let mut row = vec![j.to_string(), date(u.least), seconds(u.least - first), seconds(u.greatest - u.least)];
        row.extend([u.size, u.packets, u.lost].map(|figure| grouped(figure.into())));
        row.extend(known.then(|| grouped(u.damaged.into())));
        row.extend([u.least, u.greatest].map(|time| time.to_string()));
        row
    };
    let rows: Vec<_> = units.iter().enumerate().map(row).collect();
    table("units", "Units, in order; times since 1970 in microseconds", &headings, &rows)
}
