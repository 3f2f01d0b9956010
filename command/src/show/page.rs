//! A record as a page for people.
use super::date::{date, seconds, span};
use super::tables::bits;
use super::{knows_damage, INDEX};
use crate::output::{count, grouped};
use crate::verify;
use carolsedge::{Header, Record, Verdict};

pub fn page(record: &Record, verdict: &Verdict, name: &str) -> String {
    let header = record.header();
    let forged = match verdict {
        Verdict::CouldBeSealed(_) => String::new(),
        Verdict::CouldNotBeSealed(_) => format!("This record is {}.\n{}\n\n", verify::said(verdict), verify::FORGED),
    };
    let reached = verify::reached(record, verdict);
    let sum = reached.map_or("none: more pictures are repeated than there are".into(), |sum| sum.to_string());
    let top = format!("Record {name}\n\n{forged}");
    [top, sample(record, &header, &sum), units(record), scenes(record, header.time)].concat()
}

fn sample(record: &Record, h: &Header, sum: &str) -> String {
    let all = u64::from(h.pictures) * u64::from(h.time);
    let rate = 1e6 / f64::from(h.time);
    let pictures = count(h.pictures.into(), "picture");
    let frames = count(h.frames.into(), "frame");
    format!(
        "Sample\n  \
         index     {:?} (bits {}); {INDEX}\n  \
         reached   {sum}\n  \
         pictures  {pictures} of {} x {}, {} us each ({rate:.3} a second), {} s\n  \
         stream    packet identifier {} (0x{:04X})\n  \
         captured  {}\n  \
         capture   {frames}, {} skipped; {}\n  \
         edition   {} of the rules\n",
        h.index,
        bits(h),
        h.width,
        h.height,
        grouped(h.time.into()),
        seconds(all),
        h.pid,
        h.pid,
        span(record.units()),
        grouped(h.skipped.into()),
        count(h.bad.into(), "bad packet"),
        h.edition,
    )
}

fn units(record: &Record) -> String {
    let first = record.units().map(|unit| unit.least).min().unwrap_or(0);
    let packets = record.units().map(|unit| u64::from(unit.packets)).sum();
    let lost: u64 = record.units().map(|unit| u64::from(unit.lost)).sum();
    let damaged: u64 = record.units().map(|unit| u64::from(unit.damaged)).sum();
    let known = knows_damage(&record.header());
    let also = if known { format!(", {} damaged", grouped(damaged)) } else { String::new() };
    let mut text = format!(
        "\nUnits: {}, {}, {} lost (counted modulo 16: there may be more){also}\n",
        grouped(record.units().len() as u64),
        count(packets, "packet"),
        grouped(lost)
    );
    text += "   No.  first packet (UTC)          after s     lasts s      bytes packets  lost";
    text += if known { " damaged\n" } else { "\n" };
    for (j, u) in record.units().enumerate() {
        let (after, lasts) = (seconds(u.least - first), seconds(u.greatest - u.least));
        let (size, packets, lost) = (grouped(u.size.into()), grouped(u.packets.into()), grouped(u.lost.into()));
        text += &format!("{j:6}  {} {after:>11} {lasts:>11} {size:>10} {packets:>7} {lost:>5}", date(u.least));
        text += &if known { format!(" {:>7}\n", grouped(u.damaged.into())) } else { "\n".into() };
    }
    text
}

fn scenes(record: &Record, time: u32) -> String {
    let repeated: u64 = record.scenes().map(|scene| u64::from(scene.repeated)).sum();
    let number = grouped(record.scenes().len() as u64);
    let mut text = format!("\nScenes: {number}, {} repeated\n", count(repeated, "picture"));
    text += "                                                      longest   cut scores (millionths)      changes\n";
    text += "   No.    begins s     lasts s  first pictures repeated     run          sum   greatest  (hundredths)\n";
    for (j, s) in record.scenes().enumerate() {
        let at = |pictures: u32| seconds(u64::from(pictures) * u64::from(time));
        let (begins, lasts) = (at(s.first), at(s.pictures));
        let (score, peak, change) = (grouped(s.score.into()), grouped(s.peak.into()), grouped(s.change.into()));
        text += &format!("{j:6} {begins:>11} {lasts:>11} {:>6} {:>8} ", s.first, s.pictures);
        text += &format!("{:>8} {:>7} {score:>12} {peak:>10} {change:>13}\n", s.repeated, s.longest);
    }
    text
}
