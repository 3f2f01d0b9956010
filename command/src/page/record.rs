//! The page of a record: what its header says; index, units and scenes have files of their own.
use super::html::{document, figure, paragraph, said, section, terms};
use super::rules::{self, quoted, Rule};
use super::{index, scenes, units};
use crate::output::grouped;
use crate::show::date::{seconds, span};
use crate::verify;
use carolsedge::{Header, Reached, Record, Refusal, Scene, Unit, Verdict};

/// A record's figures, and what verifying it says.
pub struct Figures {
    pub h: Header,
    pub units: Vec<Unit>,
    pub scenes: Vec<Scene>,
    pub verdict: Verdict,
    pub reached: Option<Reached>,
}

pub fn page(record: &Record, name: &str) -> Result<String, Refusal> {
    let verdict = record.verify()?;
    let read = Figures {
        h: record.header(),
        units: record.units().collect(),
        scenes: record.scenes().collect(),
        verdict,
        reached: verify::reached(record, &verdict),
    };
    let top = "Every figure is what the proved reader gives of the record, or follows from that: dates, seconds, \
               totals and the index's two parts. Drawings are to scale; what is written in them is exact.";
    let parts = "<nav aria-label=\"Parts of this page\"><a href=\"#index\">Index</a> <a href=\"#sample\">Sample</a> \
                 <a href=\"#units\">Units</a> <a href=\"#scenes\">Scenes</a></nav>\n";
    let sections = [
        index::forged(&read.verdict),
        index::section(&read),
        paragraph(top),
        parts.into(),
        sample(&read),
        units::section(&read),
        scenes::section(&read),
    ];
    Ok(document(&format!("Record {name}"), &sections))
}

/// A term with what is said of it, and its rules by the record's edition.
pub fn term<'a>(h: &Header, name: &'a str, text: &str, rules: &[Rule]) -> (&'a str, Vec<String>) {
    (name, [vec![said(text)], quoted(rules, h.edition)].concat())
}

fn sample(read: &Figures) -> String {
    let h = &read.h;
    let number = |name: &str, number: u32| figure(name, &grouped(number.into()));
    let plain = |name: &str, number: u32| figure(name, &number.to_string());
    let all = seconds(u64::from(h.pictures) * u64::from(h.time));
    let rate = 1e6 / f64::from(h.time);
    let size = format!("{} by {}", plain("width", h.width), plain("height", h.height));
    let time = format!("{} microseconds ({rate:.3} pictures a second), {all} s in all", number("time", h.time));
    let pid = format!("{} (0x{:04X})", plain("pid", h.pid), h.pid);
    let edition = format!("{} of the rules", plain("edition", h.edition));
    let entries = [
        term(h, "Pictures N", &number("pictures", h.pictures), rules::PICTURES),
        term(h, "Width W and height H", &size, rules::SIZE),
        term(h, "Display time d", &time, rules::TIME),
        term(h, "Packet identifier PID", &pid, rules::PID),
        term(h, "Captured", &span(read.units.iter().copied()), rules::TIMES),
        term(h, "Frames", &number("frames", h.frames), rules::FRAMES),
        term(h, "Skipped frames, which do not carry", &number("skipped", h.skipped), rules::SKIPPED),
        term(h, "Bad packets", &number("bad", h.bad), rules::BAD),
        term(h, "Edition", &edition, rules::EDITION),
    ];
    section("sample", "Sample", &[terms(&entries)])
}
