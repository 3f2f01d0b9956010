//! The page of a shelf: a line a record, and the totals.
use super::drawing::{part, strips, Place, Strip};
use super::html::{document, escaped, figure, paragraph, said, section, table, terms};
use super::rules::{self, quoted};
use crate::output::{count, grouped};
use crate::shelf::{lines, Line};
use crate::show::date::date;
use crate::stop::Stop;
use crate::verify;
use carolsedge::{Refusal, Shelf, NEWEST_EDITION};

/// What a record's bar takes of its place, so that bars of one height can be told apart, few or many.
const BAR: f64 = 0.9;

pub fn page(bytes: &[u8], shelf: &Shelf, name: &str) -> Result<String, Stop> {
    let lines = lines(bytes, shelf)?;
    let top = "Every figure is what the proved reader gives of the shelf or of a record of it, or follows from \
               that: a record's lost packets, and its date. Drawings are to scale; what is written in them is exact.";
    let one = "<code>carolsedge shelf take SHELF 7 | carolsedge page - -o 7.html</code> makes the page of record 7.";
    let sections = [forged(shelf, name)?, paragraph(top), paragraph(one), totals(shelf), records(&lines)];
    Ok(document(&format!("Shelf {name}"), &sections))
}

/// What is said above all else where no seal leaves one of the records.
fn forged(shelf: &Shelf, name: &str) -> Result<String, Refusal> {
    let lines = verify::not_sealed(shelf, name)?;
    if lines.is_empty() {
        return Ok(String::new());
    }
    let lines: Vec<_> = lines.iter().map(|line| format!("{}.", escaped(line))).collect();
    let lines = lines.join("</p>\n<p class=\"forged\">");
    Ok(format!("<p class=\"forged\" id=\"forged\">{lines}</p>\n<p class=\"forged\">{}</p>\n", verify::FORGED))
}

fn totals(shelf: &Shelf) -> String {
    let term = |name, of: &str, number: u64, rules| {
        let text = said(&figure(of, &grouped(number)));
        (name, [vec![text], quoted(rules, NEWEST_EDITION)].concat())
    };
    let entries = [
        term("Records", "records-total", shelf.len() as u64, rules::SHELF),
        term("Lost", "lost-total", shelf.lost(), rules::SHELF_LOST),
    ];
    section("totals", "Totals", &[terms(&entries)])
}

fn records(lines: &[Line]) -> String {
    let places: Vec<_> = lines.iter().enumerate().map(|(j, line)| place(j, line, lines.len())).collect();
    let lost: Vec<_> = lines.iter().map(|line| line.lost).collect();
    let index: Vec<_> = lines.iter().map(|line| line.header.index).collect();
    let bars = [Strip::on([1.0, 5.0], "index", "index", &index), Strip::of("lost", "lost", "record", &lost)];
    let drawing = strips("records-drawing", "Index and lost packets of each record", &places, &bars);
    let headings = [
        "No.",
        "offset",
        "length",
        "edition",
        "width",
        "height",
        "pictures",
        "units",
        "scenes",
        "lost",
        "index",
        "pid",
        "first packet (UTC)",
    ];
    let rows: Vec<_> = lines.iter().enumerate().map(|(j, line)| row(j, line)).collect();
    section("records", "Records", &[drawing, table("records", "Records, in order", &headings, &rows)])
}

fn place(j: usize, line: &Line, records: usize) -> Place {
    let part = |figure: usize| part(figure as u64, records as u64);
    let (units, lost) = (count(line.header.units as u64, "unit"), grouped(line.lost));
    Place {
        at: part(j),
        width: BAR * part(1),
        mark: part(j) + BAR * part(1) / 2.0,
        said: format!("record {j}: {units}, {lost} lost, index {:?}", line.header.index),
        below: [format!("record {j}"), format!("{lost} lost")],
    }
}

fn row(j: usize, line: &Line) -> Vec<String> {
    let h = &line.header;
    let mut row = vec![j.to_string(), grouped(line.at as u64), grouped(line.length as u64), h.edition.to_string()];
    row.extend([h.width, h.height, h.pictures].map(u64::from).map(grouped));
    row.extend([h.units as u64, h.scenes as u64, line.lost].map(grouped));
    row.extend([format!("{:?}", h.index), h.pid.to_string(), date(line.first)]);
    row
}
