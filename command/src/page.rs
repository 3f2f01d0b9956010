//! carolsedge page: a record or a shelf as one HTML page.
mod drawing;
mod html;
mod index;
mod record;
mod rules;
mod scenes;
mod shelf;
mod units;

use crate::input::Input;
use crate::outside::{in_page, shown};
use crate::stop::Stop;
use crate::words::Words;
use crate::write::Target;
use crate::{explain, output, Subcommand};
use carolsedge::{Record, Shelf};
use std::ffi::OsString;

pub const SUBCOMMAND: Subcommand =
    Subcommand { name: "page", summary: "make an HTML page of a record or of a shelf", help: HELP, run };

const HELP: &str = "\
usage: carolsedge page RECORD [-o FILE]
       carolsedge page SHELF [-o FILE]

Makes one HTML page of a record, or of a shelf of records; the file says which
it is. RECORD or SHELF may be - for standard input. The page needs no other
file, no network and no scripts, fits a wide and a narrow window, and prints.

Of a record it has every figure that carolsedge show has, drawings of units over
time, of scenes and of the index with its two parts, and the rule of each figure
in the words of docs/RULE.md. Of a shelf it has a line for each record, as
carolsedge shelf list has, and the totals.

  -o FILE      where the page is put: over nothing or over a regular file that
               is not the one read; without it, standard output

  carolsedge page seat.record -o seat.html

Exit status: 0 made, 1 refused, 2 wrong words or a file's error.
";

fn run(words: Vec<OsString>) -> Result<(), Stop> {
    let words = Words::part(words, &["-o"], &[])?;
    let name = words.one("RECORD or SHELF")?;
    let out = words.value("-o");
    if let Some(out) = out.filter(|out| *out == "-" || out.is_empty()) {
        return Err(Stop::Usage(format!("-o {}: not the name of a file", shown(out))));
    }
    let mut input = Input::open(&name)?;
    let read = vec![(input.identity(), input.name().to_string())];
    let file = out.map(|out| Target::new(out, read)).transpose()?;
    let bytes = crate::shelf::read(&mut input)?;
    let title = if name == "-" { input.name().to_string() } else { in_page(&name) };
    let page = page(&bytes, &title).map_err(|stop| stop.of(input.name()))?;
    match file {
        Some(file) => file.write(page.as_bytes()),
        None => output::print(&page),
    }
}

/// What bytes are: no bytes are both.
pub enum Kind<'a> {
    Record(Record<'a>),
    Shelf(Shelf<'a>),
}

/// Whether bytes are a record or a shelf. Of bytes that are neither, the record's refusal is given, unless they are
/// laid out as a shelf, of which one record is refused.
pub fn kind(bytes: &[u8]) -> Result<Kind<'_>, Stop> {
    let refusal = match Record::read(bytes) {
        Ok(record) => return Ok(Kind::Record(record)),
        Err(refusal) => refusal,
    };
    match Shelf::read(bytes) {
        Ok(shelf) => Ok(Kind::Shelf(shelf)),
        Err(other) if other.number == 28 => Err(other.into()),
        Err(other) => {
            let mends = if bytes.is_empty() { explain::EMPTY } else { explain::mends(refusal.number) };
            let mut found = vec![mends.into(), format!("nor is it a shelf: {other}")];
            found.extend(crate::shelf::stopped(bytes));
            Err(Stop::refused(refusal, found))
        }
    }
}

fn page(bytes: &[u8], name: &str) -> Result<String, Stop> {
    match kind(bytes)? {
        Kind::Record(record) => Ok(record::page(&record, name)?),
        Kind::Shelf(shelf) => shelf::page(bytes, &shelf, name),
    }
}
