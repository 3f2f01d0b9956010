//! carolsedge show: a record for people, or every figure of it for programs.
pub mod date;
mod page;
pub mod tables;

use crate::explain::EMPTY;
use crate::input::Input;
use crate::output::{self, count, grouped};
use crate::stop::Stop;
use crate::words::Words;
use crate::{explain, shelf, Subcommand};
use carolsedge::{Header, Record, Refusal, Shelf, RECORD_MOST};
use std::ffi::OsString;

pub const SUBCOMMAND: Subcommand =
    Subcommand { name: "show", summary: "show a record as a page, as lines, as JSON or as CSV", help: HELP, run };

const HELP: &str = "\
usage: carolsedge show RECORD [--lines | --json | --csv]

Shows a record: a file, or - for standard input. Without an option it is a page
for people, with times as dates (UTC) and seconds.

  --lines      a line for the sample, each unit and each scene, the fields in
               the record's order, as the program show prints them
  --json       every figure, as one JSON object
  --csv        every figure; a line's first field is sample, unit or scene, and
               the first line of each kind names its figures

Times are microseconds since 1970, the index is given with its 64 bits, scores
are millionths, and changes hundredths. Lost packets are counted modulo 16, so
there may have been more.

Exit status: 0 shown, 1 refused, 2 wrong words or a file's error.
";

fn run(words: Vec<OsString>) -> Result<(), Stop> {
    let words = Words::part(words, &[], &["--lines", "--json", "--csv"])?;
    let name = words.one("RECORD")?;
    let forms: Vec<_> = ["--lines", "--json", "--csv"].into_iter().filter(|form| words.has(form)).collect();
    if let [first, second, ..] = forms[..] {
        return Err(Stop::Usage(format!("{second}: {first} is given too")));
    }
    let mut input = Input::open(&name)?;
    let bytes = read(&mut input)?;
    let form = forms.first().copied();
    let record = Record::read(&bytes).map_err(|refusal| {
        let stop = refused(refusal, &bytes, &mut input);
        match form {
            // The program show prints the number alone.
            Some("--lines") => stop.printed(format!("refused {}\n", refusal.number)),
            _ => stop,
        }
    })?;
    output::print(&match form {
        Some("--lines") => tables::lines(&record),
        Some("--json") => tables::json(&record),
        Some(_) => tables::csv(&record),
        None => page::page(&record, &record.verify()?, input.name()),
    })
}

/// All bytes, but no more than it takes to see that they are too many for a record.
pub fn read(input: &mut Input) -> Result<Vec<u8>, Stop> {
    input.up_to(RECORD_MOST + 1)
}

/// What is said of an input whose first bytes are refused as a record: a shelf, and an empty file, are told from a
/// record that was altered.
pub fn refused(refusal: Refusal, bytes: &[u8], input: &mut Input) -> Stop {
    if bytes.is_empty() {
        return Stop::refused(refusal, vec![EMPTY.into()]).of(input.name());
    }
    let mut bytes = bytes.to_vec();
    let shelf = shelf::read_on(input, &mut bytes).ok().and_then(|()| Shelf::read(&bytes).ok());
    let found = shelf.map(|shelf| {
        let records = count(shelf.len() as u64, "record");
        format!("It is a shelf of {records}: carolsedge shelf list FILE, carolsedge shelf take FILE J")
    });
    let stopped = (bytes.len() > RECORD_MOST).then(|| {
        let most = grouped(RECORD_MOST as u64);
        let why = format!("It has more than {most} bytes, and no record has: it was not read to its end.");
        format!("{}\n{why}", explain::mends(refusal.number))
    });
    Stop::refused(refusal, found.or(stopped).into_iter().collect()).of(input.name())
}

/// Whether damaged packets are known: from edition 4 on.
pub fn knows_damage(header: &Header) -> bool {
    header.edition >= 4
}

/// What the index says.
pub const INDEX: &str = "5: nothing lost, nothing repeated; no opinion score (MOS)";
