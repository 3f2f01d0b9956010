//! carolsedge sheet: a record as pages for the reading room.
use crate::input::Input;
use crate::output;
use crate::show;
use crate::stop::Stop;
use crate::words::Words;
use crate::Subcommand;
use carolsedge::SHEET_MOST;
use std::ffi::OsString;

pub const SUBCOMMAND: Subcommand =
    Subcommand { name: "sheet", summary: "print a record as pages for the reading room", help: HELP, run };

const HELP: &str = "\
usage: carolsedge sheet RECORD

Prints a record, a file or - for standard input, as a sheet for a printer: pages
of 60 lines of 100 columns. The first line has W, H, the number of pictures and
the index's bits; a line with U is a unit (number, least and greatest time,
size, packets, lost, and in edition 4 damaged ones), one with S a scene (number,
first picture, pictures, repeated, longest run, sum of cut scores, greatest, sum
of changes).

  carolsedge sheet seat.record | lp

Exit status: 0 printed, 1 refused, 2 wrong words or a file's error.
";

fn run(words: Vec<OsString>) -> Result<(), Stop> {
    let mut input = Input::open(&Words::part(words, &[], &[])?.one("RECORD")?)?;
    let bytes = show::read(&mut input)?;
    let mut pages = vec![0; SHEET_MOST];
    let length = carolsedge::sheet(&bytes, &mut pages);
    pages.truncate(length.map_err(|refusal| show::refused(refusal, &bytes, &mut input))?);
    output::write(&pages)
}
