//! carolsedge verify: whether records could have been sealed, and the sum that reaches the index again.
use crate::input::Input;
use crate::output::{self, grouped};
use crate::stop::{self, Stop};
use crate::words::Words;
use crate::{page, shelf, Subcommand};
use carolsedge::{Index, Reached, Record, Refusal, Shelf, Verdict};
use std::ffi::{OsStr, OsString};

pub const SUBCOMMAND: Subcommand =
    Subcommand { name: "verify", summary: "reach the index of records again from their rows", help: HELP, run };

const HELP: &str = "\
usage: carolsedge verify FILE..

Reaches the index of a record again from its rows, and says whether the record
could have been sealed: whether it has all that every sealed record has
(docs/RULE.md, 30). A FILE is a record or a shelf, or - for standard input. It
prints a line for each record; those of a shelf are numbered from 0.

  seat.record: reached 3.25 = 1 + 4 x (75 / 100) x (3 / (3 + 1))
  2026.shelf[7]: not sealed: index 3.3 is in the header, the rows reach 3.25
  old.record: refused 18 0

The sum has the pictures that are not repeated, all pictures, the packets that
came and the lost ones. A record that is not sealed was changed, or was never
made by a seal. A record is not signed: one that could have been sealed may
still have been written by somebody who knows the rule.

Exit status: 0 every record could have been sealed, 1 one could not or is
refused, 2 wrong words or a file's error; of many files, the greatest.
";

const WHO: &str = "carolsedge verify";

/// What is said, after the mark that is missing, of a record that could not have been sealed.
pub const FORGED: &str = "No seal leaves such a record (docs/RULE.md, 30): look for another copy.";

fn run(words: Vec<OsString>) -> Result<(), Stop> {
    let words = Words::part(words, &[], &[])?;
    if words.all().is_empty() {
        return Err(Stop::Usage("FILE is missing".into()));
    }
    if words.all().iter().filter(|word| *word == "-").count() > 1 {
        return Err(Stop::Usage("-: standard input is one FILE".into()));
    }
    let mut worst = 0;
    for word in words.all() {
        worst = worst.max(match verified(word) {
            Ok(Verified { lines, sealed }) => {
                output::print(&lines)?;
                u8::from(!sealed)
            }
            Err(stop) => stop::said(WHO, stop),
        });
    }
    match worst {
        0 => Ok(()),
        status => Err(Stop::Said(status)),
    }
}

/// A line for each record of a file, and whether all of them could have been sealed.
struct Verified {
    lines: String,
    sealed: bool,
}

fn verified(word: &OsStr) -> Result<Verified, Stop> {
    let mut input = Input::open(word)?;
    let bytes = shelf::read_allowed(&mut input)?;
    let name = input.name();
    let kind = page::kind(&bytes).map_err(|stop| stop.listed(name))?;
    let lines = match kind {
        page::Kind::Record(record) => vec![(name.to_string(), record.verify()?)],
        page::Kind::Shelf(shelf) => each(&shelf, name)?,
    };
    if lines.is_empty() {
        return Ok(Verified { lines: format!("{name}: a shelf without records\n"), sealed: true });
    }
    let sealed = lines.iter().all(|(_, verdict)| matches!(verdict, Verdict::CouldBeSealed(_)));
    let lines = lines.iter().map(|(name, verdict)| format!("{name}: {}\n", said(verdict))).collect();
    Ok(Verified { lines, sealed })
}

/// The verdict about each record of a shelf, with the record's name.
fn each(shelf: &Shelf, name: &str) -> Result<Vec<(String, Verdict)>, Refusal> {
    let named = |(j, record)| Ok((format!("{name}[{j}]"), carolsedge::verify(record)?));
    shelf.records().enumerate().map(named).collect()
}

/// How many records that could not have been sealed are named one by one.
const NAMED: usize = 10;

/// What is said of the records of a shelf that could not have been sealed: a line each of the first ones, and how many
/// more there are.
pub fn not_sealed(shelf: &Shelf, name: &str) -> Result<Vec<String>, Refusal> {
    let all = each(shelf, name)?;
    let not = all.iter().filter(|(_, verdict)| matches!(verdict, Verdict::CouldNotBeSealed(_)));
    let mut lines: Vec<_> = not.map(|(name, verdict)| format!("{name}: {}", said(verdict))).collect();
    if lines.len() > NAMED {
        let more = grouped((lines.len() - NAMED) as u64);
        lines.truncate(NAMED);
        lines.push(format!("{name}: {more} more; carolsedge verify names all"));
    }
    Ok(lines)
}

/// What the rows of a record reach. Of one that could not have been sealed it is worked out here, as section 11 of the
/// rule says; none where more pictures are repeated than there are.
pub fn reached(record: &Record, verdict: &Verdict) -> Option<Reached> {
    if let Verdict::CouldBeSealed(reached) = verdict {
        return Some(*reached);
    }
    let pictures = u64::from(record.header().pictures);
    let unrepeated = pictures.checked_sub(record.scenes().map(|scene| u64::from(scene.repeated)).sum())?;
    let packets: u64 = record.units().map(|unit| u64::from(unit.packets)).sum();
    let lost: u64 = record.units().map(|unit| u64::from(unit.lost)).sum();
    let (ic, ip) = (4.0 * (unrepeated as f64 / pictures as f64), packets as f64 / (packets + lost) as f64);
    let index = Index { ic, ip, value: 1.0 + (ic * ip) };
    Some(Reached { unrepeated, pictures, packets, lost, index })
}

/// A verdict in words.
pub fn said(verdict: &Verdict) -> String {
    match verdict {
        Verdict::CouldBeSealed(reached) => format!("reached {reached}"),
        Verdict::CouldNotBeSealed(missing) => format!("not sealed: {missing}"),
    }
}
