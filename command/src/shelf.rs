//! carolsedge shelf: many records in one file.
use crate::explain::EMPTY;
use crate::input::{little_endian, Identity, Input};
use crate::output::{self, count, grouped};
use crate::outside::shown;
use crate::show::{self, date::date};
use crate::stop::Stop;
use crate::words::{number_or_most, Words};
use crate::write::{Lock, Over, Target};
use crate::{explain, Subcommand};
use carolsedge::{
    shelf_part, shelf_write, Header, Record, Refusal, Shelf, RECORD_MOST, SHELF_MOST, SHELF_RECORDS_MOST,
};
use std::ffi::{OsStr, OsString};
use std::path::Path;

pub const SUBCOMMAND: Subcommand =
    Subcommand { name: "shelf", summary: "keep many records in one file, and take them out again", help: HELP, run };

const HELP: &str = "\
usage: carolsedge shelf check FILE
       carolsedge shelf make OUT RECORD..
       carolsedge shelf add FILE RECORD..
       carolsedge shelf take FILE J
       carolsedge shelf list FILE

A shelf is one file of at most 4,096 records, of any editions of the rules. Each
of these tests the whole shelf and every record of it. FILE, or a RECORD, may be
- for standard input.

  check    prints how many records it holds and how many packets they lost:
           records N lost TOTAL
  make     makes the shelf OUT of the records, in this order; prints the same,
           and says so where OUT held records, which are then gone
  add      puts the records after those that the shelf FILE holds; prints the
           same. The new shelf takes FILE's place once it is whole and checked.
           Runs that add to one shelf wait for each other
  take     writes record J, from 0, to standard output
  list     prints a line for each record: its figures, PID and time (UTC)

  carolsedge shelf take 2026.shelf 7 | carolsedge show -

Exit status: 0 done, 1 refused, 2 wrong words or a file's error.
";

fn run(words: Vec<OsString>) -> Result<(), Stop> {
    let words = Words::part(words, &[], &[])?;
    let Some(what) = words.all().first() else {
        return Err(Stop::Usage("check, make, add, take or list is missing".into()));
    };
    match what.to_str() {
        Some("check") => check(&words.plain(&["", "FILE"], 0)?),
        Some("make") => make(words.all()),
        Some("add") => add(words.all()),
        Some("take") => take(&words.plain(&["", "FILE", "J"], 0)?),
        Some("list") => list(&words.plain(&["", "FILE"], 0)?),
        _ => Err(Stop::Usage(format!("{}: not check, make, add, take or list", shown(what)))),
    }
}

/// The word with this number, which `Words::plain` has seen to be there.
fn word(words: &[Option<OsString>], number: usize) -> &OsStr {
    words.get(number).and_then(Option::as_deref).unwrap_or_default()
}

fn check(words: &[Option<OsString>]) -> Result<(), Stop> {
    let file = Read::named(word(words, 1))?;
    output::print(&totals(&file.shelf()?))
}

fn take(words: &[Option<OsString>]) -> Result<(), Stop> {
    let number = word(words, 2);
    let Some(j) = number.to_str().and_then(number_or_most) else {
        return Err(Stop::Usage(format!("{}: not the number of a record", shown(number))));
    };
    let file = Read::named(word(words, 1))?;
    let part = shelf_part(&file.bytes, j as usize).map_err(|refusal| file.refused(refusal))?;
    output::write(file.bytes.get(part).unwrap_or_default())
}

fn list(words: &[Option<OsString>]) -> Result<(), Stop> {
    let file = Read::named(word(words, 1))?;
    let mut text = String::from("  No.    offset  length  edition  width  height  pictures  units  scenes");
    text += "          lost  index                pid  first packet (UTC)\n";
    for (j, line) in lines(&file.bytes, &file.shelf()?)?.iter().enumerate() {
        let Line { at, length, header: h, lost, first } = line;
        let index = format!("{:?}", h.index);
        text += &format!("{j:5} {at:9} {length:7} {:8} {:6} {:7}", h.edition, h.width, h.height);
        text += &format!(" {:9} {:6} {:7} {lost:13}  {index:18}", h.pictures, h.units, h.scenes);
        text += &format!(" {:5}  {}\n", h.pid, date(*first));
    }
    output::print(&text)
}

/// The name of a run, for what it says while it goes on.
const WHO: &str = "carolsedge shelf";

/// What is told of one record: where it starts, its length, its header, what its units lost, and their least time.
pub struct Line {
    pub at: usize,
    pub length: usize,
    pub header: Header,
    pub lost: u64,
    pub first: u64,
}

/// A line for each record.
pub fn lines(bytes: &[u8], shelf: &Shelf) -> Result<Vec<Line>, Stop> {
    let mut at = bytes.len() - shelf.records().map(<[u8]>::len).sum::<usize>();
    let mut lines = Vec::new();
    for bytes in shelf.records() {
        let record = Record::read(bytes)?;
        let units: Vec<_> = record.units().collect();
        let lost = units.iter().map(|unit| u64::from(unit.lost)).sum();
        let first = units.iter().map(|unit| unit.least).min().unwrap_or_default();
        lines.push(Line { at, length: bytes.len(), header: record.header(), lost, first });
        at += bytes.len();
    }
    Ok(lines)
}

fn make(words: &[OsString]) -> Result<(), Stop> {
    let (out, words) = named(words, "OUT")?;
    let name = shown(out);
    let target = Target::new(out, Vec::new())?;
    too_many(0, words.len()).map_err(|stop| stop.of(&name))?;
    let given = Given::read(words)?;
    // A shelf that is replaced is locked, so that those who add to it wait; another file is replaced as it is.
    let old = if target.replaces() { Locked::shelf(out).ok() } else { None };
    let over = match (&old, target.replaces()) {
        (Some(old), _) => Over::Only(old.lock.identity()),
        (None, true) => Over::File,
        (None, false) => Over::Nothing,
    };
    let held = old.as_ref().map_or(0, |old| old.records);
    let target = target.over(over, given.inputs.clone())?;
    let totals = put(target, Records::default(), given).map_err(|stop| stop.of(&name))?;
    if held > 0 {
        let records = count(held as u64, "record");
        output::say(&format!("{WHO}: {name} held {records}, and is replaced\n"));
    }
    output::print(&totals)
}

fn add(words: &[OsString]) -> Result<(), Stop> {
    let (out, words) = named(words, "FILE")?;
    let name = shown(out);
    let target = Target::new(out, Vec::new())?;
    if !target.replaces() {
        let make = format!("carolsedge shelf make {name} RECORD.. makes a new shelf");
        return Err(Stop::Failed(format!("{name}: No such file or directory\n{make}")));
    }
    too_many(0, words.len()).map_err(|stop| stop.of(&name))?;
    // It is locked before the records come, so that no other file than this one is added to.
    let lock = Lock::wait(Path::new(out), WHO)?;
    let given = Given::read(words)?;
    let old = Locked::read(lock)?;
    too_many(old.records, given.inputs.len()).map_err(|stop| stop.of(&name))?;
    let target = target.over(Over::Only(old.lock.identity()), given.inputs.clone())?;
    let Locked { lock: _lock, read, .. } = old;
    output::print(&put(target, Records::of(read)?, given).map_err(|stop| stop.of(&name))?)
}

/// Refusal 27 for more records than a shelf may hold, in words that say so: nothing is wrong with any of them.
fn too_many(old: usize, new: usize) -> Result<(), Stop> {
    let most = grouped(SHELF_RECORDS_MOST as u64);
    if old + new <= SHELF_RECORDS_MOST {
        return Ok(());
    }
    let (all, more) = (grouped((old + new) as u64), count(new as u64, "record"));
    let (words, mends) = match (old, SHELF_RECORDS_MOST - old) {
        (0, _) => (format!("{all} records are too many"), "Make several shelves of them"),
        (_, 0) => (format!("it is full: it holds {most} records"), "Make another shelf"),
        _ => (format!("with {more} more it would hold {all}"), "Add fewer, and make another shelf of the others"),
    };
    let words = format!("{words}; a shelf holds at most {most}");
    let found = vec![format!("{mends}: carolsedge shelf make OUT RECORD..")];
    Err(Stop::refused(Refusal { number: 27, place: 0 }, found).in_words(words))
}

/// The shelf that is to be written, and the words for records after it.
fn named<'a>(words: &'a [OsString], name: &str) -> Result<(&'a OsStr, &'a [OsString]), Stop> {
    let [_, out, records @ ..] = words else {
        return Err(Stop::Usage(format!("{name} is missing")));
    };
    if out == "-" || out.is_empty() {
        return Err(Stop::Usage(format!("{name} {}: not the name of a file", shown(out))));
    }
    Ok((out, records))
}

/// A shelf that no other run replaces until this is dropped.
struct Locked {
    lock: Lock,
    read: Read,
    records: usize,
}

impl Locked {
    fn shelf(word: &OsStr) -> Result<Locked, Stop> {
        Locked::read(Lock::wait(Path::new(word), WHO)?)
    }

    fn read(lock: Lock) -> Result<Locked, Stop> {
        let read = Read::all(&mut lock.input()?)?;
        let records = read.shelf()?.len();
        Ok(Locked { lock, read, records })
    }
}

/// Records end to end, and the length of each, as they are written to a shelf.
#[derive(Default)]
struct Records {
    bytes: Vec<u8>,
    lengths: Vec<u32>,
}

impl Records {
    /// Those of a shelf, which takes no more memory.
    fn of(read: Read) -> Result<Records, Stop> {
        let lengths: Vec<_> = read.shelf()?.records().map(|record| record.len() as u32).collect();
        let mut bytes = read.bytes;
        let records: usize = lengths.iter().map(|length| *length as usize).sum();
        bytes.drain(..bytes.len() - records);
        Ok(Records { bytes, lengths })
    }

    fn put(&mut self, other: Records) {
        self.bytes.extend(other.bytes);
        self.lengths.extend(other.lengths);
    }

    fn record(&self, j: usize) -> Option<&[u8]> {
        let start: usize = self.lengths.iter().take(j).map(|length| *length as usize).sum();
        self.bytes.get(start..)?.get(..*self.lengths.get(j)? as usize)
    }
}

/// Records that are read from files, with what each file is.
struct Given {
    records: Records,
    inputs: Vec<(Identity, String)>,
}

impl Given {
    fn read(words: &[OsString]) -> Result<Given, Stop> {
        if words.iter().filter(|word| *word == "-").count() > 1 {
            return Err(Stop::Usage("-: standard input is one RECORD".into()));
        }
        let mut given = Given { records: Records::default(), inputs: Vec::new() };
        for word in words {
            let mut input = Input::open(word)?;
            let bytes = show::read(&mut input)?;
            given.records.lengths.push(bytes.len() as u32);
            given.records.bytes.extend(bytes);
            given.inputs.push((input.identity(), input.name().to_string()));
        }
        Ok(given)
    }
}

/// Puts a shelf of the old records and of the given ones after them in its place, and gives its totals.
fn put(target: Target, mut records: Records, given: Given) -> Result<String, Stop> {
    let first = records.lengths.len();
    records.put(given.records);
    let mut bytes = vec![0; 8 + 4 * records.lengths.len() + records.bytes.len()];
    let length = shelf_write(&records.bytes, &records.lengths, &mut bytes);
    length.map_err(|refusal| not_made(refusal, first, &given.inputs, &records))?;
    drop(records);
    let totals = totals(&Shelf::read(&bytes)?);
    target.write(&bytes)?;
    Ok(totals)
}

/// A refusal of making, with the file of the record that is refused and why it is. The inputs are the records from
/// `first` on.
fn not_made(refusal: Refusal, first: usize, inputs: &[(Identity, String)], records: &Records) -> Stop {
    let j = refusal.place as usize;
    let input = j.checked_sub(first).and_then(|given| inputs.get(given));
    let found = match (input, records.record(j)) {
        (Some((_, name)), Some(record)) => {
            Record::read(record).err().map(|why| format!("record {j} is {name}: {why}"))
        }
        _ => None,
    };
    Stop::refused(refusal, found.filter(|_| refusal.number == 28).into_iter().collect())
}

fn totals(shelf: &Shelf) -> String {
    format!("records {} lost {}\n", shelf.len(), shelf.lost())
}

/// The bytes of a file that should be a shelf, and its name.
struct Read {
    bytes: Vec<u8>,
    name: String,
}

impl Read {
    fn named(word: &OsStr) -> Result<Read, Stop> {
        Read::all(&mut Input::open(word)?)
    }

    fn all(input: &mut Input) -> Result<Read, Stop> {
        Ok(Read { bytes: read(input)?, name: input.name().to_string() })
    }

    fn shelf(&self) -> Result<Shelf<'_>, Stop> {
        Shelf::read(&self.bytes).map_err(|refusal| self.refused(refusal))
    }

    /// What is said of a refused shelf: a record, and an empty file, are told from a shelf that was altered.
    fn refused(&self, refusal: Refusal) -> Stop {
        let found = match Record::read(&self.bytes) {
            Ok(_) => vec!["It is a record, no shelf: carolsedge show FILE".into()],
            Err(_) if self.bytes.is_empty() => vec![EMPTY.into()],
            Err(_) => {
                let why = stopped(&self.bytes).map(|why| vec![explain::mends(refusal.number).into(), why]);
                why.unwrap_or_default()
            }
        };
        Stop::refused(refusal, found).of(&self.name)
    }
}

/// All bytes, but no more than it takes to see that they are too many. A shelf has as many as its word at 4 says, and
/// no record has more than `RECORD_MOST`. With one more than both, each reader gives the refusal that all of them get.
/// A head that says more records than a shelf may have is refused whatever comes after it.
pub fn read(input: &mut Input) -> Result<Vec<u8>, Stop> {
    let mut bytes = input.up_to(8)?;
    let rest = (longest(&bytes) + 1).saturating_sub(bytes.len() as u64);
    input.append(&mut bytes, rest)?;
    Ok(bytes)
}

/// All bytes of a record or of a shelf, where it does not matter by which number others are refused: a head that says
/// more bytes than a shelf has is enough.
pub fn read_allowed(input: &mut Input) -> Result<Vec<u8>, Stop> {
    let mut bytes = input.up_to(8)?;
    read_on(input, &mut bytes)?;
    Ok(bytes)
}

/// The same behind the first bytes, 8 at least, or all that there are.
pub fn read_on(input: &mut Input, bytes: &mut Vec<u8>) -> Result<(), Stop> {
    let most = if is_too_long(bytes) { RECORD_MOST as u64 } else { longest(bytes) } + 1;
    input.append(bytes, most.saturating_sub(bytes.len() as u64))
}

/// The number of records and of bytes that the head of a shelf says; 0 of what is shorter than a head.
fn said(bytes: &[u8]) -> (u64, u64) {
    let (records, length) = bytes.get(..8).unwrap_or(&[0; 8]).split_at(4);
    (little_endian(records), little_endian(length))
}

/// How long a record or a shelf that begins so can be.
fn longest(bytes: &[u8]) -> u64 {
    match said(bytes) {
        (records, length) if records <= SHELF_RECORDS_MOST as u64 => length.max(RECORD_MOST as u64),
        _ => RECORD_MOST as u64,
    }
}

/// Whether a head says more bytes than any shelf has.
fn is_too_long(bytes: &[u8]) -> bool {
    said(bytes).1 > SHELF_MOST as u64
}

/// What is said of bytes that are no shelf, where there are more of them than were read.
pub fn stopped(bytes: &[u8]) -> Option<String> {
    let (records, length) = said(bytes);
    let (records_most, most) = (grouped(SHELF_RECORDS_MOST as u64), grouped(SHELF_MOST as u64));
    let (all, length) = (grouped(records), grouped(length));
    let why = match records > SHELF_RECORDS_MOST as u64 {
        true => format!("as a shelf it would have {all} records, and none has more than {records_most}"),
        false if is_too_long(bytes) => {
            format!("as a shelf it would have {length} bytes, and none has more than {most}")
        }
        false => format!("as a shelf it would have {length} bytes, and there are more"),
    };
    let first = grouped(bytes.len() as u64);
    let over = bytes.len() as u64 > longest(bytes) || is_too_long(bytes) && bytes.len() == RECORD_MOST + 1;
    over.then(|| format!("No more than its first {first} bytes were read: {why}."))
}
