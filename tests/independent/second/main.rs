//! `measure-again`: an independent reading of documents 01 and 02, used to compare programs with.
#![forbid(unsafe_code)]

mod batch;
mod busiest;
mod capture;
mod cells;
mod film;
mod forge;
mod gaps;
mod lean;
mod lent;
mod loss;
mod luma;
mod make;
mod opening;
mod plain;
mod prng;
mod record;
mod records;
mod recut;
mod relume;
mod replay;
mod rtp;
mod sample;
mod script;
mod sheet;
mod shelf;
mod survey;
mod units;
mod verify;

use opening::{Opening, Refusal};
use sample::Sample;
use std::fs::{self, File};
use std::io::{self, BufReader, BufWriter, Read, Write};
use std::num::NonZeroU64;
use std::process::ExitCode;
use std::str::FromStr;
use survey::{Found, Survey};

const USAGE: &str = "\
measure-again replay < SCRIPT
measure-again show < RECORD
measure-again show-each STEP < RECORDS
measure-again sheet < RECORD
measure-again verify < RECORD
measure-again verify-each < RECORDS
measure-again measure W H D PID CAPTURE LUMA RECORD [EDITION]
measure-again survey < CAPTURE
measure-again survey-replay < SCRIPT
measure-again loss < LOSSES
measure-again busiest W H D N > LUMA
measure-again most D N
measure-again gaps N
measure-again gaps-into N ROOM
measure-again rtp < PACKETS
measure-again rtp-into ROOM < PACKETS
measure-again shelf check SHELF
measure-again shelf take SHELF J > RECORD
measure-again make SEED KIND > SCRIPT
measure-again make-survey SEED [limit] > SCRIPT
measure-again make-loss SEED > LOSSES
measure-again make-busiest SEED > ARGUMENTS
measure-again make-gaps SEED > ARGUMENTS
measure-again make-gaps-into SEED > ARGUMENTS
measure-again make-rtp SEED > PACKETS
measure-again make-shelf SEED > SHELF
measure-again kinds
measure-again recut SEED < SCRIPT > SCRIPT
measure-again lean FIRST COUNT SEALED PROGRAM [ARGUMENT]...
measure-again lean-record CAPTURE RECORD
measure-again lean-pair RECORD RECORD
measure-again records SEED > RECORD
measure-again records FIRST COUNT > RECORDS
measure-again change far|near SEED NAMES < RECORDS > RECORDS
measure-again forge SEED < RECORDS > RECORDS
measure-again captures SEED > CAPTURE
";

fn main() -> ExitCode {
    let arguments: Vec<String> =
        std::env::args_os().skip(1).map(|argument| argument.to_string_lossy().into_owned()).collect();
    let arguments: Vec<&str> = arguments.iter().map(String::as_str).collect();
    let mut out = BufWriter::with_capacity(1 << 20, io::stdout());
    match run(&arguments, &mut out).and_then(|()| out.flush()) {
        Ok(()) => ExitCode::SUCCESS,
        Err(error) if error.kind() == io::ErrorKind::InvalidInput => {
            eprint!("{USAGE}");
            ExitCode::from(2)
        }
        // Whoever reads may stop reading early.
        Err(error) if error.kind() == io::ErrorKind::BrokenPipe => ExitCode::SUCCESS,
        Err(error) => {
            eprintln!("measure-again: {error}");
            ExitCode::FAILURE
        }
    }
}

/// What arguments that aren't any subcommand's end with.
fn usage() -> io::Error {
    io::Error::from(io::ErrorKind::InvalidInput)
}

fn number<T: FromStr>(word: &str) -> io::Result<T> {
    word.parse().map_err(|_| usage())
}

/// The bytes of a buffer to be lent, or the entries of a table; 1,048,576 are the most.
fn room(word: &str) -> io::Result<usize> {
    number(word).and_then(|room| if room <= script::LONGEST_PIECE { Ok(room) } else { Err(usage()) })
}

fn opening_of(values: [&str; 5]) -> io::Result<Opening> {
    Ok(Opening {
        width: number(values[0])?,
        height: number(values[1])?,
        display_time: number(values[2])?,
        pid: number(values[3])?,
        edition: number(values[4])?,
    })
}

/// Runs one subcommand.
fn run(arguments: &[&str], out: &mut impl Write) -> io::Result<()> {
    match *arguments {
        ["replay"] => replay::replay(script(), out),
        ["show"] => out.write_all(record::show(&standard_input(record::LONGEST)?).as_bytes()),
        ["show-each", step] => show_each(script(), number(step)?, out),
        ["sheet"] => out.write_all(&sheet::print(&standard_input(record::LONGEST)?)),
        ["verify"] => out.write_all(verify::line(&standard_input(record::LONGEST)?).as_bytes()),
        ["verify-each"] => verify::print_each(script(), out),
        ["measure", width, height, display_time, pid, capture, luma, record, ref more @ ..] if more.len() < 2 => {
            let edition = more.first().copied().unwrap_or("1");
            measure(opening_of([width, height, display_time, pid, edition])?, capture, luma, record)
        }
        ["survey"] => print_survey(io::stdin(), out),
        ["survey-replay"] => replay::replay_survey(script(), out),
        ["shelf", "check", file] => out.write_all(shelf::check(&fs::read(file)?).as_bytes()),
        ["shelf", "take", file, record] => out.write_all(&shelf::take(&fs::read(file)?, number(record)?)),
        ["recut", seed] => recut::recut(number(seed)?, script(), out),
        ["lean", first, count, sealed, ref program @ ..] if !program.is_empty() => {
            let mut sealed = BufWriter::new(File::create(sealed)?);
            lean::try_facts(number(first)?, number(count)?, program, &mut sealed, out)?;
            sealed.flush()
        }
        ["lean-record", capture, record] => print_lean(lean::facts(&fs::read(capture)?, &fs::read(record)?), out),
        ["lean-pair", one, other] => print_lean(lean::pair(&fs::read(one)?, &fs::read(other)?), out),
        _ => run_alone(arguments, out),
    }
}

/// Runs one of the subcommands that need neither a sample nor a record.
fn run_alone(arguments: &[&str], out: &mut impl Write) -> io::Result<()> {
    match *arguments {
        ["loss"] => out.write_all(loss::print(&standard_input(loss::LONGEST_INPUT)?).as_bytes()),
        ["busiest", ref values @ ..] => busiest::write(values, out),
        ["most", display_time, pictures] => print_number(busiest::most(number(display_time)?, number(pictures)?), out),
        ["gaps", gaps] => gaps::print(number(gaps)?, out),
        ["gaps-into", gaps, entries] => gaps::print_call(number(gaps)?, room(entries)?, out),
        ["rtp"] => out.write_all(rtp::print(&standard_input(rtp::LONGEST_INPUT)?).as_bytes()),
        ["rtp-into", bytes] => {
            let packets = standard_input(rtp::LONGEST_INPUT)?;
            lent::print_call(out, "rtp", room(bytes)?, |buffer| rtp::write_input(&packets, buffer))
        }
        _ => run_maker(arguments, out),
    }
}

/// Runs one of the subcommands that make inputs.
fn run_maker(arguments: &[&str], out: &mut impl Write) -> io::Result<()> {
    match *arguments {
        ["kinds"] => print_kinds(out),
        ["make", seed, kind] => {
            if make::make(number(seed)?, kind, out)? { Ok(()) } else { Err(usage()) }
        }
        ["make-survey", seed] => make::make_survey(number(seed)?, out),
        ["make-survey", seed, make::LIMIT] => make::make_survey_limit(number(seed)?, out),
        ["make-loss", seed] => out.write_all(&make::loss_input(number(seed)?)),
        ["make-busiest", seed] => out.write_all(make::busiest_arguments(number(seed)?).as_bytes()),
        ["make-gaps", seed] => writeln!(out, "{}", number::<u64>(seed)? % 18),
        ["make-gaps-into", seed] => {
            let (gaps, more) = (number::<u64>(seed)? % 18, number::<u64>(seed)? / 18 % 5);
            writeln!(out, "{gaps}\n{}", (14 * gaps + more).saturating_sub(1))
        }
        ["make-rtp", seed] => out.write_all(&make::rtp_input(number(seed)?)),
        ["make-shelf", seed] => out.write_all(&make::shelf(number(seed)?)),
        ["records", seed] => out.write_all(&records::random_record(number(seed)?)),
        ["records", first, count] => {
            let seeds = number(first)?..number::<u64>(first)?.saturating_add(number(count)?);
            seeds.into_iter().try_for_each(|seed| batch::put(out, &records::random_record(seed)))
        }
        ["change", way, seed, names] => {
            let way = forge::Way::named(way).ok_or_else(usage)?;
            let mut names = BufWriter::new(File::create(names)?);
            forge::change_each(way, number(seed)?, script(), &mut names, out)?;
            names.flush()
        }
        ["forge", seed] => forge::forge_each(number(seed)?, script(), out),
        ["captures", seed] => out.write_all(&make::capture_file(number(seed)?)),
        _ => Err(usage()),
    }
}

fn script() -> impl Read {
    BufReader::with_capacity(1 << 20, io::stdin())
}

/// Standard input, but no more of it than it takes to see that it is longer than allowed.
fn standard_input(longest: usize) -> io::Result<Vec<u8>> {
    let mut bytes = Vec::new();
    io::stdin().take(longest as u64 + 1).read_to_end(&mut bytes)?;
    Ok(bytes)
}

/// Shows every STEPth record of a batch.
fn show_each(mut records: impl Read, step: NonZeroU64, out: &mut impl Write) -> io::Result<()> {
    let mut number = 0;
    while let Some(record) = batch::next(&mut records)? {
        number += 1;
        if number % step == 0 {
            out.write_all(record::show(&record).as_bytes())?;
        }
    }
    Ok(())
}

fn print_kinds(out: &mut impl Write) -> io::Result<()> {
    for (name, about) in make::KINDS {
        writeln!(out, "{name}: {about}")?;
    }
    writeln!(out, "{}: captures of 256 MiB, to be run once for each of seeds 0 to 3", make::LIMIT)
}

/// Reads both files, seals, and writes the record unless it is refused.
fn measure(opening: Opening, capture: &str, luma: &str, record: &str) -> io::Result<()> {
    let mut sample = Sample::open(opening);
    feed_all(File::open(capture)?, |piece| sample.feed_capture(piece))?;
    feed_all(File::open(luma)?, |piece| sample.feed_luma(piece))?;
    let mut buffer = vec![0; record::LONGEST];
    match sample.seal(&mut buffer) {
        Ok(length) => {
            fs::write(record, &buffer[..length])?;
            println!("sealed {length}");
        }
        Err(Refusal { number, place }) => println!("refused {number} {place}"),
    }
    Ok(())
}

fn print_number(answer: Result<u32, Refusal>, out: &mut impl Write) -> io::Result<()> {
    match answer {
        Ok(number) => writeln!(out, "{number}"),
        Err(Refusal { number, place }) => writeln!(out, "refused {number} {place}"),
    }
}

/// Whether the facts of request R-14 hold, or which doesn't.
fn print_lean(held: Result<(), String>, out: &mut impl Write) -> io::Result<()> {
    held.map_err(io::Error::other)?;
    writeln!(out, "lean: holds")
}

fn print_survey(capture: impl Read, out: &mut impl Write) -> io::Result<()> {
    let mut survey = Survey::new();
    feed_all(capture, |piece| survey.feed(piece))?;
    match survey.answer() {
        Ok(Found { pid, count }) => writeln!(out, "survey {pid} {count}"),
        Err(Refusal { number, place }) => writeln!(out, "refused {number} {place}"),
    }
}

/// Feeds a file in long pieces, until its end or a refusal: what comes later on that side is ignored.
fn feed_all(mut file: impl Read, mut feed: impl FnMut(&[u8]) -> Result<usize, Refusal>) -> io::Result<()> {
    let mut piece = vec![0; 1 << 20];
    loop {
        let length = file.read(&mut piece)?;
        if length == 0 || feed(&piece[..length]).is_err() {
            return Ok(());
        }
    }
}
