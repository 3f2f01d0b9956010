//! What a thirty-year reader may lean on (request R-14): its three facts, tried on sealed records of any program.

use crate::batch;
use crate::cells;
use crate::make;
use crate::opening::Opening;
use crate::plain;
use crate::record::{View, HEADER, ROW};
use crate::relume::relume;
use crate::script::{read_call, read_opening, Call};
use std::io::{self, Write};
use std::process::{Command, Stdio};
use std::thread;

/// Facts 1 and 2 of a record that was sealed over this capture.
pub fn facts(capture: &[u8], record: &[u8]) -> Result<(), String> {
    let view = View::open(record).map_err(|refusal| format!("the record is refused with {}", refusal.number))?;
    let figures = view.figures();
    let units: Vec<_> = (0..view.units).filter_map(|number| view.unit(number).ok()).collect();
    let records = plain::records(capture);
    let carried: Vec<_> = records.iter().filter_map(plain::PlainRecord::cells).collect();
    let carrying = carried.len() as u64;
    if u64::from(figures.records) != carrying + u64::from(figures.passed_over) {
        return Err(format!("fact 1: {} records aren't {carrying} and those passed over", figures.records));
    }
    let cells: Vec<&[u8]> = carried.into_iter().flatten().collect();
    let foreign = |cell: &&&[u8]| cell[0] == 0x47 && cells::identifier(&cell[..4]) != figures.opening.pid;
    let foreign = cells.iter().filter(foreign).count() as u64;
    let counted: u64 = units.iter().map(|unit| u64::from(unit.cells) + u64::from(unit.damaged)).sum();
    if cells.len() as u64 != u64::from(figures.bad_cells) + foreign + counted {
        let sum = format!("{} bad, {foreign} foreign, {counted} in units", figures.bad_cells);
        return Err(format!("fact 1: {} cells aren't {sum}", cells.len()));
    }
    let index = f64::from_bits(figures.index_bits);
    if !(1.0..=5.0).contains(&index) {
        return Err(format!("fact 2: index {index}"));
    }
    Ok(())
}

/// Fact 3 of two records that were sealed over equal captures, after like openings.
pub fn pair(one: &[u8], other: &[u8]) -> Result<(), String> {
    if unit_rows(one) == unit_rows(other) { Ok(()) } else { Err("fact 3: unit rows differ".to_string()) }
}

/// The bytes of a record's unit rows.
fn unit_rows(record: &[u8]) -> Option<&[u8]> {
    let units = View::open(record).ok()?.units;
    record.get(HEADER..HEADER + ROW * units)
}

/// What a program sealed in a run of a script.
struct Run {
    opening: Opening,
    /// All capture bytes of the script.
    capture: Vec<u8>,
    /// Each successful seal: how many capture bytes were fed before it, and its record.
    sealed: Vec<(usize, Vec<u8>)>,
}

impl Run {
    /// Reads a script beside the lines that a program printed about it.
    fn new(mut script: &[u8], output: &str) -> Option<Self> {
        let mut lines = output.lines().skip(1);
        let mut run = Run { opening: read_opening(&mut script)?, capture: Vec::new(), sealed: Vec::new() };
        while let Some(call) = read_call(&mut script) {
            let line = lines.next()?;
            match call {
                Call::Capture(piece) => run.capture.extend(piece),
                Call::Seal(_) if !line.starts_with("seal refused") => {
                    let mut words = line.split(' ').skip(1);
                    let length: usize = words.next()?.parse().ok()?;
                    let record = bytes_of(words.next()?.get(..2 * length)?)?;
                    run.sealed.push((run.capture.len(), record));
                }
                _ => {}
            }
        }
        Some(run)
    }

    fn facts(&self) -> Result<(), String> {
        self.sealed.iter().try_for_each(|(fed, record)| facts(&self.capture[..*fed], record))
    }

    /// Puts the sealed records into a batch, each once where it was sealed again.
    fn keep(&self, sealed: &mut impl Write) -> io::Result<()> {
        let mut before: &[u8] = &[];
        for (_, record) in &self.sealed {
            if record != before {
                batch::put(sealed, record)?;
            }
            before = record;
        }
        Ok(())
    }

    /// Fact 3 for every two seals over equal capture bytes, one of each run; how many there are.
    fn pairs(&self, other: &Run) -> Result<usize, String> {
        let common = self.capture.iter().zip(&other.capture).take_while(|(a, b)| a == b).count();
        let mut pairs = 0;
        for (fed, record) in self.sealed.iter().filter(|(fed, _)| *fed <= common && self.opening == other.opening) {
            for (_, second) in other.sealed.iter().filter(|(length, _)| length == fed) {
                pair(record, second)?;
                pairs += 1;
            }
        }
        Ok(pairs)
    }
}

fn bytes_of(hexadecimal: &str) -> Option<Vec<u8>> {
    let digits = hexadecimal.as_bytes().as_chunks::<2>().0;
    digits.iter().map(|pair| u8::from_str_radix(std::str::from_utf8(pair).ok()?, 16).ok()).collect()
}

/// Runs a replaying program on a script.
fn replayed(program: &[&str], script: &[u8]) -> io::Result<Run> {
    let mut child =
        Command::new(program[0]).args(&program[1..]).stdin(Stdio::piped()).stdout(Stdio::piped()).spawn()?;
    let mut pipe = child.stdin.take().expect("a pipe");
    let output = thread::scope(|scope| {
        scope.spawn(move || pipe.write_all(script));
        child.wait_with_output()
    })?;
    let lines = String::from_utf8_lossy(&output.stdout).into_owned();
    Run::new(script, &lines).ok_or_else(|| io::Error::other("the program's lines aren't those of the script"))
}

/// Tries the facts on scripts of every kind, each with its own luma and with other luma, run by this program, and keeps
/// the sealed records.
pub fn try_facts(
    first: u64,
    count: u64,
    program: &[&str],
    sealed: &mut impl Write,
    out: &mut impl Write,
) -> io::Result<()> {
    let (mut scripts, mut seals, mut pairs) = (0, 0, 0);
    for (kind, _) in make::KINDS.iter().filter(|(kind, _)| *kind != "garbage") {
        for seed in first..first.saturating_add(count) {
            let mut script = Vec::new();
            make::make(seed, kind, &mut script)?;
            let mut other = Vec::new();
            relume(seed, &script[..], &mut other)?;
            let (one, other) = (replayed(program, &script)?, replayed(program, &other)?);
            one.keep(sealed)?;
            other.keep(sealed)?;
            let held = one.facts().and_then(|()| other.facts()).and_then(|()| one.pairs(&other));
            pairs += held.map_err(|fact| io::Error::other(format!("seed {seed} kind {kind}: {fact}")))?;
            seals += one.sealed.len() + other.sealed.len();
            scripts += 2;
        }
    }
    writeln!(out, "lean: {scripts} scripts, {seals} seals, {pairs} pairs of seals over equal captures")
}

#[cfg(test)]
pub mod tests {
    use super::*;
    use crate::replay::replay;

    /// The run of a script by this program itself.
    fn run(script: &[u8]) -> Run {
        let mut out = Vec::new();
        replay(script, &mut out).unwrap();
        Run::new(script, &String::from_utf8(out).unwrap()).unwrap()
    }

    /// A script of a seed, and one with other luma.
    fn runs(seed: u64, kind: &str) -> (Run, Run) {
        let (mut script, mut other) = (Vec::new(), Vec::new());
        make::make(seed, kind, &mut script).unwrap();
        relume(seed, &script[..], &mut other).unwrap();
        (run(&script), run(&other))
    }

    /// A batch of the records that this program seals in some scripts of every kind.
    pub fn sealed() -> Vec<u8> {
        let mut records = Vec::new();
        for (kind, _) in make::KINDS.iter().filter(|(kind, _)| *kind != "garbage") {
            for seed in 0..8 {
                let (one, other) = runs(seed, kind);
                one.keep(&mut records).and_then(|()| other.keep(&mut records)).unwrap();
            }
        }
        records
    }

    #[test]
    fn the_facts_hold_at_every_seal() {
        let mut pairs = 0;
        for (kind, _) in make::KINDS.iter().filter(|(kind, _)| *kind != "garbage") {
            for seed in 0..8 {
                let (one, other) = runs(seed, kind);
                assert_eq!(one.facts().and_then(|()| other.facts()), Ok(()), "seed {seed}, {kind}");
                pairs += one.pairs(&other).unwrap();
            }
        }
        assert!(pairs > 200, "{pairs}");
    }

    #[test]
    fn records_against_the_facts_are_found() {
        let (one, other) = runs(3, "damaged");
        let (fed, record) = &one.sealed[0];
        let with = |place: usize, change: u8| {
            let mut record = record.clone();
            record[place] = record[place].wrapping_add(change);
            facts(&one.capture[..*fed], &record)
        };
        assert!(with(44, 1).unwrap_err().starts_with("fact 1"));
        assert!(with(52, 1).unwrap_err().starts_with("fact 1"));
        assert!(with(63, 0x80).unwrap_err().starts_with("fact 2"));
        assert!(facts(&one.capture, &record[1..]).is_err());
        let mut second = other.sealed[0].1.clone();
        assert_eq!(pair(record, &second), Ok(()));
        second[64 + 24] ^= 1;
        assert!(pair(record, &second).is_err());
    }
}
