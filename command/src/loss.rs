//! carolsedge loss: how far losses spread over the units behind them (R-8).
use crate::input::{little_endian, Input};
use crate::output;
use crate::show;
use crate::stop::Stop;
use crate::words::Words;
use crate::Subcommand;
use carolsedge::{Record, Refusal};
use std::ffi::{OsStr, OsString};

pub const SUBCOMMAND: Subcommand =
    Subcommand { name: "loss", summary: "say how far losses spread, unit by unit", help: HELP, run };

const HELP: &str = "\
usage: carolsedge loss < LISTS
       carolsedge loss --record RECORD --keys FILE

Reads, little-endian, a 32-bit number of units, for each unit a 32-bit loss, and
then for each the 64-bit floating-point probability that it is a key frame.
Prints a line a unit: the bits of what reaches it of key-frame losses and of
plain losses, 16 hexadecimal digits each. For streams without B frames.

  --record RECORD    the losses are the lost packets of a record's units
  --keys FILE        the probabilities, a decimal number a line, a line a unit

The two go together, and one of them may be - for standard input.

An input of another length than its number of units asks for has lists that are
not so long, and is refused with 22; so is another number of lines than units.

Exit status: 0 printed, 1 refused, 2 wrong words or a file's error.
";

/// Units of the longest lists that are not refused.
const UNITS_MOST: usize = 750;

/// Bytes of the longest input that is not refused.
const LONGEST: usize = 4 + 12 * UNITS_MOST;

/// Bytes of FILE that are read: over 1,390 for each line, and no 64-bit number has more digits than 1,080.
const KEYS_LONGEST: usize = 1 << 20;

/// The two lists that are given.
#[derive(Debug, Default, PartialEq)]
struct Given {
    losses: Vec<u32>,
    probabilities: Vec<f64>,
}

fn run(words: Vec<OsString>) -> Result<(), Stop> {
    let words = Words::part(words, &["--record", "--keys"], &[])?;
    words.plain(&[], 0)?;
    match (words.value("--record"), words.value("--keys")) {
        (None, None) => {
            // No more bytes than it takes to see that they are too many.
            let mut input = Input::piped("LISTS")?;
            let bytes = input.up_to(LONGEST + 1)?;
            print(&given(&bytes), |_| stopped(&bytes)).map_err(|stop| stop.of(input.name()))
        }
        (Some(record), Some(keys)) => of_files(record, keys),
        (Some(_), None) => Err(Stop::Usage("--keys FILE is missing: --record is given".into())),
        (None, Some(_)) => Err(Stop::Usage("--record RECORD is missing: --keys is given".into())),
    }
}

/// Prints how far the losses spread; of a refusal `found` tells more.
fn print(given: &Given, found: impl Fn(&Refusal) -> Vec<String>) -> Result<(), Stop> {
    let Given { losses, probabilities } = given;
    let (mut keys, mut plain) = (vec![0.0; losses.len()], vec![0.0; losses.len()]);
    let done = carolsedge::effective_loss(losses, probabilities, &mut keys, &mut plain);
    done.map_err(|refusal| {
        let found = found(&refusal);
        Stop::refused(refusal, found)
    })?;
    output::print(&lines(&keys, &plain))
}

/// The losses of a record, and the probabilities of a file.
fn of_files(record: &OsStr, keys: &OsStr) -> Result<(), Stop> {
    if record == "-" && keys == "-" {
        return Err(Stop::Usage("-: RECORD and FILE cannot both be standard input".into()));
    }
    let (mut record, mut keys) = (Input::open(record)?, Input::open(keys)?);
    let bytes = show::read(&mut record)?;
    let read = Record::read(&bytes).map_err(|refusal| show::refused(refusal, &bytes, &mut record))?;
    let losses = read.units().map(|unit| unit.lost).collect();
    let text = keys.up_to(KEYS_LONGEST + 1)?;
    let probabilities = numbers(&text).map_err(|what| Stop::Failed(format!("{}: {what}", keys.name())))?;
    let given = Given { losses, probabilities };
    let printed = print(&given, |refusal| found(refusal.number, &given, record.name(), keys.name()));
    printed.map_err(|stop| stop.of(keys.name()))
}

/// A number a line, as Rust reads one; otherwise what is wrong. No more lines than it takes to see that they are too
/// many.
fn numbers(text: &[u8]) -> Result<Vec<f64>, String> {
    let mut all = Vec::new();
    for line in text.split_inclusive(|&byte| byte == b'\n').take(UNITS_MOST + 1) {
        let line = line.strip_suffix(b"\n").unwrap_or(line);
        let line = line.strip_suffix(b"\r").unwrap_or(line);
        match std::str::from_utf8(line).ok().and_then(|line| line.parse().ok()) {
            Some(number) => all.push(number),
            None => return Err(format!("line {}: not a decimal number", all.len() + 1)),
        }
    }
    if text.len() > KEYS_LONGEST && all.len() <= UNITS_MOST {
        return Err(format!("more than {} bytes: too long", output::grouped(KEYS_LONGEST as u64)));
    }
    Ok(all)
}

/// What is to be said of an input that is too long: that the rest was not read.
fn stopped(bytes: &[u8]) -> Vec<String> {
    let most = output::grouped(LONGEST as u64);
    let why =
        format!("There are more than {most} bytes, and lists of 750 units have no more: the rest was not read.");
    (bytes.len() > LONGEST).then_some(why).into_iter().collect()
}

/// What is to be said of a refusal: how long both files are, or which line is not within 0 to 1.
fn found(number: u32, given: &Given, record: &str, keys: &str) -> Vec<String> {
    let (units, lines) = (given.losses.len(), given.probabilities.len());
    let wrong = given.probabilities.iter().enumerate().find(|(_, p)| !(0.0..=1.0).contains(*p));
    match (number, wrong) {
        (22, _) if units != lines => {
            let (units, more) = (output::count(units as u64, "unit"), lines > UNITS_MOST);
            let lines = match more {
                true => format!("more than {UNITS_MOST} lines"),
                false => output::count(lines as u64, "line"),
            };
            vec![format!("{record} has {units}, and {keys} has {lines}: a line a unit is wanted")]
        }
        (23, Some((at, wrong))) => vec![format!("{keys}: line {}: {wrong:?}", at + 1)],
        _ => Vec::new(),
    }
}

/// Reads a number of units, so many losses and so many probabilities. Of an input of another length nothing is handed
/// on, so that the library refuses it (22).
fn given(bytes: &[u8]) -> Given {
    let Some((units, rest)) = bytes.split_first_chunk() else {
        return Given::default();
    };
    let units = u64::from(u32::from_le_bytes(*units));
    if rest.len() as u64 != 12 * units {
        return Given::default();
    }
    let (losses, probabilities) = rest.split_at(rest.len() / 3);
    Given {
        losses: losses.chunks_exact(4).map(|loss| little_endian(loss) as u32).collect(),
        probabilities: probabilities.chunks_exact(8).map(|p| f64::from_bits(little_endian(p))).collect(),
    }
}

/// A line a unit: the bits of both amounts, 16 digits each, the key-frame list first.
fn lines(keys: &[f64], plain: &[f64]) -> String {
    let both = keys.iter().zip(plain);
    both.map(|(key, plain)| format!("{:016X} {:016X}\n", key.to_bits(), plain.to_bits())).collect()
}

#[cfg(test)]
mod tests {
    use super::*;

    fn bytes(units: u32, losses: &[u32], probabilities: &[f64]) -> Vec<u8> {
        let mut all = units.to_le_bytes().to_vec();
        losses.iter().for_each(|loss| all.extend(loss.to_le_bytes()));
        probabilities.iter().for_each(|p| all.extend(p.to_le_bytes()));
        all
    }

    #[test]
    fn lists_as_long_as_the_count() {
        let (losses, probabilities) = (vec![0, 7, u32::MAX], vec![0.25, -0.0, 1.0]);
        assert_eq!(given(&bytes(3, &losses, &probabilities)), Given { losses, probabilities });
    }

    #[test]
    fn nothing_of_another_length_is_handed_on() {
        let whole = bytes(2, &[1, 2], &[0.5, 0.5]);
        for length in 0..whole.len() {
            assert_eq!(given(&whole[..length]), Given::default(), "{length} bytes");
        }
        for (units, more) in [(2, 1), (2, 8), (2, 12), (0, 1), (u32::MAX, 5)] {
            let long = [bytes(units, &[1, 2], &[0.5, 0.5]), vec![0; more]].concat();
            assert_eq!(given(&long), Given::default(), "{more} bytes more");
        }
    }

    #[test]
    fn numbers_by_lines() {
        assert_eq!(numbers(b""), Ok(vec![]));
        assert_eq!(numbers(b"0.5\n1e-3\r\n+1\n.25"), Ok(vec![0.5, 0.001, 1.0, 0.25]));
        let wrong = |line| Err(format!("line {line}: not a decimal number"));
        for (text, line) in [("\n", 1), ("1\n\n", 2), ("1\n0\n 1\n", 3), ("0,5\n", 1), ("1\n0x1\n", 2)] {
            assert_eq!(numbers(text.as_bytes()), wrong(line), "{text:?}");
        }
        assert_eq!(numbers(b"1\n\xff\n"), wrong(2));
    }

    #[test]
    fn lines_that_are_too_many_or_too_long() {
        assert_eq!(numbers(&b"1\n".repeat(KEYS_LONGEST)), Ok(vec![1.0; UNITS_MOST + 1]));
        let long = [b"0.".to_vec(), vec![b'5'; KEYS_LONGEST]].concat();
        assert_eq!(numbers(&long), Err("more than 1,048,576 bytes: too long".into()));
    }

    #[test]
    fn a_line_a_unit() {
        assert_eq!(
            lines(&[0.0, 3.25], &[-0.0, 1.0]),
            "0000000000000000 8000000000000000\n400A000000000000 3FF0000000000000\n"
        );
    }
}
