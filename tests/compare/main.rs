//! Runs two programs on the same random inputs and compares what they print.
//!
//!     compare replay AGAIN REPLAY FIRST COUNT    scripts of every kind: `AGAIN replay` beside REPLAY
//!     compare recut AGAIN REPLAY FIRST COUNT     REPLAY on such scripts beside REPLAY on the same bytes cut anew:
//!                                                all lines but those of feeds
//!     compare limit AGAIN REPLAY                 the scripts about the 256 MiB of a capture
//!     compare VERB AGAIN OURS FIRST COUNT        inputs of a verb of FILTERS, or arguments of one of ARGUMENTS:
//!                                                `AGAIN VERB` beside OURS
//!
//! AGAIN is the independent program, which also makes the inputs. VERB and OURS may have arguments, parted by spaces
//! (`rtp-into 96`, for one); when OURS prints a refusal and nothing else, it may end with status 1. Two threads
//! run at once. The last lines say how much was compared and how often each refusal was given; the exit status is 1
//! if any output differs.
#![forbid(unsafe_code)]

use std::collections::BTreeMap;
use std::io::{self, Write};
use std::iter;
use std::process::{Command, ExitCode, Stdio};
use std::sync::atomic::{AtomicU64, Ordering};
use std::sync::Mutex;
use std::thread;

/// Verbs of the independent program that read standard input, each with what makes its inputs.
const FILTERS: [(&str, &str); 8] = [
    ("show", "records"),
    ("sheet", "records"),
    ("survey", "captures"),
    ("survey-replay", "make-survey"),
    ("loss", "make-loss"),
    ("rtp", "make-rtp"),
    ("rtp-into", "make-rtp"),
    ("shelf", "make-shelf"),
];

/// Verbs that take arguments, each with what makes them, an argument a line.
const ARGUMENTS: [(&str, &str); 3] =
    [("busiest", "make-busiest"), ("gaps", "make-gaps"), ("gaps-into", "make-gaps-into")];

/// What was compared so far.
#[derive(Default)]
struct Tally {
    /// Whether trailing blanks count.
    exact: bool,
    runs: u64,
    lines: u64,
    refusals: BTreeMap<u64, u64>,
    different: Vec<String>,
}

impl Tally {
    /// Takes in one run: its name, and what each of the two programs printed.
    fn take(&mut self, name: String, again: &[u8], ours: &[u8]) {
        self.runs += 1;
        let (a, b) = (self.lines_of(again), self.lines_of(ours));
        if a != b {
            self.different.push(format!("{name}: {}", first_difference(&a, &b)));
            return;
        }
        for line in lines(ours) {
            self.lines += 1;
            if let Some(number) = refusal(line) {
                *self.refusals.entry(number).or_default() += 1;
            }
        }
    }

    /// The lines as they are compared.
    fn lines_of<'t>(&self, text: &'t [u8]) -> Vec<&'t [u8]> {
        let lines = text.split(|&byte| byte == b'\n');
        lines.map(|line| if self.exact { line } else { line.trim_ascii_end() }).collect()
    }
}

fn lines(text: &[u8]) -> impl Iterator<Item = &[u8]> {
    text.split(|&byte| byte == b'\n').filter(|line| !line.is_empty())
}

fn first_difference(again: &[&[u8]], ours: &[&[u8]]) -> String {
    let short = |line: Option<&&[u8]>| match line {
        Some(line) => String::from_utf8_lossy(&line[..line.len().min(80)]).into_owned(),
        None => "nothing".to_string(),
    };
    let place = again.iter().zip(ours).take_while(|(a, b)| a == b).count();
    format!("line {}: `{}` beside our `{}`", place + 1, short(again.get(place)), short(ours.get(place)))
}

/// The number behind the word `refused`.
fn refusal(line: &[u8]) -> Option<u64> {
    let line = std::str::from_utf8(&line[..line.len().min(60)]).ok()?;
    let mut words = line.split(' ').skip_while(|word| *word != "refused").skip(1);
    words.next()?.parse().ok()
}

/// What a program prints on some input.
fn output(program: &str, arguments: &[&str], input: &[u8]) -> io::Result<Vec<u8>> {
    let mut child =
        Command::new(program).args(arguments).stdin(Stdio::piped()).stdout(Stdio::piped()).spawn()?;
    let mut pipe = child.stdin.take().expect("a pipe");
    let result = thread::scope(|scope| {
        // A program may stop reading early: a run that ends inside a script.
        scope.spawn(move || pipe.write_all(input));
        child.wait_with_output()
    })?;
    let refused = result.status.code() == Some(1) && result.stdout.starts_with(b"refused ");
    if !result.status.success() && !refused {
        return Err(io::Error::other(format!("{program} ended with {}", result.status)));
    }
    Ok(result.stdout)
}

/// One input, made by `make` and run through both programs.
fn compare(make: [&str; 3], again: &[&str], ours: &str) -> io::Result<(Vec<u8>, Vec<u8>)> {
    let program = again[0];
    let wanted: Vec<&str> = make.into_iter().filter(|word| !word.is_empty()).collect();
    let input = output(program, &wanted, b"")?;
    let ours: Vec<&str> = ours.split(' ').collect();
    Ok((output(program, &again[1..], &input)?, output(ours[0], &ours[1..], &input)?))
}

/// One script, made by `make`, and the same bytes and questions cut otherwise, both through our program. The lines of
/// feeds are left out: they go by the pieces.
fn compare_cuts(make: [&str; 3], again: &str, ours: &str) -> io::Result<(Vec<u8>, Vec<u8>)> {
    let script = output(again, &make, b"")?;
    let other = output(again, &["recut", make[1]], &script)?;
    let feeds = |line: &&[u8]| line.starts_with(b"capture") || line.starts_with(b"luma");
    let answers = |text: Vec<u8>| lines(&text).filter(|line| !feeds(line)).collect::<Vec<_>>().join(&b'\n');
    Ok((answers(output(ours, &[], &script)?), answers(output(ours, &[], &other)?)))
}

/// One list of arguments, made by `make`, for both programs.
fn compare_arguments(make: [&str; 2], again: &[&str], ours: &str) -> io::Result<(Vec<u8>, Vec<u8>)> {
    let lines = output(again[0], &make, b"")?;
    let lines = String::from_utf8_lossy(&lines).into_owned();
    let run = |program: Vec<&str>| {
        let arguments: Vec<&str> = program[1..].iter().copied().chain(lines.lines()).collect();
        output(program[0], &arguments, b"")
    };
    Ok((run(again.to_vec())?, run(ours.split(' ').collect())?))
}

/// Runs every case on two threads, and tallies.
fn run_all(exact: bool, cases: u64, case: impl Fn(u64) -> io::Result<(String, Vec<u8>, Vec<u8>)> + Sync) -> Tally {
    let next = AtomicU64::new(0);
    let tally = Mutex::new(Tally { exact, ..Tally::default() });
    thread::scope(|scope| {
        for _ in 0..2 {
            scope.spawn(|| loop {
                let number = next.fetch_add(1, Ordering::Relaxed);
                if number >= cases {
                    return;
                }
                let result = case(number);
                let mut tally = tally.lock().expect("a tally");
                match result {
                    Ok((name, again, ours)) => tally.take(name, &again, &ours),
                    Err(error) => tally.different.push(format!("case {number}: {error}")),
                }
            });
        }
    });
    tally.into_inner().expect("a tally")
}

/// The kinds of scripts, as the independent program names them.
fn kinds(again: &str) -> io::Result<Vec<String>> {
    let text = output(again, &["kinds"], b"")?;
    let text = String::from_utf8_lossy(&text).into_owned();
    let names = text.lines().filter_map(|line| line.split(':').next());
    Ok(names.filter(|name| *name != "limit").map(str::to_string).collect())
}

fn report(what: &str, of: &str, tally: &Tally) -> ExitCode {
    let refusals: Vec<String> = tally.refusals.iter().map(|(number, count)| format!("{number}:{count}")).collect();
    println!("{what}: {} compared, {} {of}; refusals {}", tally.runs, tally.lines, refusals.join(" "));
    for difference in tally.different.iter().take(20) {
        println!("{what}: DIFFERENT {difference}");
    }
    if tally.different.is_empty() && tally.runs > 0 {
        return ExitCode::SUCCESS;
    }
    println!("{what}: {} of the runs differ or failed", tally.different.len());
    ExitCode::FAILURE
}

fn run(arguments: &[&str]) -> io::Result<ExitCode> {
    match *arguments {
        ["replay", again, ours, first, count] => {
            let both = |make: [&str; 3]| compare(make, &[again, "replay"], ours);
            scripts("scripts", again, number(first)?, number(count)?, both)
        }
        ["recut", again, ours, first, count] => {
            let both = |make: [&str; 3]| compare_cuts(make, again, ours);
            scripts("recut", again, number(first)?, number(count)?, both)
        }
        ["limit", again, ours] => {
            let tally = run_all(false, 4, |case| {
                let seed = case.to_string();
                let (a, b) = compare(["make", &seed, "limit"], &[again, "replay"], ours)?;
                Ok((format!("seed {seed} kind limit"), a, b))
            });
            Ok(report("limit", "calls", &tally))
        }
        [verb, again, ours, first, count] => inputs(verb, again, ours, number(first)?, number(count)?),
        _ => Err(io::Error::other("compare replay|recut|limit|VERB AGAIN OURS [FIRST COUNT]")),
    }
}

/// Scripts of every kind in turn; `both` gives two texts of what makes one.
fn scripts(
    what: &str,
    again: &str,
    first: u64,
    count: u64,
    both: impl Fn([&str; 3]) -> io::Result<(Vec<u8>, Vec<u8>)> + Sync,
) -> io::Result<ExitCode> {
    let kinds = kinds(again)?;
    let tally = run_all(false, count, |case| {
        let kind = &kinds[(case % kinds.len() as u64) as usize];
        let seed = (first + case / kinds.len() as u64).to_string();
        let (a, b) = both(["make", &seed, kind])?;
        Ok((format!("seed {seed} kind {kind}"), a, b))
    });
    let last = first + count.saturating_sub(1) / kinds.len() as u64;
    println!("{what}: seeds {first} to {last} of the kinds {}", kinds.join(" "));
    Ok(report(what, "calls", &tally))
}

/// Inputs of a verb, or its arguments.
fn inputs(verb: &str, again: &str, ours: &str, first: u64, count: u64) -> io::Result<ExitCode> {
    let filter = maker_of(&FILTERS, verb);
    let maker = filter.or(maker_of(&ARGUMENTS, verb));
    let maker = maker.ok_or_else(|| io::Error::other(format!("{verb} is nothing to compare")))?;
    let tally = run_all(true, count, |case| {
        let seed = (first + case).to_string();
        let again: Vec<&str> = iter::once(again).chain(verb.split(' ')).collect();
        let (a, b) = if filter.is_some() {
            compare([maker, &seed, ""], &again, ours)?
        } else {
            compare_arguments([maker, &seed], &again, ours)?
        };
        Ok((format!("{maker} of seed {seed}"), a, b))
    });
    println!("{verb}: {maker} of seeds {first} to {}", first + count.saturating_sub(1));
    Ok(report(verb, "lines", &tally))
}

/// What makes the inputs of a verb of a table.
fn maker_of(table: &[(&str, &'static str)], verb: &str) -> Option<&'static str> {
    table.iter().find(|(name, _)| verb.split(' ').next() == Some(*name)).map(|&(_, maker)| maker)
}

fn number(word: &str) -> io::Result<u64> {
    word.parse().map_err(|_| io::Error::other(format!("{word} is no number")))
}

fn main() -> ExitCode {
    let arguments: Vec<String> = std::env::args().skip(1).collect();
    let arguments: Vec<&str> = arguments.iter().map(String::as_str).collect();
    match run(&arguments) {
        Ok(code) => code,
        Err(error) => {
            eprintln!("compare: {error}");
            ExitCode::from(2)
        }
    }
}
