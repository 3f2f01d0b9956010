//! carolsedge survey: which identifier of a capture has most packets.
use crate::input::Input;
use crate::output;
use crate::stop::Stop;
use crate::walk::Walk;
use crate::words::Words;
use crate::Subcommand;
use carolsedge::{Most, Survey};
use std::cmp::Reverse;
use std::ffi::OsString;

pub const SUBCOMMAND: Subcommand =
    Subcommand { name: "survey", summary: "name the identifier with most packets of a capture", help: HELP, run };

const HELP: &str = "\
usage: carolsedge survey CAPTURE

Counts the good packets (those that start with 0x47 and are not marked as
damaged) of every identifier in a capture, a file or - for standard input, and
prints

  survey PID COUNT

with the identifier that has most, the lowest among equals, and how many it has.
That is usually the picture: give it to carolsedge measure as --pid, which takes
it by itself where CAPTURE is a file and --pid is left out.

Exit status: 0 printed, 1 refused, 2 wrong words or a file's error.
";

/// How many bytes are read and fed at a time.
const PIECE: usize = 1 << 16;

fn run(words: Vec<OsString>) -> Result<(), Stop> {
    let mut input = Input::open(&Words::part(words, &[], &[])?.one("CAPTURE")?)?;
    let (most, _) = most(&mut input)?;
    output::print(&format!("survey {} {}\n", most.pid, most.packets))
}

/// The identifier with most good packets of a capture, which is read to its end, and the next: of the others that have
/// any the one with most, the lowest among equals.
pub fn most(input: &mut Input) -> Result<(Most, Option<Most>), Stop> {
    let (mut survey, mut walk) = (Survey::open(), Walk::new());
    let mut buffer = vec![0; PIECE];
    loop {
        let piece = input.read(&mut buffer)?;
        if piece.is_empty() || survey.feed(piece).is_err() {
            break;
        }
        walk.take(piece, |_| {});
    }
    let most = survey.ask().map_err(|refusal| {
        let found = if refusal.number == 21 { walk.nothing_good() } else { Vec::new() };
        Stop::refused(refusal, found).of(input.name())
    })?;
    let others = (0..8192).filter(|&pid| pid != most.pid).map(|pid| Most { pid, packets: survey.packets(pid) });
    let next = others.filter(|other| other.packets > 0).min_by_key(|other| Reverse(other.packets));
    Ok((most, next))
}
