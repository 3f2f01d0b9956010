//! carolsedge measure: a capture and pictures go in, a record comes out.
mod asked;
mod decoder;
mod files;
mod look;
mod progress;
mod stream;
mod telling;
mod y4m;

use crate::input::Input;
use crate::output;
use crate::stop::Stop;
use crate::walk::Walk;
use crate::write::{kept_elsewhere, Target};
use crate::{survey, Subcommand};
use asked::Asked;
use carolsedge::{Record, Sample, RECORD_MOST};
use std::ffi::OsString;
use std::ops::Range;

pub const SUBCOMMAND: Subcommand =
    Subcommand { name: "measure", summary: "measure a capture and its pictures into a record", help: HELP, run };

const HELP: &str = "\
usage: carolsedge measure CAPTURE [PICTURES] -o RECORD [--pid PID] [options]

Measures a capture and its pictures into a record. Prints `sealed LENGTH`, or
`refused NUMBER PLACE` and, on standard error, why.

  CAPTURE      a libpcap file of Ethernet frames, or - for standard input
  PICTURES     a .y4m file, or raw 8-bit luma (with --size and a time), or - for
               standard input; without PICTURES ffmpeg decodes the capture
  -o RECORD    where the record goes: a new file, or in place of a regular file
               that is neither CAPTURE nor PICTURES
  --pid PID    the identifier of the video's packets; without it the one that
               carolsedge survey names is taken (not from a pipe, nor from -)
  --size WxH   width and height of a picture
  --time US    microseconds that a picture is shown
  --rate N[/D] pictures a second, in place of --time: 25, 30000/1001
  --edition N  the edition of the rules, 1 to 4; the newest if it is not given
  --passage A-B  also count the repeated pictures from A (from 0 on) up to but
               without B, and print `repeats COUNT` behind the record's line
  --decoder-timeout S  how many seconds ffmpeg may hang before it is ended: 60

Numbers may also be hexadecimal, as 0x100. Only 8-bit luma is measured; of a
y4m file's pictures the luma plane is taken, and its rate unless one is given.

Exit status: 0 sealed, 1 refused, 2 wrong words, a file's error or a decoder's.
";

/// The refusal of a sample without pictures.
const NO_PICTURE: u32 = 14;

/// Bytes that are read and fed at once.
const PIECE: usize = 1 << 17;

/// A sample that was fed both sides, and what was noticed meanwhile.
pub struct Measured {
    sample: Sample,
    walk: Walk,
    /// Whether the pictures were raw luma, which says nothing of itself.
    raw: bool,
    doubts: Vec<String>,
    /// How the decoder failed, where it did before its first picture.
    failed: Option<String>,
}

fn run(words: Vec<OsString>) -> Result<(), Stop> {
    let asked = Asked::read(words)?;
    let capture = Input::open(&asked.capture)?;
    if asked.survey && !capture.twice() {
        return Err(needs_pid(capture.name()));
    }
    let pictures = asked.pictures.as_deref().map(Input::open).transpose()?;
    let inputs = [Some(&capture), pictures.as_ref()].into_iter().flatten();
    let inputs: Vec<_> = inputs.map(|input| (input.identity(), input.name().to_string())).collect();
    let record = Target::new(&asked.record, inputs.clone())?.with_room(RECORD_MOST)?;
    // A refusal is told with the capture's name, or the pictures' where they are a file and it is about them.
    let file = asked.pictures.as_deref().is_some_and(|word| word != "-");
    measure(asked, capture, pictures, record).map_err(|stop| {
        let of_pictures = matches!(stop.number(), Some(1 | 2 | 10 | 13 | 14 | 26));
        match inputs.get(usize::from(file && of_pictures)) {
            Some((_, name)) => stop.of(name),
            None => stop,
        }
    })
}

fn measure(mut asked: Asked, mut capture: Input, pictures: Option<Input>, record: Target) -> Result<(), Stop> {
    let again = capture.twice() && pictures.as_ref().is_none_or(Input::twice);
    if asked.survey {
        asked.pid = surveyed(&asked, &mut capture)?;
    }
    let measured = match pictures {
        Some(pictures) => files::measure(&asked, capture, pictures)?,
        None => stream::measure(&asked, capture)?,
    };
    let sealed = sealed(&asked, &measured)?;
    record.write(&sealed).map_err(|stop| if again { stop } else { kept_elsewhere(stop, &sealed) })?;
    tell(&asked, &measured, &sealed)
}

/// A capture that can be read only once cannot be surveyed before it is measured.
fn needs_pid(name: &str) -> Stop {
    let why = format!("{name} is no file that can be read twice, to be surveyed first");
    Stop::Usage(format!("--pid PID is missing: {why}\nof a stored copy, carolsedge survey FILE names the PID"))
}

/// The identifier with most good packets; says that it is taken, and what comes next to it. The capture is then at its
/// beginning again.
fn surveyed(asked: &Asked, capture: &mut Input) -> Result<u32, Stop> {
    let (most, next) = survey::most(capture)?;
    capture.rewind()?;
    let packets = output::count(most.packets, "good packet");
    let next = match next {
        Some(next) => format!("the next, {}, has {}", next.pid, output::grouped(next.packets)),
        None => "no other has any".into(),
    };
    asked.say(&[format!("--pid {} is taken: a survey found {packets} of it; {next}", most.pid)]);
    Ok(most.pid)
}

/// The record of what was measured.
fn sealed(asked: &Asked, measured: &Measured) -> Result<Vec<u8>, Stop> {
    let mut record = vec![0; RECORD_MOST];
    let length = measured.sample.seal(&mut record).map_err(|refusal| {
        let found = telling::refused(&refusal, asked.pid, measured);
        match refusal.number == NO_PICTURE && measured.failed.is_some() {
            true => Stop::Failed(found.join("\n")),
            false => Stop::refused(refusal, found),
        }
    })?;
    record.truncate(length);
    Ok(record)
}

/// Says what is in the record, now that it is in its place.
fn tell(asked: &Asked, measured: &Measured, record: &[u8]) -> Result<(), Stop> {
    asked.say(&telling::sealed(&Record::read(record)?.header(), measured));
    output::print(&format!("sealed {}\n", record.len()))?;
    asked.passage.clone().map_or(Ok(()), |passage| tell_repeats(&measured.sample, passage))
}

/// The repeats of a passage. They are told behind the record, which a passage that is refused does not undo: what came
/// through a pipe cannot be measured again.
fn tell_repeats(sample: &Sample, passage: Range<u32>) -> Result<(), Stop> {
    match sample.repeats(passage) {
        Ok(count) => output::print(&format!("repeats {count}\n")),
        Err(refusal) => {
            let line = format!("repeats refused {} {}\n", refusal.number, refusal.place);
            Err(Stop::from(refusal).printed(line))
        }
    }
}
