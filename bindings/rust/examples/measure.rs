//! measure W H D PID CAPTURE LUMA [EDITION]: measures a sample and prints its record, as the programs measure and show
//! do together.
//!
//! Exit status: 0 printed, 1 refused (`refused NUMBER PLACE` on standard output), 2 usage, or a file or
//! standard output that fails.
use carolsedge::{Opening, Record, Refusal, Sample, RECORD_MOST};
use std::fs::File;
use std::io::{self, Read, Write};
use std::process::ExitCode;

const USAGE: &str =
    "usage: measure W H D PID CAPTURE LUMA [EDITION] (D: microseconds a picture; EDITION: 1 if missing)";

// Why there is no record.
enum Stop {
    Refused(Refusal),
    Failed(String),
}

impl From<Refusal> for Stop {
    fn from(refusal: Refusal) -> Stop {
        Stop::Refused(refusal)
    }
}

fn failed(name: &str) -> impl Fn(io::Error) -> Stop + '_ {
    move |e| Stop::Failed(format!("{name}: {e}"))
}

// Hands a file on piece by piece. A refusal is kept by the sample: its seal repeats it.
fn feed(name: &str, mut side: impl FnMut(&[u8]) -> Result<usize, Refusal>) -> Result<(), Stop> {
    let mut file = File::open(name).map_err(failed(name))?;
    let mut piece = vec![0; 65536];
    loop {
        match file.read(&mut piece).map_err(failed(name))? {
            0 => return Ok(()),
            n => drop(side(&piece[..n])),
        }
    }
}

fn print(record: Record, mut out: impl Write) -> io::Result<()> {
    let h = record.header();
    writeln!(
        out,
        "sample {} {} {} {} {} {} {} {} {:016X}",
        h.width,
        h.height,
        h.time,
        h.pid,
        h.pictures,
        h.frames,
        h.skipped,
        h.bad,
        h.index.to_bits()
    )?;
    for (j, u) in record.units().enumerate() {
        writeln!(out, "unit {j} {} {} {} {} {}", u.least, u.greatest, u.size, u.packets, u.lost)?;
    }
    for (j, s) in record.scenes().enumerate() {
        writeln!(
            out,
            "scene {j} {} {} {} {} {} {} {}",
            s.first, s.pictures, s.repeated, s.longest, s.score, s.peak, s.change
        )?;
    }
    out.flush()
}

fn measure(words: &[String]) -> Result<(), Stop> {
    let usage = || Stop::Failed(USAGE.into());
    let number = |word: &String| word.parse().map_err(|_| usage());
    let [width, height, time, pid, capture, luma, edition @ ..] = words else {
        return Err(usage());
    };
    let edition = match edition {
        [] => 1,
        [edition] => number(edition)?,
        _ => return Err(usage()),
    };
    let mut sample = Sample::open(Opening {
        width: number(width)?,
        height: number(height)?,
        time: number(time)?,
        pid: number(pid)?,
        edition,
    })?;
    feed(capture, |piece| sample.feed_capture(piece))?;
    feed(luma, |piece| sample.feed_luma(piece))?;
    let mut buffer = [0; RECORD_MOST];
    let length = sample.seal(&mut buffer)?;
    let record = Record::read(&buffer[..length])?;
    let out = io::BufWriter::new(io::stdout().lock());
    print(record, out).map_err(failed("standard output"))
}

fn main() -> ExitCode {
    let words: Vec<String> = std::env::args().skip(1).collect();
    let said = match measure(&words) {
        Ok(()) => return ExitCode::SUCCESS,
        Err(Stop::Failed(said)) => said,
        Err(Stop::Refused(Refusal { number, place })) => match writeln!(io::stdout(), "refused {number} {place}") {
            Ok(()) => return ExitCode::from(1),
            Err(e) => format!("standard output: {e}"),
        },
    };
    // Where standard error cannot be written there is nobody to tell.
    let _ = writeln!(io::stderr(), "measure: {said}");
    ExitCode::from(2)
}
