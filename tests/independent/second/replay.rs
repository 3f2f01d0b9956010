//! `replay` and `survey-replay`: run a script and print a line a call.

use crate::lent::print_call;
use crate::opening::Refusal;
use crate::record::Index;
use crate::sample::Sample;
use crate::script::{read_call, read_opening, read_survey_call, Call};
use crate::survey::{Found, Survey};
use std::io::{self, Read, Write};

pub fn replay(mut script: impl Read, mut out: impl Write) -> io::Result<()> {
    let Some(opening) = read_opening(&mut script) else {
        return Ok(());
    };
    let mut sample = Sample::open(opening);
    match sample.opened() {
        Ok(()) => writeln!(out, "open ok")?,
        Err(Refusal { number, place }) => writeln!(out, "open refused {number} {place}")?,
    }
    while let Some(call) = read_call(&mut script) {
        match call {
            Call::Capture(piece) => print_feed(&mut out, "capture", sample.feed_capture(&piece))?,
            Call::Luma(piece) => print_feed(&mut out, "luma", sample.feed_luma(&piece))?,
            Call::Index => print_index(&mut out, sample.index())?,
            Call::Repeats(first, end) => print_repeats(&mut out, sample.repeats(first, end))?,
            Call::Seal(room) => print_call(&mut out, "seal", room, |buffer| sample.seal(buffer))?,
        }
    }
    out.flush()
}

pub fn replay_survey(mut script: impl Read, mut out: impl Write) -> io::Result<()> {
    let mut survey = Survey::new();
    while let Some(call) = read_survey_call(&mut script) {
        match call {
            Some(piece) => print_feed(&mut out, "capture", survey.feed(&piece))?,
            None => match survey.answer() {
                Ok(Found { pid, count }) => writeln!(out, "survey {pid} {count}")?,
                Err(Refusal { number, place }) => writeln!(out, "survey refused {number} {place}")?,
            },
        }
    }
    out.flush()
}

fn print_index(out: &mut impl Write, answer: Result<Index, Refusal>) -> io::Result<()> {
    match answer {
        Ok(index) => writeln!(out, "index {:016X}", index.index.to_bits()),
        Err(Refusal { number, place }) => writeln!(out, "index refused {number} {place}"),
    }
}

fn print_repeats(out: &mut impl Write, answer: Result<u32, Refusal>) -> io::Result<()> {
    match answer {
        Ok(count) => writeln!(out, "repeats {count}"),
        Err(Refusal { number, place }) => writeln!(out, "repeats refused {number} {place}"),
    }
}

fn print_feed(out: &mut impl Write, side: &str, answer: Result<usize, Refusal>) -> io::Result<()> {
    match answer {
        Ok(length) => writeln!(out, "{side} {length}"),
        Err(Refusal { number, place }) => writeln!(out, "{side} refused {number} {place}"),
    }
}
