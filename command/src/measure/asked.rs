//! What `carolsedge measure` is asked for.
use super::y4m::Heading;
use crate::output;
use crate::outside::shown;
use crate::stop::Stop;
use crate::words::{number, number_or_most, Words};
use carolsedge::{Opening, NEWEST_EDITION};
use std::ffi::OsString;
use std::ops::Range;
use std::time::Duration;

/// The patience with a decoder where no other is asked for.
const PATIENCE: Duration = Duration::from_secs(60);

/// How long a picture is shown.
#[derive(Clone, Copy)]
enum Time {
    Microseconds(u32),
    /// Pictures a second: number and divisor.
    Rate(u32, u32),
}

pub struct Asked {
    pub capture: OsString,
    pub pictures: Option<OsString>,
    pub record: OsString,
    /// The identifier of the video's packets.
    pub pid: u32,
    /// A passage whose repeated pictures are to be counted.
    pub passage: Option<Range<u32>>,
    /// Whether the words leave `pid` out; a survey of the capture then has to give it, before all else.
    pub survey: bool,
    /// How long the decoder may neither take nor give a byte while it owes one.
    pub patience: Duration,
    edition: u32,
    size: Option<(u32, u32)>,
    time: Option<Time>,
}

impl Asked {
    pub fn read(words: Vec<OsString>) -> Result<Asked, Stop> {
        let usage = |text: &str| Err(Stop::Usage(text.into()));
        let options = ["-o", "--size", "--time", "--rate", "--pid", "--edition", "--passage", "--decoder-timeout"];
        let words = Words::part(words, &options, &[])?;
        let mut plain = words.plain(&["CAPTURE", "PICTURES"], 1)?.into_iter().flatten();
        let size = words.read("--size", size, "WIDTHxHEIGHT, as 1920x1080")?;
        let time = words.read("--time", number, "a number of microseconds")?.map(Time::Microseconds);
        let rate = words.read("--rate", rate, "pictures a second, as 25 or 30000/1001")?;
        let pid = words.read("--pid", number, "a packet identifier")?;
        let (pid, survey) = (pid.unwrap_or_default(), pid.is_none());
        let edition = words.read("--edition", number, "an edition of the rules")?.unwrap_or(NEWEST_EDITION);
        let passage = words.read("--passage", passage, "two picture numbers, as 0-250")?;
        let patience = words.read("--decoder-timeout", patience, "a number of seconds, 1 or more")?;
        let Some(record) = words.value("-o") else {
            return usage("-o RECORD is missing");
        };
        if record == "-" || record.is_empty() {
            return usage(&format!("-o {}: not the name of a file", shown(record)));
        }
        if time.is_some() && rate.is_some() {
            return usage("--rate: --time is given too");
        }
        let (capture, pictures) = (plain.next().unwrap_or_default(), plain.next());
        if capture == "-" && pictures.as_deref() == Some(capture.as_os_str()) {
            return usage("-: CAPTURE and PICTURES cannot both be standard input");
        }
        if patience.is_some() && pictures.is_some() {
            return usage("--decoder-timeout: PICTURES are given, and nothing is decoded");
        }
        let (record, time, patience) = (record.into(), time.or(rate), patience.unwrap_or(PATIENCE));
        Ok(Asked { capture, pictures, record, pid, passage, survey, patience, edition, size, time })
    }

    /// Says lines on standard error, each behind the record's name, in one piece: many runs may have one standard
    /// error.
    pub fn say(&self, lines: &[String]) {
        let name = shown(&self.record);
        output::say(&lines.iter().map(|line| format!("{name}: {line}\n")).collect::<String>());
    }

    /// The opening for pictures that say nothing of themselves.
    pub fn opening(&self) -> Result<Opening, Stop> {
        let Some((width, height)) = self.size else {
            return Err(Stop::Usage("--size WxH is missing: raw luma does not say it".into()));
        };
        let Some(time) = self.time else {
            return Err(Stop::Usage("--time or --rate is missing: raw luma does not say it".into()));
        };
        Ok(Opening { width, height, time: self.microseconds(time), pid: self.pid, edition: self.edition })
    }

    /// The opening for pictures with a heading. What the words say of the time prevails.
    pub fn opening_with(&self, heading: &Heading) -> Result<Opening, Stop> {
        let Heading { width, height, rate, .. } = *heading;
        match self.size {
            Some((w, h)) if (w, h) != (width, height) => {
                return Err(Stop::Usage(format!("--size {w}x{h}: the pictures are {width}x{height}")));
            }
            _ => {}
        }
        let Some(time) = self.time.or(rate.map(|(number, divisor)| Time::Rate(number, divisor))) else {
            return Err(Stop::Usage("--time or --rate is missing: the pictures do not say it".into()));
        };
        Ok(Opening { width, height, time: self.microseconds(time), pid: self.pid, edition: self.edition })
    }

    /// An opening for a stream of which no picture came: its seal says what is wrong with the capture.
    pub fn opening_without(&self) -> Opening {
        let (width, height) = self.size.unwrap_or((64, 48));
        let time = self.microseconds(self.time.unwrap_or(Time::Microseconds(40_000)));
        Opening { width, height, time, pid: self.pid, edition: self.edition }
    }

    /// Microseconds a picture, the nearest whole number; says so where they had to be rounded.
    fn microseconds(&self, time: Time) -> u32 {
        let (pictures, seconds) = match time {
            Time::Microseconds(time) => return time,
            Time::Rate(pictures, seconds) => (u64::from(pictures), u64::from(seconds)),
        };
        let all = 1_000_000 * seconds;
        let nearest = (2 * all + pictures) / (2 * pictures);
        if all % pictures != 0 {
            let exact = all as f64 / pictures as f64;
            let rate = format!("{pictures}/{seconds} pictures a second");
            self.say(&[format!("{rate} are {exact:.3} microseconds each, rounded to {nearest}")]);
        }
        u32::try_from(nearest).unwrap_or(u32::MAX)
    }
}

/// `WxH`; either may be hexadecimal, so the x that parts them is one with a number on both sides.
fn size(text: &str) -> Option<(u32, u32)> {
    let mut places = text.match_indices(['x', 'X']);
    places.find_map(|(at, _)| Some((number(text.get(..at)?)?, number(text.get(at + 1..)?)?)))
}

/// `A-B`: the pictures from A up to but without B.
fn passage(text: &str) -> Option<Range<u32>> {
    let (start, end) = text.split_once('-')?;
    Some(number_or_most(start)?..number_or_most(end)?)
}

/// Seconds, above 0.
fn patience(text: &str) -> Option<Duration> {
    number(text).filter(|&seconds| seconds > 0).map(|seconds| Duration::from_secs(seconds.into()))
}

/// `N` or `N/D`, both above 0.
fn rate(text: &str) -> Option<Time> {
    let (pictures, seconds) = text.split_once('/').unwrap_or((text, "1"));
    let (pictures, seconds) = (number(pictures)?, number(seconds)?);
    (pictures > 0 && seconds > 0).then_some(Time::Rate(pictures, seconds))
}
