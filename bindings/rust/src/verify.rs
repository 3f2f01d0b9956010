use crate::raw;
use crate::{Index, Record, Refusal};
use std::fmt;

/// Whether a record could have been sealed (`docs/RULE.md`, 30).
#[derive(Debug, Clone, Copy, PartialEq)]
pub enum Verdict {
    /// It has every mark of a sealed record. That somebody sealed it is not said: a record is not signed.
    CouldBeSealed(Reached),
    /// No seal leaves such a record.
    CouldNotBeSealed(Missing),
}

/// What the rows of a record add up to, and the index that they reach, which is the one in its header.
///
/// Printed it is the index with its sum: `3.25 = 1 + 4 x (75 / 100) x (3 / (3 + 1))`.
#[derive(Debug, Clone, Copy, PartialEq)]
pub struct Reached {
    /// Pictures that are not repeated.
    pub unrepeated: u64,
    /// Pictures.
    pub pictures: u64,
    /// Packets of all units.
    pub packets: u64,
    /// Lost packets of all units.
    pub lost: u64,
    /// Ic, Ip and the index.
    pub index: Index,
}

/// The first mark of a sealed record that a record does not have.
///
/// Printed it is a sentence: `unit 3 lost 45 packets; at most 42 can be missing before its packets`.
#[derive(Debug, Clone, Copy, PartialEq, Eq, Hash)]
pub struct Missing {
    /// Which mark it is.
    pub mark: Mark,
    /// The number of its unit or scene, from 0; 0 where it is about the whole record.
    pub row: usize,
    /// What was found; of [`Mark::Index`] the bits in the header.
    pub found: u64,
    /// The most or the least that may be there; of [`Mark::Index`] the bits that the rows reach.
    pub limit: u64,
}

/// What every sealed record has, in the order in which it is tried. As a number it is the rule's, 1 to 16.
#[derive(Debug, Clone, Copy, PartialEq, Eq, Hash)]
pub enum Mark {
    /// Frames and packets fit the longest capture.
    CaptureBytes = 1,
    /// Packets fit the frames that carried.
    FramePackets = 2,
    /// Scenes are no more than so many pictures can have.
    Scenes = 3,
    /// A unit lost no more than the gaps before its packets can hide.
    Lost = 4,
    /// A unit's times are below 2^32 seconds.
    Time = 5,
    /// A scene has a picture that is not repeated.
    Repeated = 6,
    /// The longest run of a scene is no longer than its repeated pictures are.
    Longest = 7,
    /// Runs of that length can hold its repeated pictures.
    Runs = 8,
    /// The greatest cut score of a scene is no more than their sum.
    PeakInSum = 9,
    /// A cut score is at most 1,000,000.
    Peak = 10,
    /// The sum of cut scores is what the greatest allows.
    Score = 11,
    /// The sum of changes is what 255 steps of brightness allow.
    Change = 12,
    /// Every scene but the first begins with a cut.
    Cut = 13,
    /// No scene begins with one of the last two pictures.
    First = 14,
    /// Every scene but the last is long enough.
    Length = 15,
    /// The index in the header is the one that the rows reach.
    Index = 16,
}

/// Every mark with its words: `{row}` is the number of the row, `{found}` and `{limit}` are the figures.
const MARKS: [(Mark, &str); 16] = [
    (Mark::CaptureBytes, "its frames and packets take {found} bytes; a capture has at most {limit}"),
    (Mark::FramePackets, "it has {found} packets; the frames that carried have room for at most {limit}"),
    (Mark::Scenes, "it has {found} scenes; so many pictures have at most {limit}"),
    (Mark::Lost, "unit {row} lost {found} packets; at most {limit} can be missing before its packets"),
    (Mark::Time, "unit {row} has a packet at {found} microseconds; a capture's times end at {limit}"),
    (Mark::Repeated, "scene {row} has {found} repeated pictures; at most {limit} of its pictures can be repeated"),
    (Mark::Longest, "scene {row} has a run of {found} repeated pictures; it has {limit} repeated pictures in all"),
    (Mark::Runs, "scene {row} has {found} repeated pictures; runs as long as its longest hold at most {limit}"),
    (Mark::PeakInSum, "scene {row} has a greatest cut score of {found}; the sum of its cut scores is {limit}"),
    (Mark::Peak, "scene {row} has a greatest cut score of {found}; a cut score is at most {limit}"),
    (Mark::Score, "scene {row} has cut scores of {found} in all; its greatest one allows at most {limit}"),
    (Mark::Change, "scene {row} has changes of {found} in all; its pictures allow at most {limit}"),
    (
        Mark::Cut,
        "scene {row} begins without a cut: its greatest cut score is {found}, and a cut has at least {limit}",
    ),
    (Mark::First, "scene {row} begins at picture {found}; no scene begins after picture {limit}"),
    (Mark::Length, "scene {row} lasts {found} microseconds; one that another follows lasts at least {limit}"),
    (Mark::Index, "index {found} is in the header, the rows reach {limit}"),
];

impl Mark {
    /// The rule's number, 1 to 16.
    pub fn number(self) -> u32 {
        self as u32
    }

    fn words(self) -> &'static str {
        MARKS.iter().find(|(mark, _)| *mark == self).map_or("", |(_, words)| words)
    }
}

/// Says of a whole record whether it could have been sealed, or gives refusal 16, 17 or 18.
pub fn verify(record: &[u8]) -> Result<Verdict, Refusal> {
    let [mark, row, found, limit, unrepeated, pictures, packets, lost, ic, ip, value] = raw::verify(record)?;
    if mark == 0 {
        let [ic, ip, value] = [ic, ip, value].map(f64::from_bits);
        let index = Index { ic, ip, value };
        return Ok(Verdict::CouldBeSealed(Reached { unrepeated, pictures, packets, lost, index }));
    }
    // The number is 1 to 16.
    let mark =
        MARKS.iter().find(|(known, _)| u64::from(known.number()) == mark).map_or(Mark::Index, |(mark, _)| *mark);
    Ok(Verdict::CouldNotBeSealed(Missing { mark, row: row as usize, found, limit }))
}

impl Record<'_> {
    /// Whether it could have been sealed. The record is tested again, and not refused.
    pub fn verify(&self) -> Result<Verdict, Refusal> {
        verify(self.bytes())
    }
}

impl fmt::Display for Reached {
    fn fmt(&self, f: &mut fmt::Formatter<'_>) -> fmt::Result {
        let Reached { unrepeated, pictures, packets, lost, index } = self;
        write!(f, "{:?} = 1 + 4 x ({unrepeated} / {pictures}) x ({packets} / ({packets} + {lost}))", index.value)
    }
}

impl fmt::Display for Missing {
    fn fmt(&self, f: &mut fmt::Formatter<'_>) -> fmt::Result {
        let figure = |figure: u64| match self.mark {
            Mark::Index => format!("{:?}", f64::from_bits(figure)),
            _ => grouped(figure),
        };
        let words = self.mark.words().replace("{row}", &self.row.to_string());
        f.write_str(&words.replace("{found}", &figure(self.found)).replace("{limit}", &figure(self.limit)))
    }
}

/// A number with its thousands parted: 1,234,567.
fn grouped(number: u64) -> String {
    let digits = number.to_string();
    let head = digits.len() % 3;
    let (head, rest) = digits.split_at(head);
    let groups = rest.as_bytes().chunks(3).map(|group| String::from_utf8_lossy(group).into_owned());
    let head = Some(head.to_string()).filter(|head| !head.is_empty());
    head.into_iter().chain(groups).collect::<Vec<_>>().join(",")
}
