use crate::raw::{self, Figures, SceneFigures, UnitFigures};
use crate::Refusal;

/// The figures of a record's header.
#[derive(Debug, Clone, Copy, PartialEq)]
pub struct Header {
    /// The edition of the rules that it was measured by.
    pub edition: u32,
    /// How many units the record has.
    pub units: usize,
    /// How many scenes the record has.
    pub scenes: usize,
    /// Width W of a picture.
    pub width: u32,
    /// Height H of a picture.
    pub height: u32,
    /// Display time d of a picture, in microseconds.
    pub time: u32,
    /// The identifier of the measured packets.
    pub pid: u32,
    /// Pictures.
    pub pictures: u32,
    /// Frames of the capture.
    pub frames: u32,
    /// Frames that carry no packets.
    pub skipped: u32,
    /// Packets that do not begin with 0x47; by edition 4 also damaged ones before the first unit.
    pub bad: u32,
    /// The index, as the record's bits give it: of a sealed record 1 + Ic × Ip, from 1 to 5. The reader tests no bits
    /// of it. It is no MOS.
    pub index: f64,
}

/// A row of the units.
#[derive(Debug, Clone, Copy, Default, PartialEq, Eq, Hash)]
pub struct Unit {
    /// Least time of its packets, in microseconds.
    pub least: u64,
    /// Greatest time of its packets, in microseconds.
    pub greatest: u64,
    /// 184 for each packet.
    pub size: u32,
    /// Packets.
    pub packets: u32,
    /// Packets that the gaps of the counter say are missing.
    pub lost: u32,
    /// Packets that are marked as damaged, which count nowhere else: 0 in editions 1 to 3.
    pub damaged: u32,
}

impl Unit {
    fn of([least, greatest, size, packets, lost, damaged]: UnitFigures) -> Unit {
        let [size, packets, lost, damaged] = [size, packets, lost, damaged].map(|figure| figure as u32);
        Unit { least, greatest, size, packets, lost, damaged }
    }
}

/// A row of the scenes.
#[derive(Debug, Clone, Copy, Default, PartialEq, Eq, Hash)]
pub struct Scene {
    /// Its first picture, from 0.
    pub first: u32,
    /// Pictures.
    pub pictures: u32,
    /// Pictures that repeat the one before.
    pub repeated: u32,
    /// The longest run of repeated pictures.
    pub longest: u32,
    /// Sum of the cut scores.
    pub score: u32,
    /// Greatest cut score.
    pub peak: u32,
    /// Sum of the changes.
    pub change: u32,
}

impl Scene {
    fn of(row: SceneFigures) -> Scene {
        let [first, pictures, repeated, longest, score, peak, change] = row.map(|figure| figure as u32);
        Scene { first, pictures, repeated, longest, score, peak, change }
    }
}

/// A record that the rule allows, over bytes that it borrows.
#[derive(Debug, Clone, Copy)]
pub struct Record<'a> {
    bytes: &'a [u8],
    figures: Figures,
}

impl<'a> Record<'a> {
    /// Tests a whole record, of which the slice holds every byte and no more, or gives refusal 16, 17 or 18.
    pub fn read(bytes: &'a [u8]) -> Result<Record<'a>, Refusal> {
        let figures = raw::read_header(bytes)?;
        Ok(Record { bytes, figures })
    }

    /// The bytes that it was read from.
    pub(crate) fn bytes(&self) -> &'a [u8] {
        self.bytes
    }

    /// The header's figures.
    pub fn header(&self) -> Header {
        let [edition, units, scenes, width, height, time, pid, pictures, frames, skipped, bad, index] = self.figures;
        Header {
            edition: edition as u32,
            units: units as usize,
            scenes: scenes as usize,
            width: width as u32,
            height: height as u32,
            time: time as u32,
            pid: pid as u32,
            pictures: pictures as u32,
            frames: frames as u32,
            skipped: skipped as u32,
            bad: bad as u32,
            index: f64::from_bits(index),
        }
    }

    /// Unit row j, from 0, or refusal 19. The record is tested again.
    pub fn unit(&self, j: usize) -> Result<Unit, Refusal> {
        raw::read_unit(self.bytes, j).map(Unit::of)
    }

    /// Scene row j, from 0, or refusal 19. The record is tested again.
    pub fn scene(&self, j: usize) -> Result<Scene, Refusal> {
        raw::read_scene(self.bytes, j).map(Scene::of)
    }

    /// The units, in order. All rows are read at once; the record is tested again, once.
    pub fn units(&self) -> impl ExactSizeIterator<Item = Unit> + DoubleEndedIterator + 'a {
        let mut rows = vec![UnitFigures::default(); self.header().units];
        // Nothing is refused: these are the bytes that `read` tested, and as many rows as it counted.
        let count = raw::read_units(self.bytes, &mut rows);
        debug_assert_eq!(count, Ok(rows.len()));
        rows.into_iter().map(Unit::of)
    }

    /// The scenes, in order. All rows are read at once; the record is tested again, once.
    pub fn scenes(&self) -> impl ExactSizeIterator<Item = Scene> + DoubleEndedIterator + 'a {
        let mut rows = vec![SceneFigures::default(); self.header().scenes];
        // Nothing is refused, as of the units.
        let count = raw::read_scenes(self.bytes, &mut rows);
        debug_assert_eq!(count, Ok(rows.len()));
        rows.into_iter().map(Scene::of)
    }
}

/// Prints a record's sheet to the front of the buffer, in lines of 100 columns and a line feed, on pages of 60 lines,
/// and gives its length. Refused: 16, 17 or 18, then 15, whose place is the length needed; the buffer then stands.
pub fn sheet(record: &[u8], buffer: &mut [u8]) -> Result<usize, Refusal> {
    raw::sheet(record, buffer)
}
