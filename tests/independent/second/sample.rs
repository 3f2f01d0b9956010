//! A sample: opened, fed on two sides, sealed into a record.

use crate::capture::Capture;
use crate::cells::SampleCells;
use crate::lent;
use crate::luma::LumaSide;
use crate::opening::{Opening, Refusal};
use crate::record::{self, Figures, Index};

/// The two sides of an opening that wasn't refused.
struct Sides {
    capture: Capture<SampleCells>,
    luma: LumaSide,
}

pub struct Sample {
    opening: Opening,
    sides: Result<Box<Sides>, Refusal>,
}

impl Sample {
    /// Opens a sample. A refused opening leaves a state that answers every call with its number.
    pub fn open(opening: Opening) -> Self {
        let sides = opening.check().map(|()| {
            let capture = Capture::new(SampleCells::new(&opening));
            Box::new(Sides { capture, luma: LumaSide::new(&opening) })
        });
        Sample { opening, sides }
    }

    pub fn opened(&self) -> Result<(), Refusal> {
        self.sides.as_ref().map(|_| ()).map_err(|&refusal| refusal)
    }

    pub fn feed_capture(&mut self, piece: &[u8]) -> Result<usize, Refusal> {
        self.sides.as_mut().map_err(|refusal| *refusal)?.capture.feed(piece)
    }

    pub fn feed_luma(&mut self, piece: &[u8]) -> Result<usize, Refusal> {
        self.sides.as_mut().map_err(|refusal| *refusal)?.luma.feed(piece)
    }

    /// The index of all whole pictures and all whole cells: refusals of the opening, 4 to 10, 12, 14.
    pub fn index(&self) -> Result<Index, Refusal> {
        let Sides { capture, luma } = &**self.sides.as_ref().map_err(|&refusal| refusal)?;
        if let Some(refusal) = capture.refusal().or(luma.refusal()) {
            return Err(refusal);
        }
        let (cells, lost) = capture.cells.whole(capture.unfinished_cell());
        if cells == 0 {
            return Err(Refusal::unplaced(12));
        }
        if luma.film.pictures() == 0 {
            return Err(Refusal::unplaced(14));
        }
        Ok(Index::new(luma.film.unrepeated(), luma.film.pictures(), cells, lost))
    }

    /// Repeated pictures of a passage: the opening's refusal, then 26.
    pub fn repeats(&self, first: u32, end: u32) -> Result<u32, Refusal> {
        let film = &self.sides.as_ref().map_err(|&refusal| refusal)?.luma.film;
        if first > end || end > film.pictures() {
            return Err(Refusal::unplaced(26));
        }
        Ok(film.repeated_in(first as usize, end as usize))
    }

    /// Whole pictures fed; none after a refused opening.
    pub fn pictures(&self) -> u32 {
        self.sides.as_ref().map_or(0, |sides| sides.luma.film.pictures())
    }

    /// Seals into a buffer: the record's length, or the first of all refusals that hold.
    pub fn seal(&self, buffer: &mut [u8]) -> Result<usize, Refusal> {
        lent::fill(buffer, &self.record()?)
    }

    /// The record, unless refusals up to 14 stand against it.
    pub fn record(&self) -> Result<Vec<u8>, Refusal> {
        let sides = self.sides.as_ref().map_err(|&refusal| refusal)?;
        sides.ready()?;
        let Sides { capture, luma } = &**sides;
        let units = capture.cells.units.rows();
        let (cells, lost) = capture.cells.units.totals();
        let index = Index::new(luma.film.unrepeated(), luma.film.pictures(), cells, lost);
        let figures = Figures {
            opening: self.opening,
            pictures: luma.film.pictures(),
            records: capture.records,
            passed_over: capture.passed_over,
            bad_cells: capture.cells.bad,
            index_bits: index.index.to_bits(),
        };
        Ok(record::write(&figures, units, &luma.film.scenes(self.opening.display_time)))
    }
}

impl Sides {
    /// Refusals 4 to 9, then 10 to 14, in order.
    fn ready(&self) -> Result<(), Refusal> {
        let Sides { capture, luma } = self;
        if let Some(refusal) = capture.refusal().or(luma.refusal()) {
            return Err(refusal);
        }
        if !capture.between_records() {
            return Err(Refusal::at(11, capture.bytes_fed()));
        }
        if capture.cells.units.rows().is_empty() {
            return Err(Refusal::unplaced(12));
        }
        if !luma.between_pictures() {
            return Err(Refusal::at(13, luma.bytes_fed()));
        }
        if luma.film.pictures() == 0 {
            return Err(Refusal::unplaced(14));
        }
        Ok(())
    }
}

#[cfg(test)]
mod tests {
    use super::*;
    use crate::record::show;

    const OPENING: Opening = Opening { width: 30, height: 30, display_time: 40_000, pid: 256, edition: 1 };

    /// The capture of document 01's example: one record at 10 s 5 µs with one cell of PID 256.
    fn example_capture() -> Vec<u8> {
        let mut capture = vec![0; 24];
        capture[..4].copy_from_slice(&[0xD4, 0xC3, 0xB2, 0xA1]);
        capture[20] = 1;
        capture.extend([10u32, 5, 230, 230].iter().flat_map(|word| word.to_le_bytes()));
        let mut frame = vec![0; 230];
        frame[12..15].copy_from_slice(&[8, 0, 0x45]);
        frame[16..18].copy_from_slice(&216u16.to_be_bytes());
        frame[23] = 17;
        frame[38..40].copy_from_slice(&196u16.to_be_bytes());
        frame[42..46].copy_from_slice(&[0x47, 1, 0, 0]);
        capture.extend(frame);
        capture
    }

    fn seal(sample: &Sample, length: usize) -> (Result<usize, (u32, u64)>, Vec<u8>) {
        let mut buffer = vec![0xA5; length];
        let answer = sample.seal(&mut buffer);
        (answer.map_err(|refusal| (refusal.number, refusal.place)), buffer)
    }

    #[test]
    fn the_example_by_every_piece_length() {
        for piece in 1..=300 {
            let mut sample = Sample::open(OPENING);
            assert_eq!(seal(&sample, 200).0, Err((11, 0)));
            for bytes in example_capture().chunks(piece) {
                assert_eq!(sample.feed_capture(bytes), Ok(bytes.len()));
            }
            assert_eq!(seal(&sample, 200).0, Err((14, 0)));
            for bytes in [0; 1800].chunks(piece) {
                assert_eq!(sample.feed_luma(bytes), Ok(bytes.len()));
            }
            let (answer, buffer) = seal(&sample, 130);
            assert_eq!((answer, &buffer[128..]), (Ok(128), &[0xA5, 0xA5][..]));
            assert_eq!(seal(&sample, 127), (Err((15, 128)), vec![0xA5; 127]));
            let lines = "sample 30 30 40000 256 2 1 0 0 4008000000000000\n\
                         unit 0 10000005 10000005 184 1 0\n\
                         scene 0 0 2 1 1 0 0 0\n";
            assert_eq!(show(&buffer[..128]), lines);
            sample.feed_luma(&[1]).unwrap();
            assert_eq!(seal(&sample, 200).0, Err((13, 1801)));
        }
    }

    #[test]
    fn capture_refusals_stand_at_the_last_byte_of_their_field() {
        let faults = [(0, 0xA1, 5, 3), (3, 0, 5, 3), (20, 101, 6, 23), (31, 1, 7, 31), (34, 1, 8, 35)];
        for (place, value, number, at) in faults {
            let mut capture = example_capture();
            capture[place] = value;
            for piece in 1..=60 {
                let mut sample = Sample::open(OPENING);
                let mut fed = 0;
                for bytes in capture.chunks(piece) {
                    fed += bytes.len();
                    let answer = if fed > at { Err(Refusal::at(number, at as u64)) } else { Ok(bytes.len()) };
                    assert_eq!(sample.feed_capture(bytes), answer);
                }
                assert_eq!(seal(&sample, 500).0, Err((number, at as u64)));
            }
        }
    }

    /// The capture of a cell with counter 0 and one with counter 5 and these bytes 3 (high half), 4 and 5.
    fn spliced_capture(bytes: [u8; 3]) -> Vec<u8> {
        let mut capture = example_capture();
        let at = capture.len() - 188;
        capture.extend_from_within(at..);
        for place in [24 + 8, 24 + 12] {
            capture[place..place + 2].copy_from_slice(&418u16.to_le_bytes());
        }
        capture[40 + 16..40 + 18].copy_from_slice(&404u16.to_be_bytes());
        capture[40 + 38..40 + 40].copy_from_slice(&384u16.to_be_bytes());
        capture[at + 188 + 3..][..3].copy_from_slice(&[bytes[0] | 5, bytes[1], bytes[2]]);
        capture
    }

    #[test]
    fn a_splice_forgives_its_own_gap_from_edition_2_on() {
        let cells = [([0x30, 1, 0x80], true), ([0x20, 255, 0xFF], true), ([0x30, 0, 0x80], false)];
        let others = [([0x10, 1, 0x80], false), ([0xD0, 1, 0x80], false), ([0x30, 1, 0x7F], false)];
        for (bytes, spliced) in cells.into_iter().chain(others) {
            for edition in [1, 2, 3, 4] {
                let lost = if spliced && edition > 1 { 0 } else { 4 };
                let capture = spliced_capture(bytes);
                for piece in 1..=capture.len() {
                    let mut sample = Sample::open(Opening { edition, ..OPENING });
                    for bytes in capture.chunks(piece) {
                        assert_eq!(sample.feed_capture(bytes), Ok(bytes.len()));
                    }
                    sample.feed_luma(&[0; 900]).unwrap();
                    let record = sample.record().unwrap();
                    assert_eq!((record[0], record[64 + 20], record[64 + 24]), (edition as u8, 2, lost));
                }
            }
        }
    }

    /// A sample of edition 4 that is fed one record a cell, each at a second of its own, by these bytes 0, 1 and 3.
    fn sample_of_cells(cells: &[[u8; 3]]) -> Sample {
        let mut sample = Sample::open(Opening { edition: 4, ..OPENING });
        sample.feed_capture(&example_capture()[..24]).unwrap();
        for (second, cell) in cells.iter().enumerate() {
            let mut record = example_capture().split_off(24);
            record[0] = second as u8;
            record[16 + 42..16 + 44].copy_from_slice(&cell[..2]);
            record[16 + 45..16 + 48].copy_from_slice(&[cell[2], 1, 0x80]);
            sample.feed_capture(&record).unwrap();
        }
        sample.feed_luma(&[0; 900]).unwrap();
        sample
    }

    #[test]
    fn a_damaged_cell_adds_one_to_its_unit_and_nothing_else() {
        // Good with counter 3, damaged with a start mark, damaged and spliced, good with counter 6.
        let mut cells = vec![[0x47, 0x41, 3], [0x47, 0xC1, 9], [0x47, 0x81, 0x3A], [0x47, 0x01, 6]];
        let record = sample_of_cells(&cells).record().unwrap();
        assert_eq!(show(&record).lines().nth(1), Some("unit 0 5 3000005 368 2 2"));
        assert_eq!((record.len(), record[0], record[52], record[64 + 28]), (128, 4, 0, 2));
        // Damaged ones last: times stay as they were.
        cells.extend([[0x47, 0x81, 0], [0x47, 0xE1, 0], [0x46, 0x81, 0]]);
        let record = sample_of_cells(&cells).record().unwrap();
        assert_eq!(show(&record).lines().nth(1), Some("unit 0 5 3000005 368 2 2"));
        assert_eq!((record[52], record[64 + 28]), (1, 4));
    }

    #[test]
    fn before_the_first_unit_a_damaged_cell_is_bad() {
        let sample = sample_of_cells(&[[0x47, 0xC1, 3], [0x47, 0x81, 9]]);
        assert_eq!(seal(&sample, 500).0, Err((12, 0)));
        let sample = sample_of_cells(&[[0x47, 0xC1, 3], [0x47, 0x81, 9], [0x47, 0x01, 1], [0x47, 0x81, 7]]);
        let record = sample.record().unwrap();
        assert_eq!(show(&record).lines().nth(1), Some("unit 0 2000005 2000005 184 1 0"));
        assert_eq!((record[52], record[64 + 28]), (2, 1));
    }

    /// Request R-7, byte by byte from several places on.
    #[test]
    fn the_index_counts_whole_cells_and_whole_pictures() {
        for edition in [1, 2] {
            let capture = spliced_capture([0x30, 1, 0x80]);
            let lost = if edition == 1 { 4.0 } else { 0.0 };
            let first_end = capture.len() - 188;
            for start in [0, 41, first_end - 188, first_end - 4, first_end, first_end + 3] {
                let mut sample = Sample::open(Opening { edition, ..OPENING });
                assert_eq!(sample.index(), Err(Refusal::unplaced(12)));
                sample.feed_luma(&[0; 899]).unwrap();
                sample.feed_capture(&capture[..start]).unwrap();
                for fed in start..capture.len() {
                    let refusal = if fed < first_end { 12 } else { 14 };
                    assert_eq!(sample.index(), Err(Refusal::unplaced(refusal)), "{fed} bytes");
                    sample.feed_capture(&capture[fed..=fed]).unwrap();
                }
                sample.feed_luma(&[0]).unwrap();
                let index = sample.index().unwrap();
                assert_eq!((index.continuity, index.packets), (4.0, 2.0 / (2.0 + lost)));
                assert_eq!(index.index.to_bits().to_le_bytes(), sample.record().unwrap()[56..64]);
                let mut shorter = Sample::open(Opening { edition, ..OPENING });
                shorter.feed_luma(&[0; 901]).unwrap();
                shorter.feed_capture(&capture[..capture.len() - 1]).unwrap();
                assert_eq!(shorter.index().unwrap().packets, 1.0);
            }
        }
    }

    #[test]
    fn refusals_of_the_index_come_in_their_order() {
        let mut sample = Sample::open(Opening { edition: 5, ..OPENING });
        let _ = sample.feed_capture(&[0; 24]);
        assert_eq!(sample.index(), Err(Refusal::unplaced(20)));
        let mut sample = Sample::open(Opening { width: 15, ..OPENING });
        assert_eq!(sample.feed_luma(&vec![0; 450 * 751]), Err(Refusal::at(10, 337_500)));
        assert_eq!(sample.index(), Err(Refusal::at(10, 337_500)));
        let _ = sample.feed_capture(&[0; 24]);
        assert_eq!(sample.index(), Err(Refusal::at(5, 3)));
    }

    #[test]
    fn repeats_of_every_passage_are_counted_over_the_pictures() {
        let mut random = crate::prng::Prng::new(12);
        let mut sample = Sample::open(Opening { width: 15, ..OPENING });
        let mut repeated = Vec::new();
        let mut values = vec![0u8];
        for i in 0..200 {
            let before = values[values.len() - 1];
            let value = if random.once_in(3) { before.wrapping_add(1) } else { before };
            repeated.push(i > 0 && value == before);
            values.push(value);
            sample.feed_luma(&[value; 450]).unwrap();
        }
        sample.feed_luma(&[0; 449]).unwrap();
        let _ = sample.feed_capture(&[0; 4]);
        for first in 0..=200 {
            for end in first..=200 {
                let count = repeated[first..end].iter().filter(|&&repeated| repeated).count();
                assert_eq!(sample.repeats(first as u32, end as u32), Ok(count as u32));
            }
        }
        for (first, end) in [(1, 0), (0, 201), (201, 201), (200, 199), (u32::MAX, u32::MAX)] {
            assert_eq!(sample.repeats(first, end), Err(Refusal::unplaced(26)));
        }
        let refused = Sample::open(Opening { edition: 0, ..OPENING });
        assert_eq!(refused.repeats(1, 0), Err(Refusal::unplaced(20)));
    }

    #[test]
    fn refusal_10_does_not_stop_the_count_of_repeats() {
        let mut sample = Sample::open(Opening { width: 15, ..OPENING });
        let _ = sample.feed_luma(&vec![0; 450 * 752]);
        assert_eq!(sample.index(), Err(Refusal::at(10, 337_500)));
        assert_eq!(sample.repeats(0, 750), Ok(749));
        assert_eq!(sample.repeats(1, 751), Err(Refusal::unplaced(26)));
    }

    #[test]
    fn the_751st_unit_is_refused_at_byte_3_of_its_cell() {
        let mut record = example_capture().split_off(24);
        record[16 + 42 + 1] |= 0x40;
        record[16 + 42 + 3] |= 0x20;
        let mut capture = example_capture()[..24].to_vec();
        capture.extend(record.repeat(751));
        let place = 24 + 750 * 246 + 16 + 42 + 3;
        for (edition, piece) in [(1, 1), (1, 1_000), (2, 1), (2, 7), (2, capture.len())] {
            let mut sample = Sample::open(Opening { edition, ..OPENING });
            let mut fed = 0;
            for bytes in capture.chunks(piece) {
                fed += bytes.len();
                let answer = if fed > place { Err(Refusal::at(9, place as u64)) } else { Ok(bytes.len()) };
                assert_eq!(sample.feed_capture(bytes), answer);
            }
        }
    }

    #[test]
    fn the_751st_picture_and_a_header_alone() {
        let opening = Opening { width: 15, height: 30, ..OPENING };
        let mut sample = Sample::open(opening);
        assert_eq!(sample.feed_luma(&vec![3; 450 * 750]), Ok(450 * 750));
        sample.feed_capture(&example_capture()[..24]).unwrap();
        assert_eq!(seal(&sample, 0).0, Err((12, 0)));
        assert_eq!(sample.feed_luma(&[]), Ok(0));
        assert_eq!(sample.feed_luma(&[3]), Err(Refusal::at(10, 337_500)));
        assert_eq!(sample.feed_luma(&[]), Err(Refusal::at(10, 337_500)));
        sample.feed_capture(&example_capture()[24..]).unwrap();
        assert_eq!(seal(&sample, 500).0, Err((10, 337_500)));
    }

    #[test]
    fn the_capture_limit() {
        let mut sample = Sample::open(OPENING);
        let mut frame = 65_535u32.to_le_bytes().to_vec();
        frame.splice(..0, [0; 8]);
        frame.resize(16 + 65_535, 0);
        let mut fed = sample.feed_capture(&example_capture()).unwrap();
        while fed + frame.len() <= 268_435_456 {
            fed += sample.feed_capture(&frame).unwrap();
        }
        fed += sample.feed_capture(&frame[..268_435_456 - fed]).unwrap();
        assert_eq!(seal(&sample, 0).0, Err((11, fed as u64)));
        assert_eq!(sample.feed_capture(&[]), Ok(0));
        assert_eq!(sample.feed_capture(&[0]), Err(Refusal::at(4, 268_435_456)));
        assert_eq!(seal(&sample, 0).0, Err((4, 268_435_456)));
    }
}
