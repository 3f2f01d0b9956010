//! A whole capture read straight from its bytes, without feeding: records, which of them carry, their cells.

use crate::cells::CELL;

/// A record of a capture: the bytes that are there of its L stored ones.
pub struct PlainRecord<'c> {
    pub stored: &'c [u8],
    pub length: usize,
}

/// The records behind a good file header; the last one may be unfinished.
pub fn records(capture: &[u8]) -> Vec<PlainRecord<'_>> {
    let mut records = Vec::new();
    let mut rest = capture.get(24..).unwrap_or_default();
    while let Some((head, behind)) = rest.split_first_chunk::<16>() {
        let length = u32::from_le_bytes([head[8], head[9], head[10], head[11]]) as usize;
        let (stored, next) = behind.split_at(length.min(behind.len()));
        records.push(PlainRecord { stored, length });
        rest = next;
    }
    records
}

impl<'c> PlainRecord<'c> {
    /// The whole cells of a record that carries; nothing if it is passed over, or too little of it is there to tell.
    pub fn cells(&self) -> Option<Vec<&'c [u8]>> {
        let head = self.stored.get(..42)?;
        let number = |place: usize| usize::from(head[place]) * 256 + usize::from(head[place + 1]);
        let (total, datagram) = (number(16), number(38));
        let addressed = head[12] == 8 && head[13] == 0 && head[14] == 0x45 && head[23] == 17;
        let unbroken = number(20) % 0x4000 == 0 && total == datagram + 20 && self.length >= 14 + total;
        if !addressed || !unbroken || datagram <= 8 || !(datagram - 8).is_multiple_of(CELL) {
            return None;
        }
        let end = (34 + datagram).min(self.stored.len());
        Some(self.stored[42..end].chunks_exact(CELL).collect())
    }
}

#[cfg(test)]
mod tests {
    use super::*;
    use crate::cells::{identifier, kind, Kind};
    use crate::make::{make, KINDS};
    use crate::opening::Opening;
    use crate::record::Index;
    use crate::sample::Sample;
    use crate::script::{read_call, read_opening, Call};

    /// Cells and lost over all units, from all whole cells one after the other.
    fn totals(capture: &[u8], opening: &Opening) -> (u32, u32) {
        let cells = records(capture).iter().filter_map(PlainRecord::cells).flatten().collect::<Vec<_>>();
        let counted = cells.into_iter().filter(|cell| match kind(&cell[..4]) {
            Kind::Bad => false,
            Kind::Damaged if opening.edition == 4 => false,
            _ => identifier(&cell[..4]) == opening.pid,
        });
        let counted: Vec<&[u8]> = counted.collect();
        let lost = counted.windows(2).map(|pair| {
            let gap = (16 + u32::from(pair[1][3] % 16) - u32::from(pair[0][3] % 16)) % 16;
            let spliced = pair[1][3] & 0x20 > 0 && pair[1][4] > 0 && pair[1][5] >= 0x80;
            if gap < 2 || (spliced && opening.edition > 1) { 0 } else { gap - 1 }
        });
        (counted.len() as u32, lost.sum())
    }

    /// Runs a script; after every feed the index is compared with the one worked out afresh. Indexes compared.
    fn compare_indexes(mut script: &[u8]) -> usize {
        let opening = read_opening(&mut script).unwrap();
        let mut sample = Sample::open(opening);
        let (mut capture, mut indexes) = (Vec::new(), 0);
        while let Some(call) = read_call(&mut script) {
            let fed = match call {
                Call::Capture(piece) => {
                    capture.extend(&piece);
                    sample.feed_capture(&piece)
                }
                Call::Luma(piece) => sample.feed_luma(&piece),
                _ => continue,
            };
            let (cells, lost) = totals(&capture, &opening);
            match sample.index() {
                Ok(index) => {
                    let unrepeated = sample.pictures() - sample.repeats(0, sample.pictures()).unwrap();
                    assert_eq!(index, Index::new(unrepeated, sample.pictures(), cells, lost));
                    indexes += 1;
                }
                Err(refusal) if refusal.number == 12 => assert_eq!(cells, 0),
                Err(refusal) => assert!(refusal.number == 14 || fed.is_err() || refusal.number <= 10),
            }
        }
        indexes
    }

    #[test]
    fn the_index_is_the_one_worked_out_afresh() {
        for kind in ["valid", "frames", "splices", "damaged", "tiny", "seals", "mixed"] {
            assert!(KINDS.iter().any(|(name, _)| *name == kind));
            let indexes: usize = (0..10)
                .map(|seed| {
                    let mut script = Vec::new();
                    assert!(make(seed, kind, &mut script).unwrap());
                    compare_indexes(&script)
                })
                .sum();
            assert!(indexes > 10, "{kind}: {indexes}");
        }
    }
}
