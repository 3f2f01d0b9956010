use crate::{raw, Refusal, RECORD_MOST};
use std::ops::Range;

/// No shelf has more records.
pub const SHELF_RECORDS_MOST: usize = 4_096;

/// No shelf is longer: 8 bytes, and for each of 4,096 records an offset of 4 and 32,064, 131,350,536 in all.
pub const SHELF_MOST: usize = 8 + SHELF_RECORDS_MOST * (4 + RECORD_MOST);

/// A shelf, over bytes that it borrows: at most 4,096 records of any editions behind a head of offsets. It and every
/// record of it are tested once, when it is read.
#[derive(Debug, Clone, Copy)]
pub struct Shelf<'a> {
    bytes: &'a [u8],
    records: usize,
    lost: u64,
}

impl<'a> Shelf<'a> {
    /// Tests a whole shelf, of which the slice holds every byte and no more, and every record of it, or gives refusal
    /// 27, or 28, whose place is the number of the first record that is refused, from 0.
    pub fn read(bytes: &'a [u8]) -> Result<Shelf<'a>, Refusal> {
        let [records, lost] = raw::shelf_open(bytes)?;
        Ok(Shelf { bytes, records: records as usize, lost })
    }

    /// How many records it holds.
    pub fn len(&self) -> usize {
        self.records
    }

    /// Whether it holds none.
    pub fn is_empty(&self) -> bool {
        self.records == 0
    }

    /// Lost packets of all units of all records.
    pub fn lost(&self) -> u64 {
        self.lost
    }

    /// Record j, from 0, or refusal 19. Nothing is tested again.
    pub fn record(&self, j: usize) -> Result<&'a [u8], Refusal> {
        let record =
            self.edge(j).zip(self.edge(j.saturating_add(1))).and_then(|(start, end)| self.bytes.get(start..end));
        record.filter(|_| j < self.records).ok_or(Refusal { number: 19, place: 0 })
    }

    /// The records, in order.
    pub fn records(&self) -> impl ExactSizeIterator<Item = &'a [u8]> + DoubleEndedIterator + 'a {
        let shelf = *self;
        // A shelf that was read has all its records.
        (0..self.records).map(move |j| shelf.record(j).unwrap_or_default())
    }

    // Where record j starts, and behind the last record the end: the head was tested when the shelf was read.
    fn edge(&self, j: usize) -> Option<usize> {
        if j == self.records {
            return Some(self.bytes.len());
        }
        let word = self.bytes.get(j.checked_mul(4)?.checked_add(8)?..)?.first_chunk()?;
        Some(u32::from_le_bytes(*word) as usize)
    }
}

/// The bytes of a shelf that are record j, from 0. The whole shelf is tested; refused: 27, 28, then 19.
pub fn shelf_part(shelf: &[u8], j: usize) -> Result<Range<usize>, Refusal> {
    let [start, end] = raw::shelf_part(shelf, j)?;
    Ok(start as usize..end as usize)
}

/// Writes the shelf of some records to the front of a buffer and gives its length. The records lie end to end, without
/// gaps, and `lengths` has the length of each. Refused: 27 where they are more than 4,096 or their lengths do not add
/// up, 28, whose place is the number of the first one that is refused, then 15 with the length needed; the buffer
/// stands.
pub fn shelf_write(records: &[u8], lengths: &[u32], buffer: &mut [u8]) -> Result<usize, Refusal> {
    raw::shelf_write(records, lengths, buffer)
}

/// The shelf of these records, in this order. Refused: 27 where they are more than 4,096, then 28, whose place is the
/// number of the first one that is refused.
pub fn shelf_of(records: &[impl AsRef<[u8]>]) -> Result<Vec<u8>, Refusal> {
    let (mut all, mut lengths) = (Vec::new(), Vec::new());
    // One record above the most, or one byte above the longest record, is refused whatever follows.
    for record in records.iter().take(SHELF_RECORDS_MOST + 1) {
        let record = record.as_ref();
        let record = record.get(..RECORD_MOST + 1).unwrap_or(record);
        all.extend(record);
        lengths.push(record.len() as u32);
    }
    let mut shelf = vec![0; 8 + 4 * lengths.len() + all.len()];
    shelf_write(&all, &lengths, &mut shelf)?;
    Ok(shelf)
}
