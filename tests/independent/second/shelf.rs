//! The shelf (request R-13): records of any edition, one behind the other, above the reader of records.

use crate::opening::Refusal;
use crate::record::View;

/// Most records of a shelf.
const MOST_RECORDS: usize = 4_096;

/// Bytes before the offsets: the count and the total length.
const HEADER: usize = 8;

/// A shelf whose layout and whose records are all allowed.
pub struct Shelf<'s> {
    records: Vec<&'s [u8]>,
}

impl<'s> Shelf<'s> {
    /// Opens a shelf: 27, then 28 with the number of the first record that the reader refuses.
    pub fn open(bytes: &'s [u8]) -> Result<Self, Refusal> {
        let records = laid_out(bytes).ok_or(Refusal::unplaced(27))?;
        match records.iter().position(|record| View::open(record).is_err()) {
            Some(number) => Err(Refusal::at(28, number as u64)),
            None => Ok(Shelf { records }),
        }
    }

    pub fn count(&self) -> usize {
        self.records.len()
    }

    /// The part that is record j; 19 at or past the count.
    pub fn record(&self, number: u64) -> Result<&'s [u8], Refusal> {
        let number = usize::try_from(number).ok();
        number.and_then(|number| self.records.get(number)).copied().ok_or(Refusal::unplaced(19))
    }

    /// Lost cells of all units of all records.
    pub fn lost(&self) -> Result<u64, Refusal> {
        let mut total = 0;
        for record in &self.records {
            let view = View::open(record)?;
            for number in 0..view.units {
                total += u64::from(view.unit(number)?.lost);
            }
        }
        Ok(total)
    }
}

/// The parts that are records, if count, total length and offsets are as the request lays them out.
fn laid_out(bytes: &[u8]) -> Option<Vec<&[u8]>> {
    let count = word(bytes, 0)?;
    let total = word(bytes, 4)?;
    let first = HEADER + 4 * count;
    if count > MOST_RECORDS || bytes.len() < first || total != bytes.len() {
        return None;
    }
    // With the total length behind them, the offsets go up from the first place behind them all.
    let mut places: Vec<usize> = (0..count).map_while(|number| word(bytes, HEADER + 4 * number)).collect();
    places.push(total);
    let upward = places.windows(2).all(|pair| pair[0] < pair[1]);
    if places[0] != first || !upward {
        return None;
    }
    Some(places.windows(2).map(|pair| &bytes[pair[0]..pair[1]]).collect())
}

fn word(bytes: &[u8], place: usize) -> Option<usize> {
    let word = bytes.get(place..)?.first_chunk()?;
    usize::try_from(u32::from_le_bytes(*word)).ok()
}

/// A shelf of these records, in this order.
pub fn bind(records: &[Vec<u8>]) -> Vec<u8> {
    let mut place = HEADER + 4 * records.len();
    let total = place + records.iter().map(Vec::len).sum::<usize>();
    let mut words = vec![records.len(), total];
    for record in records {
        words.push(place);
        place += record.len();
    }
    let head = words.iter().flat_map(|&word| (word as u32).to_le_bytes());
    head.chain(records.iter().flatten().copied()).collect()
}

/// What `shelf check` prints.
pub fn check(bytes: &[u8]) -> String {
    let checked = Shelf::open(bytes).and_then(|shelf| Ok((shelf.count(), shelf.lost()?)));
    match checked {
        Ok((count, lost)) => format!("records {count} lost {lost}\n"),
        Err(refusal) => refused(refusal),
    }
}

/// What `shelf take` prints: the record's bytes, or the refusal's line.
pub fn take(bytes: &[u8], number: u64) -> Vec<u8> {
    let taken = Shelf::open(bytes).and_then(|shelf| shelf.record(number));
    taken.map_or_else(|refusal| refused(refusal).into_bytes(), <[u8]>::to_vec)
}

fn refused(Refusal { number, place }: Refusal) -> String {
    format!("refused {number} {place}\n")
}

#[cfg(test)]
mod tests {
    use super::*;
    use crate::records::allowed_record;

    /// Three records of 128 bytes or more, of different editions now and then.
    fn three() -> Vec<Vec<u8>> {
        (0..3).map(|seed| allowed_record(&mut crate::prng::Prng::new(seed))).collect()
    }

    #[test]
    fn records_of_a_shelf_and_their_lost_cells() {
        let records = three();
        let shelf = bind(&records);
        assert_eq!(shelf.len(), 8 + 12 + records.concat().len());
        let lost = |record: &Vec<u8>| -> u64 {
            let view = View::open(record).unwrap();
            (0..view.units).map(|number| u64::from(view.unit(number).unwrap().lost)).sum()
        };
        let total: u64 = records.iter().map(lost).sum();
        assert_eq!(check(&shelf), format!("records 3 lost {total}\n"));
        for (number, record) in records.iter().enumerate() {
            assert_eq!(take(&shelf, number as u64), *record);
        }
        for number in [3, u64::MAX] {
            assert_eq!(take(&shelf, number), b"refused 19 0\n");
        }
    }

    #[test]
    fn an_empty_shelf_has_8_bytes_in_all() {
        let empty = [0, 0, 0, 0, 8, 0, 0, 0];
        assert_eq!(check(&empty), "records 0 lost 0\n");
        assert_eq!(take(&empty, 0), b"refused 19 0\n");
        assert_eq!(check(&[0, 0, 0, 0, 9, 0, 0, 0, 1]), "refused 27 0\n");
        assert_eq!(check(&[0, 0, 0, 0, 9, 0, 0, 0]), "refused 27 0\n");
        assert_eq!(check(&[0, 0, 0, 0, 8, 0, 0, 0, 1]), "refused 27 0\n");
        assert_eq!(check(&empty[..7]), "refused 27 0\n");
    }

    #[test]
    fn layouts_that_are_refused() {
        let shelf = bind(&three());
        let changed = |place: usize, change: fn(u32) -> u32| {
            let mut shelf = shelf.clone();
            let word = u32::try_from(word(&shelf, place).unwrap()).unwrap();
            shelf[place..place + 4].copy_from_slice(&change(word).to_le_bytes());
            check(&shelf)
        };
        for place in [0, 4, 8] {
            assert_eq!(changed(place, |word| word + 1), "refused 27 0\n");
            assert_eq!(changed(place, |word| word - 1), "refused 27 0\n");
        }
        assert_eq!(changed(12, |_| 20), "refused 27 0\n");
        assert_eq!(changed(12, |_| u32::MAX), "refused 27 0\n");
        assert_eq!(changed(0, |_| u32::MAX), "refused 27 0\n");
        assert_eq!(check(&shelf[..shelf.len() - 1]), "refused 27 0\n");
        // The last offset may be any below the total length; the records are then cut elsewhere.
        assert_eq!(changed(16, |word| word - 1), "refused 28 1\n");
        let mut last = shelf.clone();
        last[16..20].copy_from_slice(&(shelf.len() as u32).to_le_bytes());
        assert_eq!(check(&last), "refused 27 0\n");
        last[16..20].copy_from_slice(&(shelf.len() as u32 - 1).to_le_bytes());
        assert_eq!(check(&last), "refused 28 1\n");
    }

    #[test]
    fn the_first_refused_record_and_the_greatest_count() {
        let mut records = three();
        records[1][0] = 5;
        records[2][0] = 0;
        assert_eq!(check(&bind(&records)), "refused 28 1\n");
        assert_eq!(take(&bind(&records), 0), b"refused 28 1\n");
        let record = three().swap_remove(0);
        assert!(check(&bind(&vec![record.clone(); 4_096])).starts_with("records 4096 lost "));
        assert_eq!(check(&bind(&vec![record; 4_097])), "refused 27 0\n");
    }
}
