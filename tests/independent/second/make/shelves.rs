//! Random shelves (request R-13), allowed or damaged.

use crate::prng::Prng;
use crate::records::{allowed_record, random_record};
use crate::shelf::bind;

/// The shelf of a seed.
pub fn shelf(seed: u64) -> Vec<u8> {
    let mut random = Prng::new(Prng::new(seed).next());
    let count = match random.below(60) {
        0 => random.pick(&[4_096, 4_097]),
        1..=3 => 0,
        4..=9 => 1,
        _ => random.between(2, 9),
    };
    let mut records: Vec<Vec<u8>> = (0..count.min(9)).map(|_| allowed_record(&mut random)).collect();
    while records.len() < count {
        records.push(records[records.len() % 9].clone());
    }
    let damaged = random.below(6);
    if damaged == 0 && count > 0 {
        // Any record, damaged in its own ways: now and then it is still allowed.
        for _ in 0..random.between(1, 2) {
            let place = random.below(count);
            records[place] = random_record(random.next());
        }
        records.retain(|record| !record.is_empty());
    }
    let mut shelf = bind(&records);
    if damaged <= 2 && damaged > 0 {
        damage(&mut random, &mut shelf, count);
    }
    shelf
}

/// Damages the layout: a word of the head, or the length of all.
fn damage(random: &mut Prng, shelf: &mut Vec<u8>, count: usize) {
    let words = 2 + count;
    match random.below(8) {
        0 => shelf.truncate(random.pick(&[0, 4, 7, 8, 9, 11, 12])),
        1 => shelf.truncate(random.below(shelf.len())),
        2 => {
            let more = random.between(1, 130);
            shelf.extend(random.bytes(more));
        }
        3 => {
            // Bytes more or less, with a total length that knows of them.
            let length = random.pick(&[shelf.len() + 1, shelf.len() + 32, shelf.len() - 1]);
            shelf.resize(length, 0);
            set(shelf, 1, length as u32);
        }
        4 => {
            // A record's offset instead of the next one's, or the total length instead of the last offset.
            let from = random.below(words);
            let word = get(shelf, from);
            set(shelf, random.below(words), word);
        }
        _ => {
            let place = random.below(words);
            let word = get(shelf, place);
            let changes = [word.wrapping_add(1), word.wrapping_sub(1), word ^ 0x8000_0000, u32::MAX, 0, 4_097];
            set(shelf, place, random.pick(&changes));
        }
    }
}

fn get(shelf: &[u8], number: usize) -> u32 {
    shelf.get(4 * number..).and_then(|bytes| bytes.first_chunk()).map_or(0, |bytes| u32::from_le_bytes(*bytes))
}

fn set(shelf: &mut [u8], number: usize, word: u32) {
    if let Some(place) = shelf.get_mut(4 * number..4 * number + 4) {
        place.copy_from_slice(&word.to_le_bytes());
    }
}

#[cfg(test)]
mod tests {
    use super::*;
    use crate::shelf::check;

    #[test]
    fn both_refusals_occur_and_most_shelves_are_good() {
        let outputs: Vec<String> = (0..300).map(|seed| check(&shelf(seed))).collect();
        let count = |start: &str| outputs.iter().filter(|output| output.starts_with(start)).count();
        assert!(count("refused 27 0\n") > 20 && count("refused 28 ") > 10 && count("records 0 lost 0\n") > 0);
        assert!(count("records ") > 150);
    }
}
