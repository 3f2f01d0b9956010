//! What a lost count can hide (request R-10): how many runs of gaps have the same lost total.

use crate::lent;
use crate::opening::Refusal;
use crate::units::lost_between;
use std::io::{self, Write};

/// Most gaps of a run, each 0 to 15.
const MOST_GAPS: u32 = 15;

/// For each total from 0 to 14n the number of gap runs that lose so many cells.
fn runs(gaps: u32) -> Vec<u64> {
    let mut runs = vec![1];
    for _ in 0..gaps {
        let mut longer = vec![0; runs.len() + 14];
        for gap in 0..16 {
            let lost = lost_between(0, gap) as usize;
            runs.iter().zip(&mut longer[lost..]).for_each(|(&count, sum)| *sum += count);
        }
        runs = longer;
    }
    runs
}

/// Fills a lent table: the entries written, or 24, or 15.
pub fn fill(gaps: u32, table: &mut [u64]) -> Result<usize, Refusal> {
    if gaps > MOST_GAPS {
        return Err(Refusal::unplaced(24));
    }
    let runs = runs(gaps);
    match table.get_mut(..runs.len()) {
        Some(front) => front.copy_from_slice(&runs),
        None => return Err(Refusal::at(15, runs.len() as u64)),
    }
    Ok(runs.len())
}

/// The program: an entry a line.
pub fn print(gaps: u32, out: &mut impl Write) -> io::Result<()> {
    let mut table = [0; 14 * MOST_GAPS as usize + 1];
    match fill(gaps, &mut table) {
        Ok(length) => table[..length].iter().try_for_each(|entry| writeln!(out, "{entry}")),
        Err(Refusal { number, place }) => writeln!(out, "refused {number} {place}"),
    }
}

/// The call with a table of so many entries, whose bytes are printed afterwards.
pub fn print_call(gaps: u32, room: usize, out: &mut impl Write) -> io::Result<()> {
    lent::print_call(out, "gaps", 8 * room, |bytes| {
        let mut table: Vec<u64> = bytes.as_chunks().0.iter().map(|&entry| u64::from_le_bytes(entry)).collect();
        let answer = fill(gaps, &mut table);
        bytes.as_chunks_mut().0.iter_mut().zip(&table).for_each(|(bytes, entry)| *bytes = entry.to_le_bytes());
        answer
    })
}

#[cfg(test)]
mod tests {
    use super::*;

    #[test]
    fn all_runs_counted_one_by_one() {
        for gaps in 0..=4 {
            let mut counts = vec![0; 14 * gaps as usize + 1];
            for number in 0..1u32 << (4 * gaps) {
                let lost = |place: u32| lost_between(0, (number >> (4 * place)) as u8 & 15) as usize;
                counts[(0..gaps).map(lost).sum::<usize>()] += 1;
            }
            assert_eq!(runs(gaps), counts);
        }
    }

    #[test]
    fn entries_total_16_to_the_power_n() {
        for gaps in 0..=MOST_GAPS {
            let runs = runs(gaps);
            assert_eq!((runs.len() as u32, runs.iter().sum()), (14 * gaps + 1, 16u64.pow(gaps)));
            assert_eq!((runs[0], runs[runs.len() - 1]), (2u64.pow(gaps), 1));
        }
    }

    #[test]
    fn the_table_gets_its_entries_and_nothing_past_them() {
        let mut table = [7; 17];
        assert_eq!(fill(1, &mut table), Ok(15));
        assert_eq!(table, [2, 1, 1, 1, 1, 1, 1, 1, 1, 1, 1, 1, 1, 1, 1, 7, 7]);
        assert_eq!(fill(0, &mut table[16..]), Ok(1));
        assert_eq!(table[16], 1);
        assert_eq!(fill(2, &mut table[..14]), Err(Refusal::at(15, 29)));
        assert_eq!(fill(0, &mut []), Err(Refusal::at(15, 1)));
        assert_eq!(fill(16, &mut []), Err(Refusal::unplaced(24)));
        assert_eq!(table[14], 1);
    }

    #[test]
    fn lines_of_the_program_and_the_call() {
        let mut out = Vec::new();
        print(0, &mut out).unwrap();
        print(16, &mut out).unwrap();
        print_call(0, 2, &mut out).unwrap();
        print_call(1, 1, &mut out).unwrap();
        let lines = "1\nrefused 24 0\ngaps 1 0100000000000000a5a5a5a5a5a5a5a5\ngaps refused 15 15 a5a5a5a5a5a5a5a5\n";
        assert_eq!(String::from_utf8(out).unwrap(), lines);
    }
}
