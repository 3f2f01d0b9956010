//! Runs of gaps from Rust: counted one by one for few gaps, their total for all, and refusals that leave the table as
//! it was.
use carolsedge::{gap_runs, Refusal};

const MARK: u64 = 0xA5A5_A5A5_A5A5_A5A5;

// The lost totals of all runs of n gaps, counted one by one.
fn counted(n: u32) -> Vec<u64> {
    let mut table = vec![0; 14 * n as usize + 1];
    for run in 0..16u64.pow(n) {
        let lost: u64 = (0..n).map(|i| (run >> (4 * i) & 15).saturating_sub(1)).sum();
        table[lost as usize] += 1;
    }
    table
}

#[test]
fn every_n() {
    for n in 0..=15u32 {
        let size = 14 * n as usize + 1;
        let mut table = vec![MARK; size + 3];
        assert_eq!(gap_runs(n, &mut table), Ok(size));
        assert_eq!(table[size..], [MARK; 3]);
        assert_eq!(table[..size].iter().map(|&x| u128::from(x)).sum::<u128>(), 16u128.pow(n));
        if n <= 5 {
            assert_eq!(table[..size], counted(n));
        }
    }
}

#[test]
fn refused() {
    for n in [16, 17, u32::MAX] {
        let mut table = vec![MARK; 300];
        assert_eq!(gap_runs(n, &mut table), Err(Refusal { number: 24, place: 0 }));
        assert_eq!(gap_runs(n, &mut []), Err(Refusal { number: 24, place: 0 }));
        assert_eq!(table, [MARK; 300]);
    }
    for n in 0..=15u32 {
        let size = 14 * n as usize + 1;
        let mut table = vec![MARK; size - 1];
        assert_eq!(gap_runs(n, &mut table), Err(Refusal { number: 15, place: size as u64 }));
        assert!(table.iter().all(|&x| x == MARK));
    }
}
