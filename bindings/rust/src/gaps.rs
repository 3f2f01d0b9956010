use crate::{raw, Refusal};

/// How many runs of n gaps of a counter, each 0 to 15, have one lost total: `table[l]` gets the number of those that
/// lose l, for each l from 0 to 14 n.
///
/// Gives the number of entries, 14 n + 1; entries behind them stand. Refusal 24 is given for n above 15, and then 15
/// for a table that is shorter, with the number of entries needed as its place; both leave the table as it was.
///
/// ```
/// # fn main() -> Result<(), carolsedge::Refusal> {
/// let mut table = [0; 15];
/// assert_eq!(carolsedge::gap_runs(1, &mut table)?, 15);
/// assert_eq!(table, [2, 1, 1, 1, 1, 1, 1, 1, 1, 1, 1, 1, 1, 1, 1]); // 0 and 1 lose nothing
/// # Ok(())
/// # }
/// ```
pub fn gap_runs(n: u32, table: &mut [u64]) -> Result<usize, Refusal> {
    raw::gap_runs(n, table)
}
