//! Many records in one stream: a 32-bit little-endian length before each.

use crate::record;
use std::io::{self, Read, Write};

/// More than any record that `records` makes has.
const LONGEST: u64 = 4 * record::LONGEST as u64;

/// The next record, or nothing at the end.
pub fn next(mut from: impl Read) -> io::Result<Option<Vec<u8>>> {
    let mut head = Vec::new();
    (&mut from).take(4).read_to_end(&mut head)?;
    let Some(length) = head.first_chunk().map(|length| u32::from_le_bytes(*length)) else {
        return Ok(None);
    };
    let mut record = Vec::new();
    (&mut from).take(u64::from(length).min(LONGEST)).read_to_end(&mut record)?;
    Ok(Some(record))
}

pub fn put(out: &mut impl Write, record: &[u8]) -> io::Result<()> {
    out.write_all(&(record.len() as u32).to_le_bytes())?;
    out.write_all(record)
}
