use crate::{raw, Refusal};

/// The units of RTP packets, which come without transport packets: four lists of equal length with a row for each
/// packet in arrival order: its sequence number, whether its marker is set, its time and its length in bytes.
///
/// Unit rows of 32 bytes, laid out as in a record, go to the front of the buffer, and their number is given; bytes
/// behind them stand. Refusal 25 is given unless there are 1 to 4,096 rows in equal lists, then 15 for a buffer that
/// is too short, with the length needed as its place; both leave the buffer as it was. Takes up to 67,584 bytes of
/// stack.
///
/// ```
/// # fn main() -> Result<(), carolsedge::Refusal> {
/// // 65,535 and 1 arrived, and 0 is missing between them; the second has the marker.
/// let mut rows = [0; 32];
/// assert_eq!(carolsedge::rtp_units(&[65_535, 1], &[false, true], &[10, 20], &[100, 50], &mut rows)?, 1);
/// assert_eq!(rows[24..28], 1u32.to_le_bytes()); // lost
/// # Ok(())
/// # }
/// ```
pub fn rtp_units(
    sequence: &[u16],
    marker: &[bool],
    time: &[u64],
    length: &[u16],
    buffer: &mut [u8],
) -> Result<usize, Refusal> {
    raw::rtp_units(sequence, marker, time, length, buffer)
}
