use crate::{raw, Refusal};

/// The greatest number of scenes that so many pictures, 1 to 750, of one display time in microseconds can have.
///
/// No sample has more, and the luma of [`busiest_luma`] has that many. Refusal 2 is given for the display time, then
/// 14 for no picture or 10 for more than 750.
///
/// ```
/// assert_eq!(carolsedge::most_scenes(40_000, 17), Ok(1)); // a start has two pictures behind it
/// assert_eq!(carolsedge::most_scenes(40_000, 18), Ok(2));
/// assert_eq!(carolsedge::most_scenes(200_000, 750), Ok(250));
/// ```
pub fn most_scenes(time: u32, pictures: u32) -> Result<u32, Refusal> {
    raw::most_scenes(time, pictures)
}

/// Luma that has as many scenes as so many pictures can have: all black and all white in turn.
///
/// Fills the piece with its bytes from byte `at` on and answers how many were written, fewer than the piece holds
/// where the luma ends. Refusal 1 is given for the size, then those of [`most_scenes`]; the piece then stands as it
/// was.
///
/// ```
/// let mut piece = [7; 4];
/// assert_eq!(carolsedge::busiest_luma(15, 30, 200_000, 4, 1_348, &mut piece), Ok(4));
/// assert_eq!(piece, [0, 0, 255, 255]); // the third picture ends, the fourth begins
/// assert_eq!(carolsedge::busiest_luma(15, 30, 200_000, 4, 1_800, &mut piece), Ok(0));
/// ```
pub fn busiest_luma(
    width: u32,
    height: u32,
    time: u32,
    pictures: u32,
    at: u64,
    piece: &mut [u8],
) -> Result<usize, Refusal> {
    raw::busiest_luma(width, height, time, pictures, at, piece)
}
