use crate::{raw, Refusal};

/// The effective loss of some units, 1 to 750, for streams without B frames: from the loss of each unit and the
/// probability that it is a key frame, the two lent lists get at each unit what reaches it of key-frame losses and of
/// plain losses.
///
/// Refusal 22 is given for lists that are not all of one length from 1 to 750, and 23 for a probability not within 0
/// to 1, a NaN among them; both leave the lists as they were. Otherwise no element is a NaN, negative or infinite.
///
/// ```
/// # fn main() -> Result<(), carolsedge::Refusal> {
/// // A key-frame loss of 4: one half ends before unit 2, which is a key frame every other time; the other goes on.
/// let (mut keys, mut plain) = ([0.0; 3], [0.0; 3]);
/// carolsedge::effective_loss(&[0, 4, 0], &[0.0, 1.0, 0.5], &mut keys, &mut plain)?;
/// assert_eq!((keys, plain), ([0.0, 4.0, 2.0], [0.0; 3]));
/// # Ok(())
/// # }
/// ```
pub fn effective_loss(
    losses: &[u32],
    probabilities: &[f64],
    keys: &mut [f64],
    plain: &mut [f64],
) -> Result<(), Refusal> {
    let units = u32::try_from(losses.len()).unwrap_or(u32::MAX);
    raw::effective_loss(units, losses, probabilities, keys, plain)
}
