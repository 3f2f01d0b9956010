//! How far a loss spreads (request R-8): 001's effective loss, for streams without B frames.

use crate::opening::Refusal;

/// Most units that losses can be given for.
const MOST_UNITS: usize = 750;

/// Bytes of the longest input of the program: N, then a loss and a probability for each unit.
pub const LONGEST_INPUT: usize = 4 + 12 * MOST_UNITS;

/// Probabilities up to this one are passed over, and a rest below it ends the walk.
const LEAST: f64 = 0.01;

/// A share of a loss, with its amount: which of the two lists it goes to.
enum Loss {
    KeyFrame(f64),
    Plain(f64),
}

/// The two lists to be filled.
struct Spread<'l> {
    key_frame: &'l mut [f64],
    plain: &'l mut [f64],
}

impl Spread<'_> {
    /// Adds a share at the units from `first` up to but without `end`.
    fn add(&mut self, first: usize, end: usize, loss: &Loss) {
        let (list, amount) = match *loss {
            Loss::KeyFrame(amount) => (&mut *self.key_frame, amount),
            Loss::Plain(amount) => (&mut *self.plain, amount),
        };
        list[first..end].iter_mut().for_each(|sum| *sum += amount);
    }

    /// Spreads the loss of unit i over this unit and those behind it.
    fn spread(&mut self, i: usize, loss: f64, probabilities: &[f64]) {
        let mut rest = 1.0;
        let later = probabilities.iter().copied().enumerate().skip(i + 1);
        for (k, probability) in later.filter(|&(_, p)| p > LEAST).chain([(probabilities.len(), 1.0)]) {
            if rest < LEAST {
                return;
            }
            let amount = rest * probability * loss;
            let share = if probabilities[i] > 0.5 { Loss::KeyFrame(amount) } else { Loss::Plain(amount) };
            self.add(i, k, &share);
            rest *= 1.0 - probability;
        }
    }
}

/// Fills both lists for N units; refusals 22 and 23 leave them untouched.
pub fn fill(
    units: usize,
    losses: &[u32],
    probabilities: &[f64],
    key_frame: &mut [f64],
    plain: &mut [f64],
) -> Result<(), Refusal> {
    let lengths = [losses.len(), probabilities.len(), key_frame.len(), plain.len()];
    if !(1..=MOST_UNITS).contains(&units) || lengths != [units; 4] {
        return Err(Refusal::unplaced(22));
    }
    if !probabilities.iter().all(|probability| (0.0..=1.0).contains(probability)) {
        return Err(Refusal::unplaced(23));
    }
    key_frame.fill(0.0);
    plain.fill(0.0);
    let mut spread = Spread { key_frame, plain };
    for (i, &loss) in losses.iter().enumerate().filter(|&(_, &loss)| loss > 0) {
        spread.spread(i, f64::from(loss), probabilities);
    }
    Ok(())
}

/// What the program prints about its input: N, N losses, N probabilities, and nothing else.
pub fn print(input: &[u8]) -> String {
    lists(input).unwrap_or_else(|Refusal { number, place }| format!("refused {number} {place}\n"))
}

/// A line a unit: the bits of both lists. An input of another length has lists that aren't N long.
fn lists(input: &[u8]) -> Result<String, Refusal> {
    let (count, rest) = input.split_first_chunk().ok_or(Refusal::unplaced(22))?;
    let units = u32::from_le_bytes(*count) as usize;
    if rest.len() != units.saturating_mul(12) {
        return Err(Refusal::unplaced(22));
    }
    let (losses, probabilities) = rest.split_at(4 * units);
    let losses: Vec<u32> = losses.as_chunks().0.iter().map(|&bytes| u32::from_le_bytes(bytes)).collect();
    let probabilities: Vec<f64> =
        probabilities.as_chunks().0.iter().map(|&bytes| f64::from_le_bytes(bytes)).collect();
    let (mut key_frame, mut plain) = (vec![0.0; units], vec![0.0; units]);
    fill(units, &losses, &probabilities, &mut key_frame, &mut plain)?;
    let pairs = key_frame.iter().zip(&plain);
    Ok(pairs.map(|(key_frame, plain)| format!("{:016X} {:016X}\n", key_frame.to_bits(), plain.to_bits())).collect())
}

#[cfg(test)]
mod tests {
    use super::*;

    /// Both lists, or the refusal with the lists as they were lent.
    fn filled(losses: &[u32], probabilities: &[f64]) -> (Result<(), Refusal>, Vec<f64>, Vec<f64>) {
        let (mut key_frame, mut plain) = (vec![7.0; losses.len()], vec![7.0; losses.len()]);
        let answer = fill(losses.len(), losses, probabilities, &mut key_frame, &mut plain);
        (answer, key_frame, plain)
    }

    #[test]
    fn a_loss_lasts_until_the_next_key_frame_by_its_probability() {
        // Half of the loss of unit 0 ends before unit 1; 0.01 itself is passed over; the rest reaches the end.
        let (answer, key_frame, plain) = filled(&[4, 0, 0], &[1.0, 0.5, 0.01]);
        assert_eq!((answer, key_frame, plain), (Ok(()), vec![4.0, 2.0, 2.0], vec![0.0; 3]));
        // Unit 0 is no key frame by a probability of just 0.5; unit 2 is one.
        let (_, key_frame, plain) = filled(&[8, 0, 3], &[0.5, 0.25, 0.75]);
        assert_eq!((key_frame, plain), (vec![0.0, 0.0, 3.0], vec![8.0, 6.0, 1.5]));
        assert_eq!(filled(&[5], &[0.0]), (Ok(()), vec![0.0], vec![5.0]));
    }

    #[test]
    fn the_walk_stops_at_a_rest_below_a_hundredth() {
        // 1 - 0.9 twice is below 0.01, so nothing reaches unit 2 and on; 1 - 0.99 isn't.
        let (_, _, plain) = filled(&[100, 0, 0, 0], &[0.0, 0.9, 0.9, 0.0]);
        let rest = 1.0 - 0.9;
        assert_eq!(plain, [0.9 * 100.0 + rest * 0.9 * 100.0, rest * 0.9 * 100.0, 0.0, 0.0]);
        let (_, _, plain) = filled(&[1, 0, 0], &[0.0, 0.99, 0.0]);
        assert_eq!((plain[0], plain[1], plain[2]), (0.99 + (1.0 - 0.99), 1.0 - 0.99, 1.0 - 0.99));
    }

    #[test]
    fn refusals_leave_the_lists_untouched() {
        assert_eq!(filled(&[], &[]).0, Err(Refusal::unplaced(22)));
        assert_eq!(filled(&[1; 751], &[2.0; 751]).0, Err(Refusal::unplaced(22)));
        assert_eq!(filled(&[1; 750], &[0.5; 750]).0, Ok(()));
        let untouched = vec![7.0; 2];
        let short = filled(&[1, 2], &[f64::NAN]);
        assert_eq!(short, (Err(Refusal::unplaced(22)), untouched.clone(), untouched.clone()));
        for wrong in [f64::NAN, -f64::MIN_POSITIVE, 1.0f64.next_up(), f64::INFINITY] {
            let answer = filled(&[1, 2], &[0.5, wrong]);
            assert_eq!(answer, (Err(Refusal::unplaced(23)), untouched.clone(), untouched.clone()));
        }
        assert_eq!(filled(&[1, 2], &[1.0, -0.0]).0, Ok(()));
    }

    #[test]
    fn lines_have_the_bits_of_both_lists() {
        let mut input = vec![1, 0, 0, 0, 3, 0, 0, 0];
        input.extend(0.75f64.to_le_bytes());
        assert_eq!(print(&input), "4008000000000000 0000000000000000\n");
        for length in [0, 3, 4, 8, 15] {
            assert_eq!(print(&input[..length]), "refused 22 0\n");
        }
        input[15] = 0xFF;
        assert_eq!(print(&input), "refused 23 0\n");
    }
}
