//! Random inputs of `loss` (request R-8).

use crate::prng::Prng;

/// The input of a seed: N, N losses, N probabilities.
pub fn input(seed: u64) -> Vec<u8> {
    let mut random = Prng::new(Prng::new(seed).next());
    let few = random.between(1, 30) as u32;
    let units = match random.below(16) {
        0 => random.pick(&[0, 751, 752]),
        1 => 750,
        2 => 1,
        3 => random.between(200, 750) as u32,
        _ => few,
    };
    let style = random.below(4);
    let mut probabilities: Vec<f64> = (0..units).map(|_| probability(&mut random, style)).collect();
    if units > 0 && random.once_in(8) {
        let place = random.below(units as usize);
        probabilities[place] = wrong(&mut random);
    }
    let losses = (0..units).map(|_| loss(&mut random).to_le_bytes());
    let mut input = units.to_le_bytes().to_vec();
    input.extend(losses.flatten());
    input.extend(probabilities.iter().flat_map(|probability| probability.to_le_bytes()));
    input
}

fn loss(random: &mut Prng) -> u32 {
    let any = random.word();
    random.pick(&[0, 0, 0, 1, 2, 3, 7, 14, 1_000, any, u32::MAX])
}

/// A probability: key frames or not, low ones all over, bounds and their neighbours, or anything.
fn probability(random: &mut Prng, style: usize) -> f64 {
    let any = (random.next() >> 11) as f64 / (1u64 << 53) as f64;
    let bounds = [0.0, -0.0, 0.01, 0.01f64.next_up(), 0.01f64.next_down(), 0.5, 1.0];
    let subnormal = [5e-324, f64::MIN_POSITIVE.next_down(), f64::MIN_POSITIVE];
    let near = [0.5f64.next_up(), 0.5f64.next_down(), 1.0f64.next_down(), 0.99, 0.9, 0.98, 0.1];
    match style {
        0 => random.pick(&[0.0, 0.0, 0.0, 0.001, 0.95, 1.0]),
        1 => 0.01 + any / 50.0,
        2 if random.once_in(2) => random.pick(&bounds),
        2 if random.once_in(6) => random.pick(&subnormal),
        2 => random.pick(&near),
        _ => any,
    }
}

fn wrong(random: &mut Prng) -> f64 {
    let payload = f64::from_bits(random.next() | 0x7FF0_0000_0000_0001);
    let above = random.pick(&[1.0f64.next_up(), 2.0, f64::INFINITY]);
    let below = random.pick(&[-f64::MIN_POSITIVE, -5e-324, -1.0, f64::NEG_INFINITY]);
    random.pick(&[f64::NAN, payload, above, below])
}

#[cfg(test)]
mod tests {
    use super::*;
    use crate::loss::print;

    #[test]
    fn both_refusals_and_both_lists_occur() {
        let outputs: Vec<String> = (0..200).map(|seed| print(&input(seed))).collect();
        let count = |start: &str| outputs.iter().filter(|output| output.starts_with(start)).count();
        assert!(count("refused 22 0") > 0 && count("refused 23 0") > 0);
        assert!(200 - count("refused") > 100);
    }
}
