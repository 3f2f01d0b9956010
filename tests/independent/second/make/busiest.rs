//! Random arguments of `busiest` (request R-9).

use crate::prng::Prng;

/// The arguments of a seed, each with a line feed.
pub fn arguments(seed: u64) -> String {
    let mut random = Prng::new(Prng::new(seed).next());
    let (width, height) = random.pick(&[(15, 30), (15, 30), (30, 30), (61, 59), (120, 30), (90, 61)]);
    let any = random.between(10_000, 200_000);
    let display_time = random.pick(&[10_000, 39_999, 40_000, 40_001, 100_000, 199_999, 200_000, any, any]);
    let few = random.between(1, 60);
    let pictures = random.pick(&[1, 2, 3, 4, 5, 6, 17, 18, few, few, few, few, 749, 750]);
    let mut words = [width, height, display_time, pictures].map(|number| number.to_string());
    if random.once_in(3) {
        let place = random.below(4);
        words[place] = other(&mut random, place, &words[place]);
    }
    let count = if random.once_in(12) { random.below(4) } else { 4 };
    let mut lines: String = words[..count].iter().map(|word| format!("{word}\n")).collect();
    if count == 4 && random.once_in(12) {
        lines.push_str("more\n");
    }
    lines
}

/// Another word for an argument: a value out of bounds, or no number by the request's words, or leading zeros.
fn other(random: &mut Prng, place: usize, word: &str) -> String {
    let bounds = [["0", "14", "1921"], ["29", "31", "1089"], ["0", "9999", "200001"], ["0", "751", "999999999"]];
    let out_of_bounds = random.pick(&bounds[place]);
    let odd = random.pick(&["", " ", "x", "-5", "1e3", "30.", "0x1E", "\u{0663}\u{0660}", "4294967326"]);
    match random.below(8) {
        0..=2 => out_of_bounds.to_string(),
        3 => format!("{word:0>9}"),
        4 => format!("{word:0>10}"),
        5 => random.pick(&[format!("+{word}").as_str(), &format!("{word} "), &format!(" {word}")]).to_string(),
        _ => odd.to_string(),
    }
}

#[cfg(test)]
mod tests {
    use super::*;
    use crate::busiest::write;

    #[test]
    fn every_refusal_occurs() {
        let outputs: Vec<Vec<u8>> = (0..300)
            .map(|seed| {
                let lines = arguments(seed);
                let mut out = Vec::new();
                write(&lines.lines().collect::<Vec<_>>(), &mut out).unwrap();
                out
            })
            .collect();
        for number in [1, 2, 10, 14] {
            assert!(outputs.contains(&format!("refused {number}\n").into_bytes()), "{number}");
        }
        assert!(outputs.iter().filter(|output| output.len() > 20).count() > 150);
    }
}
