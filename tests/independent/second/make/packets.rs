//! Random inputs of `rtp` (request R-11).

use crate::prng::Prng;

/// The input of a seed: a count, then sequence number, marker, time and length of each packet.
pub fn input(seed: u64) -> Vec<u8> {
    let mut random = Prng::new(Prng::new(seed).next());
    let count = match random.below(20) {
        0 => random.pick(&[0, 4_097]),
        1 => 4_096,
        2 => random.between(1, 4_096),
        3 | 4 => 1,
        _ => random.between(2, 60),
    };
    let sequence = sequence(&mut random, count);
    let marker_every = random.pick(&[1, 3, 8, 5_000]);
    let mut time = random.next() >> random.pick(&[0, 30]);
    let mut input = (count as u32).to_le_bytes().to_vec();
    for sequence in sequence {
        let marker: u16 = if random.once_in(marker_every) { random.pick(&[1, 2, 256, 0x8000, 65_535]) } else { 0 };
        time = match random.below(12) {
            0 if random.once_in(4) => random.pick(&[0, u64::MAX]),
            0 | 1 => time.wrapping_sub(3_000),
            2 | 3 => time,
            _ => time.wrapping_add(random.next() >> 50),
        };
        let length: u16 = random.pick(&[0, 1, 12, 1_400, 1_472, 65_535]);
        input.extend(sequence.to_le_bytes());
        input.extend(marker.to_le_bytes());
        input.extend(time.to_le_bytes());
        input.extend(length.to_le_bytes());
    }
    input
}

/// Sequence numbers: mostly the next one, with gaps, doubles and leaps, some of them changed about.
fn sequence(random: &mut Prng, count: usize) -> Vec<u16> {
    let mut next: u16 = random.pick(&[0, 1, 1_000, 32_767, 32_768, 65_500, 65_535]);
    let leaps = random.once_in(3);
    let mut numbers: Vec<u16> = (0..count)
        .map(|_| {
            let step: u16 = match random.below(16) {
                0 => 0,
                1 => random.between(2, 9) as u16,
                2 => random.pick(&[65_535, 65_534, 65_530]),
                3 if leaps => random.pick(&[32_766, 32_767, 32_768, 32_769]),
                _ => 1,
            };
            next = next.wrapping_add(step);
            next
        })
        .collect();
    if count > 1 && random.once_in(2) {
        for _ in 0..count / 4 {
            let place = random.below(count - 1);
            numbers.swap(place, place + random.between(1, 3).min(count - 1 - place));
        }
    }
    numbers
}

#[cfg(test)]
mod tests {
    use super::*;
    use crate::rtp::print;

    #[test]
    fn the_refusal_occurs_and_most_are_good() {
        let outputs: Vec<String> = (0..200).map(|seed| print(&input(seed))).collect();
        let refused = outputs.iter().filter(|output| *output == "refused 25 0\n").count();
        assert!(refused > 0 && refused < 40);
    }
}
