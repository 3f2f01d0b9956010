//! The busiest possible sample (request R-9): the greatest number of scenes, and luma that has so many.

use crate::opening::{Opening, Refusal};
use std::io::{self, Write};

/// The least m for which m × d reaches 600,000: pictures from one scene start to the next at least.
fn spacing(display_time: u32) -> u32 {
    600_000u32.div_ceil(display_time)
}

/// The greatest number of scenes of N pictures; 2 for d, then 14 for N 0 or 10 for N above 750, at place 0.
pub fn most(display_time: u32, pictures: u32) -> Result<u32, Refusal> {
    check(&Opening { width: 30, height: 30, display_time, pid: 0, edition: 1 }, pictures)?;
    Ok(if pictures < 3 { 1 } else { 1 + (pictures - 3) / spacing(display_time) })
}

fn check(opening: &Opening, pictures: u32) -> Result<(), Refusal> {
    opening.check()?;
    match pictures {
        0 => Err(Refusal::unplaced(14)),
        1..=750 => Ok(()),
        _ => Err(Refusal::unplaced(10)),
    }
}

/// The program: W, H, d and N as arguments; writes the luma, or a refusal as `show` has it.
pub fn write(arguments: &[&str], out: &mut impl Write) -> io::Result<()> {
    let [width, height, display_time, pictures] = [0, 1, 2, 3].map(|place| value(arguments.get(place)));
    let opening = Opening { width, height, display_time, pid: 0, edition: 1 };
    if let Err(Refusal { number, .. }) = check(&opening, pictures) {
        return writeln!(out, "refused {number}");
    }
    let picture = |value: u8| vec![value; (width * height) as usize];
    let (black, white) = (picture(0), picture(255));
    for i in 0..pictures {
        out.write_all(if (i / spacing(display_time)).is_multiple_of(2) { &black } else { &white })?;
    }
    Ok(())
}

/// An argument's value: 0 if it is missing or isn't 1 to 9 decimal digits alone.
fn value(argument: Option<&&str>) -> u32 {
    let digits = |word: &&str| (1..=9).contains(&word.len()) && word.bytes().all(|byte| byte.is_ascii_digit());
    argument.copied().filter(digits).map_or(0, |word| word.parse().unwrap_or(0))
}

#[cfg(test)]
mod tests {
    use super::*;
    use crate::film::{Film, Hundredths};

    #[test]
    fn numbers_of_scenes() {
        let cases = [(40_000, 1, 1), (40_000, 3, 1), (40_000, 17, 1), (40_000, 18, 2), (200_000, 5, 1)];
        let others = [(200_000, 6, 2), (200_000, 750, 250), (10_000, 750, 13), (39_999, 18, 1), (39_999, 19, 2)];
        for (display_time, pictures, scenes) in cases.into_iter().chain(others) {
            assert_eq!(most(display_time, pictures), Ok(scenes), "{display_time} {pictures}");
        }
        for (display_time, pictures, number) in [(9_999, 0, 2), (200_001, 5, 2), (10_000, 0, 14), (10_000, 751, 10)] {
            assert_eq!(most(display_time, pictures), Err(Refusal::unplaced(number)));
        }
    }

    /// For every m that a display time gives, and every N.
    #[test]
    fn its_luma_has_so_many_scenes() {
        for m in 3..=60 {
            let display_time = 600_000u32.div_ceil(m);
            assert_eq!(spacing(display_time), m);
            let mut luma = Vec::new();
            write(&["15", "30", &display_time.to_string(), "750"], &mut luma).unwrap();
            assert_eq!(luma.len(), 750 * 450);
            let mut film = Film::new(15, 30, Hundredths::CutOff);
            for (i, picture) in luma.chunks(450).enumerate() {
                film.add(picture);
                let scenes = film.scenes(display_time).len() as u32;
                assert_eq!(Ok(scenes), most(display_time, i as u32 + 1), "{display_time} {i}");
            }
        }
    }

    #[test]
    fn arguments_of_the_program() {
        let written = |arguments: &[&str]| {
            let mut out = Vec::new();
            write(arguments, &mut out).unwrap();
            out
        };
        let luma = written(&["15", "30", "200000", "4"]);
        assert_eq!(luma, [vec![0; 1_350], vec![255; 450]].concat());
        assert_eq!(written(&["000000015", "030", "200000", "4", "further"]), luma);
        let refused: [(&[&str], &[u8]); 8] = [
            (&[], b"refused 1\n"),
            (&["15", "29", "9999", "0"], b"refused 1\n"),
            (&["15", "30", "9999", "0"], b"refused 2\n"),
            (&["15", "30"], b"refused 2\n"),
            (&["15", "30", "10000"], b"refused 14\n"),
            (&["15", "30", "10000", "+4"], b"refused 14\n"),
            (&["15", "30", "10000", "0000000004"], b"refused 14\n"),
            (&["15", "30", "10000", "751"], b"refused 10\n"),
        ];
        for (arguments, line) in refused {
            assert_eq!(written(arguments), line);
        }
    }
}
