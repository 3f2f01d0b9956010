//! The film: what is kept of reduced pictures, and the scenes found in it.

use crate::luma::MOST_PICTURES;

const TILES: usize = 9;
const BINS: usize = 16;

/// Pictures whose histograms are needed at once for one cut strength: i-2 to i+2.
const WINDOW: usize = 5;

/// The histograms of a picture's nine tiles, row by row.
type Histograms = [[u16; BINS]; TILES];

/// Which reduced pixels lie in which tile.
struct Tiles {
    width: usize,
    /// Rows and columns at which the three tile rows and tile columns begin and the last ends.
    row_bounds: [usize; 4],
    column_bounds: [usize; 4],
    /// Pixels of each tile.
    pixels: [u32; TILES],
}

impl Tiles {
    fn new(width: usize, height: usize) -> Self {
        let row_bounds = thirds(height);
        let column_bounds = thirds(width);
        let span = |bounds: &[usize; 4], part: usize| (bounds[part + 1] - bounds[part]) as u32;
        let pixels = std::array::from_fn(|tile| span(&row_bounds, tile / 3) * span(&column_bounds, tile % 3));
        Tiles { width, row_bounds, column_bounds, pixels }
    }

    fn histograms(&self, picture: &[u8]) -> Histograms {
        std::array::from_fn(|tile| {
            let rows = self.row_bounds[tile / 3]..self.row_bounds[tile / 3 + 1];
            let columns = self.column_bounds[tile % 3]..self.column_bounds[tile % 3 + 1];
            let lines = picture[rows.start * self.width..rows.end * self.width].chunks_exact(self.width);
            histogram(lines.map(|line| &line[columns.clone()]))
        })
    }

    /// The pictures' difference: the fifth smallest of the nine tiles' differences.
    fn difference(&self, one: &Histograms, other: &Histograms) -> u32 {
        let mut differences: [u32; TILES] =
            std::array::from_fn(|tile| tile_difference(&one[tile], &other[tile], self.pixels[tile]));
        differences.sort_unstable();
        differences[4]
    }
}

/// Where each third of `length` places begins (place p lies in third 3p / length), and the end.
fn thirds(length: usize) -> [usize; 4] {
    std::array::from_fn(|third| (third * length).div_ceil(3))
}

/// Histogram of a tile's lines; value v goes to bin v / 16. Two tables, as adding to one bin twice
/// in a row would have to wait.
fn histogram<'p>(lines: impl Iterator<Item = &'p [u8]>) -> [u16; BINS] {
    let mut even = [0; BINS];
    let mut odd = [0; BINS];
    for line in lines {
        let pairs = line.chunks_exact(2);
        for &pixel in pairs.remainder() {
            even[usize::from(pixel >> 4)] += 1;
        }
        for pair in pairs {
            even[usize::from(pair[0] >> 4)] += 1;
            odd[usize::from(pair[1] >> 4)] += 1;
        }
    }
    std::array::from_fn(|bin| even[bin] + odd[bin])
}

/// 1,000,000 D / (2n). A tile has at most 80 × 20 pixels, so 32 bits are enough.
fn tile_difference(one: &[u16; BINS], other: &[u16; BINS], pixels: u32) -> u32 {
    let sum: u32 = one.iter().zip(other).map(|(&a, &b)| u32::from(a.abs_diff(b))).sum();
    1_000_000 * sum / (2 * pixels)
}

/// How the root that a change q comes from is made a whole number.
#[derive(Clone, Copy, Debug, PartialEq, Eq)]
pub enum Hundredths {
    /// Editions 1 and 2: what is behind the point is cut off.
    CutOff,
    /// From edition 3 on: the nearest whole number, the upper at a tie.
    Nearest,
}

impl Hundredths {
    pub fn of_edition(edition: u32) -> Self {
        if edition >= 3 { Hundredths::Nearest } else { Hundredths::CutOff }
    }
}

/// How a picture stands to the one before: whether it repeats it, and its change q.
fn compare(before: &[u8], picture: &[u8], hundredths: Hundredths) -> (bool, u32) {
    let mut sum = 0i32;
    let mut squares = 0i32;
    for (&old, &new) in before.iter().zip(picture) {
        let e = i32::from(new) - i32::from(old);
        sum += e;
        squares += e * e;
    }
    let v = variance(picture.len() as u64, sum, squares as u64);
    (squares == 0, change(picture.len() as u64, v, hundredths))
}

/// V = n × sum of e² - (sum of e)².
fn variance(pixels: u64, sum: i32, squares: u64) -> u64 {
    let magnitude = u64::from(sum.unsigned_abs());
    pixels * squares - magnitude * magnitude
}

/// Cut off, q is the greatest number with q² n² at most 10,000 V. The nearest, it is the greatest
/// with q - 1/2 at most the root: 2q - 1 is at most the root of 40,000 V / n², cut off or not.
fn change(pixels: u64, v: u64, hundredths: Hundredths) -> u32 {
    let root = |number: u64| (number / (pixels * pixels)).isqrt() as u32;
    match hundredths {
        Hundredths::CutOff => root(10_000 * v),
        Hundredths::Nearest => root(40_000 * v).div_ceil(2),
    }
}

/// A row of the record about one scene.
#[derive(Clone, Copy, Debug, PartialEq, Eq)]
pub struct Scene {
    pub first: u32,
    pub pictures: u32,
    pub repeated: u32,
    pub longest_run: u32,
    pub strength_sum: u32,
    pub strength_most: u32,
    pub change_sum: u32,
}

/// Everything kept of the pictures so far.
pub struct Film {
    tiles: Tiles,
    hundredths: Hundredths,
    previous: Vec<u8>,
    /// Histograms of the last five pictures, and each one's differences to the four pictures before
    /// it, the nearest first; picture i stands at i modulo 5.
    recent: [Histograms; WINDOW],
    differences: [[u32; WINDOW - 1]; WINDOW],
    repeated: Vec<bool>,
    /// q of each picture.
    changes: Vec<u32>,
    /// Cut strength s of each picture: 0 as long as a picture of its window is missing.
    strengths: Vec<u32>,
}

impl Film {
    pub fn new(width: usize, height: usize, hundredths: Hundredths) -> Self {
        let most = MOST_PICTURES as usize;
        Film {
            tiles: Tiles::new(width, height),
            hundredths,
            previous: vec![0; width * height],
            recent: [[[0; BINS]; TILES]; WINDOW],
            differences: [[0; WINDOW - 1]; WINDOW],
            repeated: Vec::with_capacity(most),
            changes: Vec::with_capacity(most),
            strengths: Vec::with_capacity(most),
        }
    }

    pub fn pictures(&self) -> u32 {
        self.repeated.len() as u32
    }

    pub fn unrepeated(&self) -> u32 {
        self.repeated.iter().filter(|&&repeated| !repeated).count() as u32
    }

    /// Repeated pictures from `first` up to but without `end`, which is at most the number of pictures.
    pub fn repeated_in(&self, first: usize, end: usize) -> u32 {
        self.repeated[first..end].iter().filter(|&&repeated| repeated).count() as u32
    }

    /// Adds the next picture; it completes the window of the picture two before it.
    pub fn add(&mut self, picture: &[u8]) {
        let i = self.repeated.len();
        let (repeated, change) =
            if i == 0 { (false, 0) } else { compare(&self.previous, picture, self.hundredths) };
        self.repeated.push(repeated);
        self.changes.push(change);
        self.strengths.push(0);
        self.recent[i % WINDOW] =
            if repeated { self.recent[(i - 1) % WINDOW] } else { self.tiles.histograms(picture) };
        self.previous.copy_from_slice(picture);
        for back in 1..WINDOW.min(i + 1) {
            let (one, other) = (&self.recent[(i - back) % WINDOW], &self.recent[i % WINDOW]);
            self.differences[i % WINDOW][back - 1] = self.tiles.difference(one, other);
        }
        if i + 1 >= WINDOW {
            self.strengths[i - 2] = self.cut_strength(i - 2);
        }
    }

    /// s(i): the least difference between a picture before i and one from i on, within the window.
    fn cut_strength(&self, i: usize) -> u32 {
        let mut least = u32::MAX;
        for before in i - 2..i {
            for after in i..i + 3 {
                least = least.min(self.differences[after % WINDOW][after - before - 1]);
            }
        }
        least
    }

    /// The scenes as they stand now; pictures to come may still change the last of them.
    pub fn scenes(&self, display_time: u32) -> Vec<Scene> {
        let starts = scene_starts(&self.strengths, display_time);
        let ends = starts.iter().skip(1).copied().chain([self.repeated.len()]);
        starts.iter().zip(ends).map(|(&first, end)| self.scene(first, end)).collect()
    }

    fn scene(&self, first: usize, end: usize) -> Scene {
        let repeated = &self.repeated[first..end];
        let strengths = &self.strengths[first..end];
        let runs = repeated.split(|&repeated| !repeated).map(|run| run.len());
        Scene {
            first: first as u32,
            pictures: (end - first) as u32,
            repeated: self.repeated_in(first, end),
            longest_run: runs.max().unwrap_or(0) as u32,
            strength_sum: strengths.iter().sum(),
            strength_most: strengths.iter().copied().max().unwrap_or(0),
            change_sum: self.changes[first..end].iter().sum(),
        }
    }
}

/// Scene starts from left to right, by the cut strengths of all pictures.
fn scene_starts(strengths: &[u32], display_time: u32) -> Vec<usize> {
    let mut starts = Vec::new();
    let mut last = 0;
    let mut sum_since = 0;
    for (i, &strength) in strengths.iter().enumerate() {
        let strength = u64::from(strength);
        let gap = (i - last) as u64;
        let long_enough = gap * u64::from(display_time) >= 600_000;
        let stands_out = strength > 1_000 && strength * gap.saturating_sub(1) > 5 * sum_since;
        if i == 0 || (long_enough && stands_out) {
            starts.push(i);
            last = i;
            sum_since = 0;
        } else {
            sum_since += strength;
        }
    }
    starts
}

#[cfg(test)]
mod tests {
    use super::Hundredths::{CutOff, Nearest};
    use super::*;

    #[test]
    fn tiles_of_the_worked_sample() {
        assert_eq!(thirds(31), [0, 11, 21, 31]);
        for length in 15..=239 {
            let bounds = thirds(length);
            for place in 0..length {
                let third = 3 * place / length;
                assert!((bounds[third]..bounds[third + 1]).contains(&place));
            }
        }
    }

    /// Request R-3, and the bounds that the tiles have here.
    #[test]
    fn two_boundaries_count_the_tile_column_for_every_allowed_width() {
        let mut allowed = [false; 1921];
        for (width, height) in (15..=1920).flat_map(|width| (30..=1088).map(move |height| (width, height))) {
            if height <= 2 * width && width <= 4 * height {
                allowed[crate::luma::Grid::new(width, height).reduced_width] = true;
            }
        }
        let widths: Vec<usize> = (0..=1920).filter(|&w| allowed[w]).collect();
        assert_eq!((widths[0], widths[widths.len() - 1]), (15, 239));
        for w in widths {
            let least = |numerator: usize| (0..).find(|c| 3 * c >= numerator).unwrap();
            let boundaries = [least(w), least(2 * w)];
            assert_eq!(thirds(w)[1..3], boundaries);
            for c in 0..w {
                let at_or_below = boundaries.iter().filter(|&&boundary| boundary <= c).count();
                assert_eq!(at_or_below, 3 * c / w);
            }
        }
    }

    #[test]
    fn one_pixel_of_100_changes_bin() {
        let one = histogram([&[15; 100][..]].into_iter());
        let other = histogram([&[15; 99][..], &[16]].into_iter());
        assert_eq!((one[0], other[0], other[1]), (100, 99, 1));
        assert_eq!(tile_difference(&one, &other, 100), 10_000);
    }

    #[test]
    fn changes_of_the_worked_samples() {
        assert_eq!(compare(&[0, 0, 0, 0], &[0, 0, 0, 2], CutOff), (false, 86));
        assert_eq!(compare(&[0, 0, 0, 0], &[0, 0, 0, 2], Nearest), (false, 87));
        let (black, white) = (vec![0; 14_101], vec![255; 14_101]);
        for hundredths in [CutOff, Nearest] {
            assert_eq!(compare(&[1, 2, 3, 4], &[6, 7, 8, 9], hundredths), (false, 0));
            assert_eq!(compare(&[1, 2, 3, 4], &[1, 2, 3, 4], hundredths), (true, 0));
            assert_eq!(compare(&black, &white, hundredths), (false, 0));
            assert_eq!(compare(&[0, 255], &[255, 0], hundredths), (false, 25_500));
        }
    }

    #[test]
    fn a_tie_goes_up_and_the_editions_differ_there() {
        // 41 pixels of 1,600 go up and 33 down: V is 344², and 100 × 344 / 1,600 is 21.5.
        let before = vec![100; 1_600];
        let mut picture = before.clone();
        picture[..41].fill(101);
        picture[1_567..].fill(99);
        assert_eq!(compare(&before, &picture, CutOff), (false, 21));
        assert_eq!(compare(&before, &picture, Nearest), (false, 22));
        picture[41] = 99;
        assert_eq!(compare(&before, &picture, Nearest), (false, 22));
        picture[40..42].fill(100);
        assert_eq!(compare(&before, &picture, Nearest), (false, 21));
        assert_eq!(Hundredths::of_edition(2), CutOff);
        assert_eq!(Hundredths::of_edition(3), Nearest);
    }

    #[test]
    fn changes_are_the_greatest_or_the_nearest_whole_numbers() {
        let mut random = crate::prng::Prng::new(11);
        for _ in 0..2_000 {
            let n = random.between(1, 600);
            let (one, other) = (random.bytes(n), random.bytes(n));
            let pairs = || one.iter().zip(&other).map(|(&a, &b)| i128::from(b) - i128::from(a));
            let (sum, squares): (i128, i128) = (pairs().sum(), pairs().map(|e| e * e).sum());
            let v = n as i128 * squares - sum * sum;
            let q = i128::from(compare(&one, &other, CutOff).1);
            let within = |q: i128| q * q * (n * n) as i128 <= 10_000 * v;
            assert!(within(q) && !within(q + 1));
            // From q - 1/2 on, and below q + 1/2.
            let q = i128::from(compare(&one, &other, Nearest).1);
            let reached = |twice: i128| twice < 0 || twice * twice * (n * n) as i128 <= 40_000 * v;
            assert!(reached(2 * q - 1) && !reached(2 * q + 1));
        }
    }

    #[test]
    fn a_scene_of_14_pictures_is_too_short_and_15_enough() {
        let mut strengths = vec![0; 40];
        strengths[14] = 500_000;
        assert_eq!(scene_starts(&strengths, 40_000), [0]);
        strengths[14] = 0;
        strengths[15] = 500_000;
        assert_eq!(scene_starts(&strengths, 40_000), [0, 15]);
    }

    #[test]
    fn a_start_exceeds_five_times_the_average() {
        let mut strengths = vec![1_000; 15];
        strengths.extend([5_000, 0, 0]);
        assert_eq!(scene_starts(&strengths, 40_000), [0]);
        strengths[15] = 5_001;
        assert_eq!(scene_starts(&strengths, 40_000), [0, 15]);
    }

    #[test]
    fn cuts_every_three_pictures_give_250_scenes() {
        let mut film = Film::new(15, 30, CutOff);
        for i in 0..750 {
            film.add(&[if i / 3 % 2 == 0 { 0 } else { 200 }; 450]);
        }
        let scenes = film.scenes(200_000);
        assert_eq!(scenes.len(), 250);
        assert!(scenes.iter().skip(1).all(|scene| scene.strength_most == 1_000_000));
        assert!(scenes.iter().all(|scene| (scene.pictures, scene.repeated, scene.longest_run) == (3, 2, 2)));
    }

    #[test]
    fn the_last_two_pictures_have_no_strength_yet() {
        let mut film = Film::new(15, 30, CutOff);
        for value in [0, 0, 0, 255, 255] {
            film.add(&[value; 450]);
        }
        assert_eq!(film.scenes(200_000).len(), 1);
        film.add(&[255; 450]);
        assert_eq!(film.scenes(200_000).len(), 2);
        assert_eq!(film.strengths, [0, 0, 0, 1_000_000, 0, 0]);
    }

    /// A tile's histogram by its definition: every pixel asked for its tile and bin.
    fn defined_histogram(width: usize, height: usize, picture: &[u8], tile: usize) -> [u64; BINS] {
        let mut bins = [0; BINS];
        for (place, &value) in picture.iter().enumerate() {
            let (r, c) = (place / width, place % width);
            if 3 * r / height * 3 + 3 * c / width == tile {
                bins[usize::from(value) / 16] += 1;
            }
        }
        bins
    }

    fn defined_difference(width: usize, height: usize, one: &[u8], other: &[u8]) -> u64 {
        let mut differences: Vec<u64> = (0..TILES)
            .map(|tile| {
                let bins = |picture| defined_histogram(width, height, picture, tile);
                let (a, b) = (bins(one), bins(other));
                let sum: u64 = (0..BINS).map(|bin| a[bin].abs_diff(b[bin])).sum();
                1_000_000 * sum / (2 * a.iter().sum::<u64>())
            })
            .collect();
        differences.sort();
        differences[4]
    }

    #[test]
    fn strengths_agree_with_their_definition() {
        let mut random = crate::prng::Prng::new(3);
        for (width, height) in [(15, 30), (31, 31), (50, 40), (239, 59)] {
            let mut film = Film::new(width, height, Nearest);
            let mut pictures: Vec<Vec<u8>> = vec![random.bytes(width * height)];
            for _ in 1..12 {
                let mut next = pictures[pictures.len() - 1].clone();
                for _ in 0..random.pick(&[0, 1, 30, 900]) {
                    let place = random.below(next.len());
                    next[place] = random.byte();
                }
                pictures.push(next);
            }
            pictures.iter().for_each(|picture| film.add(picture));
            for i in 0..12 {
                let pairs = (i.max(2) - 2..i).flat_map(|a| (i..i + 3).map(move |b| (a, b)));
                let difference =
                    |(a, b): (usize, usize)| defined_difference(width, height, &pictures[a], &pictures[b]);
                let whole = i >= 2 && i + 2 < 12;
                let strength = if whole { pairs.map(difference).min().unwrap() } else { 0 };
                assert_eq!(u64::from(film.strengths[i]), strength);
                assert_eq!(film.repeated[i], i > 0 && pictures[i] == pictures[i - 1]);
            }
        }
    }
}
