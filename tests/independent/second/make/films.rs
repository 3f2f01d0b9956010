//! Random films: pictures made at reduced size, then widened so that the blocks' sums give them back.

use super::weave::Side;
use crate::luma::Grid;
use crate::prng::Prng;

/// What a film is like.
#[derive(Clone, Copy)]
pub enum Style {
    Black,
    Noise,
    Fade,
    /// A hard cut every so many pictures, with repeats between.
    Cuts(usize),
    /// In every tile the same few pixels change bin, so that cut strengths are small whole steps.
    Drift,
    /// Pixels go up or down by one, so many that changes lie about halfway between whole numbers.
    Halves,
    /// Runs of repeated pictures.
    Runs,
    /// Brightness steps: everything moves alike.
    Steps,
    /// All of them in turn.
    Mixed,
}

pub struct FilmMaker<'r> {
    random: &'r mut Prng,
    grid: Grid,
    /// The present picture at reduced size.
    reduced: Vec<u8>,
    /// Whether blocks get unequal bytes, which takes longer.
    dither: bool,
    /// Next pixel of each tile to drift, and pixels a step moves.
    drifted: usize,
    drift_step: usize,
    pub side: Side,
}

impl<'r> FilmMaker<'r> {
    pub fn new(random: &'r mut Prng, width: u32, height: u32) -> Self {
        let grid = Grid::new(width as usize, height as usize);
        let drift_step = random.pick(&[0, 0, 1, 2]);
        let dither = grid.level > 0 && !random.once_in(4);
        let reduced = vec![0; grid.pixels()];
        FilmMaker { random, grid, reduced, dither, drifted: 0, drift_step, side: Side::default() }
    }

    pub fn pictures(&mut self, count: usize, style: Style) {
        for i in 0..count {
            let style = match style {
                Style::Mixed => self.any_style(),
                style => style,
            };
            self.next_picture(i, style);
            self.widen();
        }
    }

    fn any_style(&mut self) -> Style {
        let every = self.random.between(1, 3);
        self.random.pick(&[
            Style::Black,
            Style::Noise,
            Style::Fade,
            Style::Cuts(every),
            Style::Drift,
            Style::Runs,
            Style::Runs,
            Style::Steps,
        ])
    }

    fn next_picture(&mut self, i: usize, style: Style) {
        match style {
            Style::Black | Style::Mixed => self.reduced.fill(0),
            Style::Noise => self.reduced = self.random.bytes(self.grid.pixels()),
            Style::Fade => self.step(1),
            Style::Cuts(every) if i.is_multiple_of(every) => self.cut(),
            Style::Cuts(_) | Style::Runs if !self.random.once_in(4) => {}
            Style::Cuts(_) => self.touch(),
            Style::Runs => {
                if self.random.once_in(2) { self.touch() } else { self.cut() }
            }
            Style::Drift => self.drift(i),
            Style::Halves => self.halves(i),
            Style::Steps => {
                let amount = self.random.pick(&[0, 1, 5, 16, 40]);
                self.step(amount);
            }
        }
    }

    /// A new scene: a level of its own with more or less noise.
    fn cut(&mut self) {
        let level = self.random.byte();
        let noise = self.random.pick(&[0, 3, 15, 63, 255]);
        for pixel in &mut self.reduced {
            *pixel = level.wrapping_add(self.random.up_to(noise));
        }
    }

    /// A single pixel changes.
    fn touch(&mut self) {
        let place = self.random.below(self.reduced.len());
        self.reduced[place] = self.random.byte();
    }

    /// Everything gets brighter alike; a film that has grown bright goes dark.
    fn step(&mut self, amount: u8) {
        let bright = self.reduced.iter().any(|&pixel| pixel > 255 - amount);
        for pixel in &mut self.reduced {
            *pixel = if bright { *pixel / 2 } else { *pixel + amount };
        }
    }

    /// Moves the same number of pixels of every tile one bin on; now and then more of them.
    fn drift(&mut self, i: usize) {
        if i == 0 {
            self.reduced.fill(self.random.byte() & 0x1F);
        }
        let few = self.drift_step;
        let jump = self.random.pick(&[2 * few, 4 * few, 5 * few, 5 * few + 1, 6 * few + 1]);
        let moved = if self.random.once_in(7) { jump } else { few };
        let (width, height) = (self.grid.reduced_width, self.grid.reduced_height);
        let third = |third: usize, length: usize| (third * length).div_ceil(3);
        for tile in 0..9 {
            let (top, bottom) = (third(tile / 3, height), third(tile / 3 + 1, height));
            let (left, right) = (third(tile % 3, width), third(tile % 3 + 1, width));
            let columns = right - left;
            for j in self.drifted..self.drifted + moved {
                let place = j % ((bottom - top) * columns);
                let pixel = &mut self.reduced[(top + place / columns) * width + left + place % columns];
                *pixel = pixel.wrapping_add(16);
            }
        }
        self.drifted += moved;
    }

    /// Of 1,600 pixels 41 go up and 33 down: the change is 21.5. With 69 and 61 it is 28.5. Or one more or less.
    fn halves(&mut self, i: usize) {
        if i == 0 {
            self.reduced.fill(128);
        }
        let (more, less) = self.random.pick(&[(41, 33), (69, 61)]);
        let more = more + self.random.pick(&[0, 0, 0, 1]) - self.random.pick(&[0, 0, 0, 1]);
        let (more, less) = self.random.pick(&[(more, less), (less, more)]);
        let start = self.random.below(self.reduced.len());
        for j in 0..more + less {
            let place = (start + j) % self.reduced.len();
            let pixel = &mut self.reduced[place];
            *pixel = if j < more { pixel.wrapping_add(1) } else { pixel.wrapping_sub(1) };
        }
    }

    /// Widens the reduced picture to its full size; surplus columns and rows get anything.
    fn widen(&mut self) {
        let (width, block) = (self.grid.width, self.grid.block());
        let mut picture = vec![self.random.byte(); width * self.grid.height];
        let mut bytes = vec![0; block * block];
        for (number, &value) in self.reduced.iter().enumerate() {
            bytes.fill(value);
            if self.dither {
                dither(self.random, value, &mut bytes);
            }
            let (row, column) = (number / self.grid.reduced_width, number % self.grid.reduced_width);
            for (y, line) in bytes.chunks_exact(block).enumerate() {
                let start = (row * block + y) * width + column * block;
                picture[start..start + block].copy_from_slice(line);
            }
        }
        self.side.bytes.extend(picture);
        self.side.mark_end();
    }
}

/// Makes the bytes of a block unequal, and leaves its sum divided by its pixels as it is.
fn dither(random: &mut Prng, value: u8, bytes: &mut [u8]) {
    if value < 255 {
        let remainder = random.below(bytes.len());
        bytes[..remainder].iter_mut().for_each(|byte| *byte += 1);
    }
    for _ in 0..2 {
        let (up, down) = (random.below(bytes.len()), random.below(bytes.len()));
        let amount = random.up_to(60).min(255 - bytes[up]).min(bytes[down]);
        bytes[up] += amount;
        bytes[down] -= amount;
    }
}
