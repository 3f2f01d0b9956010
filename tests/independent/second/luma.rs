//! The luma side: pictures of H rows of W bytes, fed in pieces of any length, reduced by blocks.
//!
//! Rows are added up as they come: into one sum a column where blocks are narrow, into one sum a
//! block where they are wide (whole blocks of a row at once; each way is the faster one there).
//! After 2^k rows the sums give a row of reduced pixels, each divided once.

use crate::film::{Film, Hundredths};
use crate::opening::{Opening, Refusal};

/// Most pictures of a sample; the next luma byte is refusal 10.
pub const MOST_PICTURES: u64 = 750;

/// How a picture is reduced: its size, level k, and reduced size w by h.
#[derive(Clone, Copy, Debug, PartialEq, Eq)]
pub struct Grid {
    pub width: usize,
    pub height: usize,
    pub level: u32,
    pub reduced_width: usize,
    pub reduced_height: usize,
}

impl Grid {
    /// Level k is the greatest with H / 2^k at least 30 (H itself is at least 30).
    pub fn new(width: usize, height: usize) -> Self {
        let level = (height / 30).max(1).ilog2();
        Grid {
            width,
            height,
            level,
            reduced_width: width >> level,
            reduced_height: height >> level,
        }
    }

    /// Side of a block, 2^k.
    pub fn block(&self) -> usize {
        1 << self.level
    }

    /// Pixels of a reduced picture.
    pub fn pixels(&self) -> usize {
        self.reduced_width * self.reduced_height
    }
}

/// Sums over the rows of the present row of blocks.
enum Sums {
    /// Level 0: a pixel is its own block.
    None,
    /// Levels 1 to 3: one sum a column, at most 8 rows of 255.
    Columns(Vec<u16>),
    /// Levels 4 and 5: one sum a block, at most 32 rows of 32 bytes of 255.
    Blocks(Vec<u32>),
}

impl Sums {
    fn new(grid: &Grid) -> Self {
        match grid.level {
            0 => Sums::None,
            1..=3 => Sums::Columns(vec![0; grid.reduced_width * grid.block()]),
            _ => Sums::Blocks(vec![0; grid.reduced_width]),
        }
    }

    /// Adds a run of bytes of one row that begins at this column.
    fn add(&mut self, level: u32, column: usize, run: &[u8]) {
        match (self, level) {
            (Sums::None, _) => {}
            (Sums::Columns(sums), _) => add_columns(&mut sums[column..], run),
            (Sums::Blocks(sums), 4) => add_blocks::<16>(sums, column, run),
            (Sums::Blocks(sums), _) => add_blocks::<32>(sums, column, run),
        }
    }

    /// The reduced pixels of a finished row of blocks; the sums begin anew.
    fn finish(&mut self, level: u32, pixels: &mut [u8]) {
        match (&mut *self, level) {
            (Sums::None, _) => {}
            (Sums::Columns(sums), 1) => gather_columns::<2>(sums, pixels),
            (Sums::Columns(sums), 2) => gather_columns::<4>(sums, pixels),
            (Sums::Columns(sums), _) => gather_columns::<8>(sums, pixels),
            (Sums::Blocks(sums), _) => {
                pixels.iter_mut().zip(sums).for_each(|(pixel, sum)| *pixel = (*sum >> (2 * level)) as u8);
            }
        }
        match self {
            Sums::None => {}
            Sums::Columns(sums) => sums.fill(0),
            Sums::Blocks(sums) => sums.fill(0),
        }
    }
}

fn add_columns(sums: &mut [u16], run: &[u8]) {
    sums.iter_mut().zip(run).for_each(|(sum, &byte)| *sum += u16::from(byte));
}

/// Adds a run to its blocks: the rest of a block that was begun, whole blocks, the front of one more.
fn add_blocks<const BLOCK: usize>(sums: &mut [u32], column: usize, run: &[u8]) {
    let total = |bytes: &[u8]| bytes.iter().map(|&byte| u32::from(byte)).sum::<u32>();
    let first_whole = column.div_ceil(BLOCK);
    let (front, rest) = run.split_at(run.len().min(first_whole * BLOCK - column));
    if !front.is_empty() {
        sums[column / BLOCK] += total(front);
    }
    let blocks = rest.chunks_exact(BLOCK);
    if !blocks.remainder().is_empty() {
        sums[first_whole + blocks.len()] += total(blocks.remainder());
    }
    sums[first_whole..].iter_mut().zip(blocks).for_each(|(sum, block)| *sum += total(block));
}

/// Reduced pixels by sums of columns: each block's whole sum, divided once by its pixels.
fn gather_columns<const BLOCK: usize>(sums: &[u16], pixels: &mut [u8]) {
    for (pixel, columns) in pixels.iter_mut().zip(sums.chunks_exact(BLOCK)) {
        let sum: u32 = columns.iter().map(|&column| u32::from(column)).sum();
        *pixel = (sum / (BLOCK * BLOCK) as u32) as u8;
    }
}

/// Reduces one picture after another.
struct Reducer {
    grid: Grid,
    /// Columns and rows that aren't surplus.
    used_width: usize,
    used_height: usize,
    /// Place of the next byte.
    row: usize,
    column: usize,
    sums: Sums,
    pixels: Vec<u8>,
}

impl Reducer {
    fn new(grid: Grid) -> Self {
        Reducer {
            grid,
            used_width: grid.reduced_width * grid.block(),
            used_height: grid.reduced_height * grid.block(),
            row: 0,
            column: 0,
            sums: Sums::new(&grid),
            pixels: vec![0; grid.pixels()],
        }
    }

    fn between_pictures(&self) -> bool {
        self.row == 0 && self.column == 0
    }

    /// Takes the piece in up to the end of the picture at most, and gives back the rest.
    fn take<'p>(&mut self, mut piece: &'p [u8]) -> &'p [u8] {
        while !piece.is_empty() {
            let (run, rest) = piece.split_at(piece.len().min(self.grid.width - self.column));
            piece = rest;
            if self.row < self.used_height && self.column < self.used_width {
                self.take_run(run);
            }
            self.column += run.len();
            if self.column == self.grid.width {
                self.column = 0;
                self.row += 1;
                if self.row == self.grid.height {
                    self.row = 0;
                    break;
                }
            }
        }
        piece
    }

    /// Takes in bytes of one row from the present column on, up to the surplus columns.
    fn take_run(&mut self, run: &[u8]) {
        let Grid { level, reduced_width, .. } = self.grid;
        let run = &run[..run.len().min(self.used_width - self.column)];
        if level == 0 {
            let start = self.row * reduced_width + self.column;
            self.pixels[start..start + run.len()].copy_from_slice(run);
            return;
        }
        self.sums.add(level, self.column, run);
        let row_ends = self.column + run.len() == self.used_width;
        if row_ends && (self.row + 1).is_multiple_of(self.grid.block()) {
            let start = (self.row >> level) * reduced_width;
            self.sums.finish(level, &mut self.pixels[start..start + reduced_width]);
        }
    }
}

pub struct LumaSide {
    reducer: Reducer,
    picture_bytes: u64,
    taken: u64,
    refusal: Option<Refusal>,
    pub film: Film,
}

impl LumaSide {
    pub fn new(opening: &Opening) -> Self {
        let grid = Grid::new(opening.width as usize, opening.height as usize);
        LumaSide {
            reducer: Reducer::new(grid),
            picture_bytes: u64::from(opening.width) * u64::from(opening.height),
            taken: 0,
            refusal: None,
            film: Film::new(grid.reduced_width, grid.reduced_height, Hundredths::of_edition(opening.edition)),
        }
    }

    pub fn refusal(&self) -> Option<Refusal> {
        self.refusal
    }

    /// Bytes fed, as long as nothing is refused.
    pub fn bytes_fed(&self) -> u64 {
        self.taken
    }

    pub fn between_pictures(&self) -> bool {
        self.reducer.between_pictures()
    }

    /// Feeds one piece: its length, or refusal 10.
    pub fn feed(&mut self, piece: &[u8]) -> Result<usize, Refusal> {
        if self.refusal.is_none() {
            let room = MOST_PICTURES * self.picture_bytes - self.taken;
            let within = room.min(piece.len() as u64);
            self.take_in(&piece[..within as usize]);
            self.taken += within;
            if within < piece.len() as u64 {
                self.refusal = Some(Refusal::at(10, self.taken));
            }
        }
        self.refusal.map_or(Ok(piece.len()), Err)
    }

    fn take_in(&mut self, mut piece: &[u8]) {
        while !piece.is_empty() {
            piece = self.reducer.take(piece);
            if self.reducer.between_pictures() {
                self.film.add(&self.reducer.pixels);
            }
        }
    }
}

#[cfg(test)]
mod tests {
    use super::*;

    fn sizes(width: usize, height: usize) -> (u32, usize, usize) {
        let grid = Grid::new(width, height);
        (grid.level, grid.reduced_width, grid.reduced_height)
    }

    #[test]
    fn levels_of_the_worked_samples() {
        assert_eq!(sizes(1920, 1080), (5, 60, 33));
        assert_eq!(sizes(852, 480), (4, 53, 30));
        assert_eq!(sizes(1280, 959), (4, 80, 59));
        assert_eq!(sizes(1280, 960), (5, 40, 30));
        assert_eq!(sizes(1916, 479), (3, 239, 59));
        assert_eq!(sizes(15, 30), (0, 15, 30));
        assert_eq!(sizes(60, 59), (0, 60, 59));
        assert_eq!(sizes(60, 60), (1, 30, 30));
    }

    #[test]
    fn the_level_is_the_greatest_for_every_height() {
        for height in 30..=1088 {
            let level = Grid::new(1088, height).level;
            assert!(height >> level >= 30 && height >> (level + 1) < 30);
        }
    }

    #[test]
    fn block_1_2_2_2_is_1() {
        let mut pixels = [0];
        gather_columns::<2>(&[1 + 2, 2 + 2], &mut pixels);
        assert_eq!(pixels, [1]);
    }

    /// Reduced pixels found straight from the definition.
    fn reduced(grid: Grid, picture: &[u8]) -> Vec<u8> {
        let block = grid.block();
        let mut pixels = Vec::new();
        for r in 0..grid.reduced_height {
            for c in 0..grid.reduced_width {
                let places = (0..block * block).map(|j| (r * block + j / block, c * block + j % block));
                let sum: usize = places.map(|(y, x)| usize::from(picture[y * grid.width + x])).sum();
                pixels.push((sum / (block * block)) as u8);
            }
        }
        pixels
    }

    #[test]
    fn reduction_agrees_with_the_definition_however_cut() {
        let mut random = crate::prng::Prng::new(5);
        for (width, height) in [(15, 30), (61, 61), (125, 123), (250, 241), (500, 481), (1001, 961)] {
            let grid = Grid::new(width, height);
            let picture = random.bytes(width * height);
            for piece in [1, 7, 188, 100_000, 1 << 20] {
                let mut reducer = Reducer::new(grid);
                for bytes in picture.chunks(piece) {
                    assert!(reducer.take(bytes).is_empty());
                }
                assert!(reducer.between_pictures());
                assert_eq!(reducer.pixels, reduced(grid, &picture));
            }
        }
    }
}
