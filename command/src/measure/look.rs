//! A look at the first picture of raw luma, which says nothing of itself: doubts about its size and its samples.

pub struct Look {
    width: usize,
    height: usize,
    first: Vec<u8>,
}

impl Look {
    pub fn new(width: u32, height: u32) -> Look {
        Look { width: width as usize, height: height as usize, first: Vec::new() }
    }

    /// Keeps the bytes of the first picture.
    pub fn take(&mut self, piece: &[u8]) {
        let left = self.width * self.height - self.first.len();
        self.first.extend(piece.iter().take(left));
    }

    /// What makes one doubt that these are 8-bit samples of that width and height.
    pub fn doubts(&self) -> Vec<String> {
        let (w, h) = (self.width, self.height);
        if self.two_bytes() {
            return vec!["every second byte is nearly 0: samples deeper than 8 bits have two bytes each; \
                 ffmpeg -vf extractplanes=y,scale=sws_dither=none,format=gray gives their upper 8 bits"
                .into()];
        }
        if w != h && 2.0 * self.difference(h) < self.difference(w) {
            return vec![format!("rows of {w} do not look like a picture, rows of {h} do: is it --size {h}x{w}?")];
        }
        Vec::new()
    }

    /// Whether the samples look like little-endian ones of 9 to 12 bits.
    fn two_bytes(&self) -> bool {
        let greatest = |from: usize| self.first.iter().skip(from).step_by(2).max();
        greatest(1) <= Some(&15) && greatest(0) > Some(&63)
    }

    /// How far bytes are from those a row below, on average, if a row had this length.
    fn difference(&self, row: usize) -> f64 {
        let below = self.first.iter().skip(row);
        let sum: u64 = self.first.iter().zip(below).map(|(a, b)| u64::from(a.abs_diff(*b))).sum();
        sum as f64 / self.first.len().saturating_sub(row).max(1) as f64
    }
}
