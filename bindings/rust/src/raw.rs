//! The functions of the proved library, as safe functions over references and slices. All unsafe code of this crate
//! is here.
#![allow(unsafe_code)]
use crate::refusal::{answer, Refusal};

/// The memory that a sample lends to its calls. Every call is safe on any contents of it.
#[derive(Clone)]
pub struct State {
    walk: [u64; 16],
    kept: [u8; 64],
    numbers: [u64; 16],
    table: [u64; 3750],
    luma: [u64; 1600],
    sums: [u32; 240],
    bins: [u32; 720],
    picture: [u8; 14104],
}

/// The memory that a survey lends to its calls. Every call is safe on any contents of it.
#[derive(Clone)]
pub struct SurveyState {
    walk: [u64; 16],
    kept: [u8; 64],
    counts: [u32; 8192],
}

pub type Figures = [u64; 12];
pub type UnitFigures = [u64; 6];
pub type SceneFigures = [u64; 7];

/// The mark that is missing, 0 where none is, its row, what was found and its limit; unrepeated pictures, pictures,
/// packets and lost; the bits of Ic, Ip and the index.
pub type VerdictFigures = [u64; 11];

/// What verifying returns of a record that no seal leaves, where it is no refusal.
const NOT_SEALED: u32 = 100;

/// Ic, Ip and the index.
pub type Three = [f64; 3];

extern "C" {
    fn carolsedge_open(
        walk: &mut [u64; 16],
        kept: &mut [u8; 64],
        numbers: &mut [u64; 16],
        table: &mut [u64; 3750],
        luma: &mut [u64; 1600],
        sums: &mut [u32; 240],
        bins: &mut [u32; 720],
        picture: &mut [u8; 14104],
        width: u32,
        height: u32,
        time: u32,
        pid: u32,
        edition: u32,
    ) -> u32;
    fn carolsedge_feed_capture(
        walk: &mut [u64; 16],
        kept: &mut [u8; 64],
        numbers: &mut [u64; 16],
        table: &mut [u64; 3750],
        piece: *const u8,
        length: usize,
        value: &mut u64,
    ) -> u32;
    fn carolsedge_feed_luma(
        luma: &mut [u64; 1600],
        sums: &mut [u32; 240],
        bins: &mut [u32; 720],
        picture: &mut [u8; 14104],
        piece: *const u8,
        length: usize,
        value: &mut u64,
    ) -> u32;
    fn carolsedge_seal(
        walk: &[u64; 16],
        kept: &[u8; 64],
        numbers: &[u64; 16],
        table: &[u64; 3750],
        luma: &[u64; 1600],
        buffer: *mut u8,
        length: usize,
        value: &mut u64,
    ) -> u32;
    fn carolsedge_index(numbers: &[u64; 16], luma: &[u64; 1600], three: &mut Three, place: &mut u64) -> u32;
    fn carolsedge_repeats(luma: &[u64; 1600], a: u32, b: u32, value: &mut u64) -> u32;
    fn carolsedge_read_header(record: *const u8, length: usize, figures: &mut Figures) -> u32;
    fn carolsedge_read_unit(record: *const u8, length: usize, j: usize, row: &mut UnitFigures) -> u32;
    fn carolsedge_read_scene(record: *const u8, length: usize, j: usize, row: &mut SceneFigures) -> u32;
    fn carolsedge_read_units(
        record: *const u8,
        length: usize,
        rows: *mut UnitFigures,
        room: usize,
        count: &mut u64,
    ) -> u32;
    fn carolsedge_read_scenes(
        record: *const u8,
        length: usize,
        rows: *mut SceneFigures,
        room: usize,
        count: &mut u64,
    ) -> u32;
    fn carolsedge_verify(record: *const u8, length: usize, verdict: &mut VerdictFigures) -> u32;
    fn carolsedge_open_survey(walk: &mut [u64; 16], kept: &mut [u8; 64], counts: &mut [u32; 8192]);
    fn carolsedge_feed_survey(
        walk: &mut [u64; 16],
        kept: &mut [u8; 64],
        counts: &mut [u32; 8192],
        piece: *const u8,
        length: usize,
        value: &mut u64,
    ) -> u32;
    fn carolsedge_ask_survey(walk: &[u64; 16], counts: &[u32; 8192], value: &mut u64, count: &mut u64) -> u32;
    fn carolsedge_sheet(record: *const u8, length: usize, buffer: *mut u8, room: usize, value: &mut u64) -> u32;
    fn carolsedge_effective_loss(
        units: u32,
        losses: *const u32,
        losses_length: usize,
        probabilities: *const f64,
        probabilities_length: usize,
        keys: *mut f64,
        keys_length: usize,
        plain: *mut f64,
        plain_length: usize,
    ) -> u32;
    fn carolsedge_gap_runs(n: u32, table: *mut u64, length: usize, value: &mut u64) -> u32;
    fn carolsedge_most_scenes(time: u32, pictures: u32, value: &mut u64) -> u32;
    fn carolsedge_busiest_luma(
        width: u32,
        height: u32,
        time: u32,
        pictures: u32,
        at: u64,
        piece: *mut u8,
        length: usize,
        value: &mut u64,
    ) -> u32;
    fn carolsedge_shelf_open(shelf: *const u8, length: usize, totals: &mut [u64; 2], place: &mut u64) -> u32;
    fn carolsedge_shelf_part(shelf: *const u8, length: usize, j: usize, part: &mut [u64; 2], place: &mut u64) -> u32;
    fn carolsedge_shelf_write(
        records: *const u8,
        size: usize,
        lengths: *const u32,
        count: usize,
        buffer: *mut u8,
        length: usize,
        value: &mut u64,
    ) -> u32;
    fn carolsedge_rtp_units(
        sequence: *const u16,
        sequence_length: usize,
        marker: *const u8,
        marker_length: usize,
        time: *const u64,
        time_length: usize,
        size: *const u16,
        size_length: usize,
        buffer: *mut u8,
        length: usize,
        value: &mut u64,
    ) -> u32;
}

impl State {
    pub fn new() -> Box<State> {
        Box::new(State {
            walk: [0; 16],
            kept: [0; 64],
            numbers: [0; 16],
            table: [0; 3750],
            luma: [0; 1600],
            sums: [0; 240],
            bins: [0; 720],
            picture: [0; 14104],
        })
    }

    pub fn open(&mut self, width: u32, height: u32, time: u32, pid: u32, edition: u32) -> Result<(), Refusal> {
        // SAFETY: the arrays have the sizes that the function writes to, and are borrowed apart.
        let number = unsafe {
            carolsedge_open(
                &mut self.walk,
                &mut self.kept,
                &mut self.numbers,
                &mut self.table,
                &mut self.luma,
                &mut self.sums,
                &mut self.bins,
                &mut self.picture,
                width,
                height,
                time,
                pid,
                edition,
            )
        };
        answer(number, 0, ())
    }

    pub fn feed_capture(&mut self, piece: &[u8]) -> Result<usize, Refusal> {
        let mut value = 0;
        // SAFETY: the arrays have the sizes that the function uses; pointer and length are a slice's; all are
        // borrowed apart.
        let number = unsafe {
            carolsedge_feed_capture(
                &mut self.walk,
                &mut self.kept,
                &mut self.numbers,
                &mut self.table,
                piece.as_ptr(),
                piece.len(),
                &mut value,
            )
        };
        answer(number, value, value as usize)
    }

    pub fn feed_luma(&mut self, piece: &[u8]) -> Result<usize, Refusal> {
        let mut value = 0;
        // SAFETY: the arrays have the sizes that the function uses; pointer and length are a slice's; all are
        // borrowed apart.
        let number = unsafe {
            carolsedge_feed_luma(
                &mut self.luma,
                &mut self.sums,
                &mut self.bins,
                &mut self.picture,
                piece.as_ptr(),
                piece.len(),
                &mut value,
            )
        };
        answer(number, value, value as usize)
    }

    pub fn seal(&self, buffer: &mut [u8]) -> Result<usize, Refusal> {
        let mut value = 0;
        // SAFETY: the arrays have the sizes that the function reads; pointer and length are those of a slice that
        // is borrowed alone.
        let number = unsafe {
            carolsedge_seal(
                &self.walk,
                &self.kept,
                &self.numbers,
                &self.table,
                &self.luma,
                buffer.as_mut_ptr(),
                buffer.len(),
                &mut value,
            )
        };
        answer(number, value, value as usize)
    }

    pub fn index(&self) -> Result<Three, Refusal> {
        let mut three = [0.0; 3];
        let mut place = 0;
        // SAFETY: the arrays have the sizes that the function uses, and those that it writes to are borrowed alone.
        let number = unsafe { carolsedge_index(&self.numbers, &self.luma, &mut three, &mut place) };
        answer(number, place, three)
    }

    pub fn repeats(&self, a: u32, b: u32) -> Result<usize, Refusal> {
        let mut value = 0;
        // SAFETY: the array has the size that the function reads.
        let number = unsafe { carolsedge_repeats(&self.luma, a, b, &mut value) };
        answer(number, value, value as usize)
    }
}

impl SurveyState {
    /// The state of a fresh survey.
    pub fn open() -> Box<SurveyState> {
        let mut state = Box::new(SurveyState { walk: [0; 16], kept: [0; 64], counts: [0; 8192] });
        let SurveyState { walk, kept, counts } = &mut *state;
        // SAFETY: the arrays have the sizes that the function writes to, and are borrowed apart.
        unsafe { carolsedge_open_survey(walk, kept, counts) };
        state
    }

    pub fn feed(&mut self, piece: &[u8]) -> Result<usize, Refusal> {
        let mut value = 0;
        // SAFETY: the arrays have the sizes that the function uses; pointer and length are a slice's; all are borrowed
        // apart.
        let number = unsafe {
            carolsedge_feed_survey(
                &mut self.walk,
                &mut self.kept,
                &mut self.counts,
                piece.as_ptr(),
                piece.len(),
                &mut value,
            )
        };
        answer(number, value, value as usize)
    }

    /// The identifier, and its count.
    pub fn ask(&self) -> Result<(u32, u64), Refusal> {
        let (mut value, mut count) = (0, 0);
        // SAFETY: the arrays have the sizes that the function reads; the numbers are borrowed apart.
        let number = unsafe { carolsedge_ask_survey(&self.walk, &self.counts, &mut value, &mut count) };
        answer(number, value, (value as u32, count))
    }

    /// The table: good packets by identifier.
    pub fn counts(&self) -> &[u32; 8192] {
        &self.counts
    }
}

pub fn read_header(record: &[u8]) -> Result<Figures, Refusal> {
    let mut figures = [0; 12];
    // SAFETY: pointer and length are a slice's; the array has the size that the function writes to.
    let number = unsafe { carolsedge_read_header(record.as_ptr(), record.len(), &mut figures) };
    answer(number, 0, figures)
}

pub fn read_unit(record: &[u8], j: usize) -> Result<UnitFigures, Refusal> {
    let mut row = [0; 6];
    // SAFETY: pointer and length are a slice's; the array has the size that the function writes to.
    let number = unsafe { carolsedge_read_unit(record.as_ptr(), record.len(), j, &mut row) };
    answer(number, 0, row)
}

pub fn read_scene(record: &[u8], j: usize) -> Result<SceneFigures, Refusal> {
    let mut row = [0; 7];
    // SAFETY: pointer and length are a slice's; the array has the size that the function writes to.
    let number = unsafe { carolsedge_read_scene(record.as_ptr(), record.len(), j, &mut row) };
    answer(number, 0, row)
}

/// All unit rows of a record, to the front of the rows lent, and how many there are.
pub fn read_units(record: &[u8], rows: &mut [UnitFigures]) -> Result<usize, Refusal> {
    let mut count = 0;
    // SAFETY: pointers and lengths are those of two slices, of which the one that is written to is borrowed alone; a
    // row has the size that the function writes to.
    let number =
        unsafe { carolsedge_read_units(record.as_ptr(), record.len(), rows.as_mut_ptr(), rows.len(), &mut count) };
    answer(number, count, count as usize)
}

/// All scene rows of a record, likewise.
pub fn read_scenes(record: &[u8], rows: &mut [SceneFigures]) -> Result<usize, Refusal> {
    let mut count = 0;
    // SAFETY: as in `read_units`.
    let number =
        unsafe { carolsedge_read_scenes(record.as_ptr(), record.len(), rows.as_mut_ptr(), rows.len(), &mut count) };
    answer(number, count, count as usize)
}

pub fn verify(record: &[u8]) -> Result<VerdictFigures, Refusal> {
    let mut verdict = [0; 11];
    // SAFETY: pointer and length are a slice's; the array has the size that the function writes to.
    match unsafe { carolsedge_verify(record.as_ptr(), record.len(), &mut verdict) } {
        NOT_SEALED => Ok(verdict),
        number => answer(number, 0, verdict),
    }
}

pub fn sheet(record: &[u8], buffer: &mut [u8]) -> Result<usize, Refusal> {
    let mut value = 0;
    // SAFETY: pointers and lengths are those of two slices, of which the one that is written to is borrowed alone.
    let number =
        unsafe { carolsedge_sheet(record.as_ptr(), record.len(), buffer.as_mut_ptr(), buffer.len(), &mut value) };
    answer(number, value, value as usize)
}

pub fn effective_loss(
    units: u32,
    losses: &[u32],
    probabilities: &[f64],
    keys: &mut [f64],
    plain: &mut [f64],
) -> Result<(), Refusal> {
    // SAFETY: pointers and lengths are those of slices, of which the two that are written are borrowed alone.
    let number = unsafe {
        carolsedge_effective_loss(
            units,
            losses.as_ptr(),
            losses.len(),
            probabilities.as_ptr(),
            probabilities.len(),
            keys.as_mut_ptr(),
            keys.len(),
            plain.as_mut_ptr(),
            plain.len(),
        )
    };
    answer(number, 0, ())
}

pub fn gap_runs(n: u32, table: &mut [u64]) -> Result<usize, Refusal> {
    let mut value = 0;
    // SAFETY: pointer and length are those of a slice that is borrowed alone.
    let number = unsafe { carolsedge_gap_runs(n, table.as_mut_ptr(), table.len(), &mut value) };
    answer(number, value, value as usize)
}

pub fn most_scenes(time: u32, pictures: u32) -> Result<u32, Refusal> {
    let mut value = 0;
    // SAFETY: the function writes to the value and nothing else.
    let number = unsafe { carolsedge_most_scenes(time, pictures, &mut value) };
    answer(number, value, value as u32)
}

pub fn busiest_luma(
    width: u32,
    height: u32,
    time: u32,
    pictures: u32,
    at: u64,
    piece: &mut [u8],
) -> Result<usize, Refusal> {
    let mut value = 0;
    // SAFETY: pointer and length are those of a slice that is borrowed alone.
    let number = unsafe {
        carolsedge_busiest_luma(width, height, time, pictures, at, piece.as_mut_ptr(), piece.len(), &mut value)
    };
    answer(number, value, value as usize)
}

/// Records and lost packets of a shelf.
pub fn shelf_open(shelf: &[u8]) -> Result<[u64; 2], Refusal> {
    let (mut totals, mut place) = ([0; 2], 0);
    // SAFETY: pointer and length are a slice's; the array has the size that the function writes to.
    let number = unsafe { carolsedge_shelf_open(shelf.as_ptr(), shelf.len(), &mut totals, &mut place) };
    answer(number, place, totals)
}

/// Start and end of record j in a shelf.
pub fn shelf_part(shelf: &[u8], j: usize) -> Result<[u64; 2], Refusal> {
    let (mut part, mut place) = ([0; 2], 0);
    // SAFETY: pointer and length are a slice's; the array has the size that the function writes to.
    let number = unsafe { carolsedge_shelf_part(shelf.as_ptr(), shelf.len(), j, &mut part, &mut place) };
    answer(number, place, part)
}

pub fn shelf_write(records: &[u8], lengths: &[u32], buffer: &mut [u8]) -> Result<usize, Refusal> {
    let mut value = 0;
    // SAFETY: pointers and lengths are those of slices, of which the one that is written is borrowed alone.
    let number = unsafe {
        carolsedge_shelf_write(
            records.as_ptr(),
            records.len(),
            lengths.as_ptr(),
            lengths.len(),
            buffer.as_mut_ptr(),
            buffer.len(),
            &mut value,
        )
    };
    answer(number, value, value as usize)
}

pub fn rtp_units(
    sequence: &[u16],
    marker: &[bool],
    time: &[u64],
    size: &[u16],
    buffer: &mut [u8],
) -> Result<usize, Refusal> {
    let mut value = 0;
    // SAFETY: pointers and lengths are those of slices, of which the one that is written is borrowed alone; a bool is
    // a byte, 0 or 1.
    let number = unsafe {
        carolsedge_rtp_units(
            sequence.as_ptr(),
            sequence.len(),
            marker.as_ptr().cast(),
            marker.len(),
            time.as_ptr(),
            time.len(),
            size.as_ptr(),
            size.len(),
            buffer.as_mut_ptr(),
            buffer.len(),
            &mut value,
        )
    };
    answer(number, value, value as usize)
}
