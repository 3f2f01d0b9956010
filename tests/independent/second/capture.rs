//! A capture: a libpcap file, little-endian, fed in pieces of any length. Its cells go to whoever takes them in.
//!
//! The file is read as a row of *fields*, each with bytes to pass over before it. A field that lies
//! whole in a piece is read where it lies; only a field cut by the end of a piece is put together
//! in `partial`. Payload is passed over by count and never looked at. Every refusal from 5 to 9
//! stands at the last byte of the field that shows it, which is the last byte taken in.

use crate::cells::{TakeCells, ADAPTATION, CELL, CELL_HEAD};
use crate::opening::Refusal;
use crate::units::TooManyUnits;

/// Most bytes of a capture; the next one is refusal 4.
pub const MOST_CAPTURE_BYTES: usize = 268_435_456;

/// Ethernet, IPv4 and UDP headers: cells begin behind them.
pub const FRAME_HEAD: usize = 42;

/// The field that comes next.
#[derive(Clone, Copy, PartialEq, Eq)]
enum Field {
    Magic,
    LinkType,
    Time,
    StoredLength,
    FrameHead,
    CellHead,
    Adaptation,
}

impl Field {
    fn length(self) -> usize {
        match self {
            Field::Magic | Field::LinkType | Field::StoredLength => 4,
            Field::Time => 8,
            Field::FrameHead => FRAME_HEAD,
            Field::CellHead => CELL_HEAD,
            Field::Adaptation => ADAPTATION,
        }
    }
}

pub struct Capture<T> {
    /// Bytes taken in: the offset of the next byte.
    taken: usize,
    /// Bytes to pass over before the next field.
    skip: usize,
    field: Field,
    partial: [u8; FRAME_HEAD],
    held: usize,
    /// Of the present record: its time, its stored length L, the cells yet to come, the padding behind them.
    time: u64,
    stored_length: usize,
    cells_left: usize,
    padding: usize,
    /// The head of the last cell that didn't come at once, and the offset at which this cell ends.
    cut_head: [u8; CELL_HEAD],
    cut_cell_end: usize,
    refusal: Option<Refusal>,
    pub records: u32,
    pub passed_over: u32,
    pub cells: T,
}

impl<T: TakeCells> Capture<T> {
    pub fn new(cells: T) -> Self {
        Capture {
            taken: 0,
            skip: 0,
            field: Field::Magic,
            partial: [0; FRAME_HEAD],
            held: 0,
            time: 0,
            stored_length: 0,
            cells_left: 0,
            padding: 0,
            cut_head: [0; CELL_HEAD],
            cut_cell_end: 0,
            refusal: None,
            records: 0,
            passed_over: 0,
            cells,
        }
    }

    pub fn refusal(&self) -> Option<Refusal> {
        self.refusal
    }

    /// Bytes fed, as long as nothing is refused.
    pub fn bytes_fed(&self) -> u64 {
        self.taken as u64
    }

    /// Whether the bytes end behind the file header or behind a record.
    pub fn between_records(&self) -> bool {
        self.field == Field::Time && self.skip == 0 && self.held == 0
    }

    /// The head of the cell that was taken in by its head but isn't whole yet.
    pub fn unfinished_cell(&self) -> Option<&[u8; CELL_HEAD]> {
        (self.taken < self.cut_cell_end).then_some(&self.cut_head)
    }

    /// Feeds one piece: its length, or refusal 4 to 9.
    pub fn feed(&mut self, piece: &[u8]) -> Result<usize, Refusal> {
        if self.refusal.is_none() {
            let within = piece.len().min(MOST_CAPTURE_BYTES - self.taken);
            self.refusal = self.take_in(&piece[..within]).err();
            if self.refusal.is_none() && within < piece.len() {
                self.refusal = Some(Refusal::at(4, MOST_CAPTURE_BYTES as u64));
            }
        }
        self.refusal.map_or(Ok(piece.len()), Err)
    }

    fn take_in(&mut self, mut piece: &[u8]) -> Result<(), Refusal> {
        loop {
            let skipped = self.skip.min(piece.len());
            self.skip -= skipped;
            self.taken += skipped;
            piece = &piece[skipped..];
            if piece.is_empty() {
                return Ok(());
            }
            if self.held == 0 && self.field == Field::CellHead && piece.len() >= CELL {
                piece = self.take_whole_cells(piece)?;
            } else if self.held == 0 && piece.len() >= self.field.length() {
                let (bytes, rest) = piece.split_at(self.field.length());
                piece = rest;
                self.taken += bytes.len();
                self.take_field(bytes)?;
            } else {
                piece = self.take_part_of_field(piece)?;
            }
        }
    }

    /// Adds what the piece has of the next field, and takes the field in once it is whole.
    fn take_part_of_field<'p>(&mut self, piece: &'p [u8]) -> Result<&'p [u8], Refusal> {
        let length = self.field.length();
        let (bytes, rest) = piece.split_at(piece.len().min(length - self.held));
        self.partial[self.held..self.held + bytes.len()].copy_from_slice(bytes);
        self.held += bytes.len();
        self.taken += bytes.len();
        if self.held == length {
            self.held = 0;
            let whole = self.partial;
            self.take_field(&whole[..length])?;
        }
        Ok(rest)
    }

    fn take_field(&mut self, bytes: &[u8]) -> Result<(), Refusal> {
        let word = |place: usize| {
            u32::from_le_bytes([bytes[place], bytes[place + 1], bytes[place + 2], bytes[place + 3]])
        };
        match self.field {
            Field::Magic if bytes != [0xD4, 0xC3, 0xB2, 0xA1] => return Err(self.refused_here(5)),
            Field::Magic => self.expect(16, Field::LinkType),
            Field::LinkType if word(0) != 1 => return Err(self.refused_here(6)),
            Field::LinkType => self.expect(0, Field::Time),
            Field::Time if word(4) > 999_999 => return Err(self.refused_here(7)),
            Field::Time => {
                self.time = u64::from(word(0)) * 1_000_000 + u64::from(word(4));
                self.expect(0, Field::StoredLength);
            }
            Field::StoredLength if word(0) > 65_535 => return Err(self.refused_here(8)),
            Field::StoredLength => self.begin_record(word(0) as usize),
            Field::FrameHead => self.begin_frame(bytes),
            Field::CellHead => {
                self.cut_head.copy_from_slice(bytes);
                self.cut_cell_end = self.taken + CELL - CELL_HEAD;
                if self.cells.take_head(self.time, bytes).map_err(|TooManyUnits| self.refused_here(9))? {
                    self.expect(0, Field::Adaptation);
                } else {
                    self.finish_cell(CELL - CELL_HEAD);
                }
            }
            Field::Adaptation => {
                self.cells.take_adaptation(bytes);
                self.finish_cell(CELL - CELL_HEAD - ADAPTATION);
            }
        }
        Ok(())
    }

    fn expect(&mut self, skip: usize, field: Field) {
        self.skip = skip;
        self.field = field;
    }

    fn refused_here(&self, number: u32) -> Refusal {
        Refusal::at(number, self.taken as u64 - 1)
    }

    /// The stored length is known; the original length (4 bytes) is ignored.
    fn begin_record(&mut self, stored_length: usize) {
        self.records += 1;
        self.stored_length = stored_length;
        if stored_length < FRAME_HEAD {
            self.passed_over += 1;
            self.expect(4 + stored_length, Field::Time);
        } else {
            self.expect(4, Field::FrameHead);
        }
    }

    fn begin_frame(&mut self, head: &[u8]) {
        self.cells_left = carried_cells(head, self.stored_length);
        self.padding = self.stored_length - FRAME_HEAD - self.cells_left * CELL;
        if self.cells_left == 0 {
            self.passed_over += 1;
            self.expect(self.padding, Field::Time);
        } else {
            self.expect(0, Field::CellHead);
        }
    }

    /// Takes in the cells of the frame that lie whole in the piece, each at once.
    fn take_whole_cells<'p>(&mut self, piece: &'p [u8]) -> Result<&'p [u8], Refusal> {
        let whole = (piece.len() / CELL).min(self.cells_left);
        let (cells, rest) = piece.split_at(whole * CELL);
        for (number, cell) in cells.chunks_exact(CELL).enumerate() {
            let last_of_head = self.taken + number * CELL + CELL_HEAD - 1;
            let taken = self.cells.take_head(self.time, &cell[..CELL_HEAD]);
            if taken.map_err(|TooManyUnits| Refusal::at(9, last_of_head as u64))? {
                self.cells.take_adaptation(&cell[CELL_HEAD..]);
            }
        }
        self.taken += cells.len();
        self.cells_left -= whole;
        if self.cells_left == 0 {
            self.expect(self.padding, Field::Time);
        }
        Ok(rest)
    }

    /// The rest of a cell is passed over, then comes a cell or the next record.
    fn finish_cell(&mut self, rest: usize) {
        self.cells_left -= 1;
        if self.cells_left == 0 {
            self.expect(rest + self.padding, Field::Time);
        } else {
            self.expect(rest, Field::CellHead);
        }
    }
}

/// Cells of a frame of L stored bytes with this head: 0 if the record doesn't carry.
fn carried_cells(head: &[u8], stored_length: usize) -> usize {
    let number = |place: usize| usize::from(u16::from_be_bytes([head[place], head[place + 1]]));
    let total = number(16);
    let datagram = number(38);
    let carries = number(12) == 0x0800
        && head[14] == 0x45
        && number(20) & 0x3FFF == 0
        && head[23] == 17
        && total == datagram + 20
        && stored_length >= 14 + total
        && datagram > 8
        && (datagram - 8) % CELL == 0;
    if carries { (datagram - 8) / CELL } else { 0 }
}
