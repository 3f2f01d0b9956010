//! Random captures: bytes of a libpcap file, and where its records end.

use super::weave::Side;
use crate::capture::FRAME_HEAD;
use crate::cells::CELL;
use crate::prng::Prng;

/// Ways in which a record fails to carry, as far as possible one condition alone.
#[derive(Clone, Copy)]
enum Broken {
    Short,
    EtherType,
    Version,
    Fragment,
    Protocol,
    TotalLength,
    CutByOne,
    NoCell,
    NotCells,
    TinyDatagram,
}

const BROKEN: [Broken; 10] = [
    Broken::Short,
    Broken::EtherType,
    Broken::Version,
    Broken::Fragment,
    Broken::Protocol,
    Broken::TotalLength,
    Broken::CutByOne,
    Broken::NoCell,
    Broken::NotCells,
    Broken::TinyDatagram,
];

/// Faults that end a capture.
#[derive(Clone, Copy)]
pub enum Fault {
    Magic,
    LinkType,
    Microseconds,
    StoredLength,
}

pub struct CaptureMaker<'r> {
    random: &'r mut Prng,
    pid: u32,
    counter: u8,
    seconds: u32,
    /// One cell of PID in so many begins a unit.
    pub start_every: usize,
    /// One cell in so many is damaged.
    pub damage_every: usize,
    /// Whether cells are mostly spliced, with gaps, and worth cutting inside their first bytes.
    pub splicing: bool,
    pub side: Side,
}

impl<'r> CaptureMaker<'r> {
    /// A maker that has made nothing yet, not even the file header.
    pub fn bare(random: &'r mut Prng, pid: u32) -> Self {
        let counter = random.byte() & 15;
        let seconds = random.pick(&[0, 10, 1_700_000_000, u32::MAX - 40]);
        let damage_every = random.pick(&[2, 9, 30]);
        let side = Side::default();
        CaptureMaker { random, pid, counter, seconds, start_every: 6, damage_every, splicing: false, side }
    }

    /// A maker that has made a good file header.
    pub fn new(random: &'r mut Prng, pid: u32) -> Self {
        let mut maker = CaptureMaker::bare(random, pid);
        maker.header([0xD4, 0xC3, 0xB2, 0xA1], 1);
        maker
    }

    fn header(&mut self, magic: [u8; 4], link_type: u32) {
        self.side.bytes.extend(magic);
        self.side.bytes.extend(self.random.bytes(16));
        self.side.bytes.extend(link_type.to_le_bytes());
        self.side.mark_end();
    }

    /// Records of all kinds; `skipped_in_ten` of ten don't carry.
    pub fn records(&mut self, count: usize, skipped_in_ten: usize) {
        for _ in 0..count {
            if self.random.below(10) < skipped_in_ten {
                self.skipped_record();
            } else {
                let cells = self.random.pick(&[1, 1, 2, 3, 4, 5, 6, 7, 7, 9]);
                self.carrying_record(cells);
            }
        }
    }

    pub fn carrying_record(&mut self, cells: usize) {
        let frame = self.frame(cells);
        self.record(&frame);
    }

    /// A record that doesn't carry: broken, shorter than the heads, or empty.
    pub fn skipped_record(&mut self) {
        let frame = match self.random.below(14) {
            0 => Vec::new(),
            1 => {
                let length = self.random.between(1, 41);
                self.random.bytes(length)
            }
            2 => self.random.bytes(FRAME_HEAD),
            3 => {
                let length = self.random.between(43, 1500);
                self.random.bytes(length)
            }
            kind => self.broken_frame(BROKEN[kind - 4]),
        };
        self.record(&frame);
    }

    /// A record at the next time, which now and then goes back, stands still or reaches a bound.
    fn record(&mut self, frame: &[u8]) {
        self.seconds = match self.random.below(12) {
            0 => self.random.word(),
            1 => self.seconds.saturating_sub(3),
            2 => 0,
            3 => u32::MAX,
            4..=6 => self.seconds,
            _ => self.seconds.saturating_add(1),
        };
        let microseconds = self.random.pick(&[0, 5, 500_000, 999_998, 999_999]);
        self.record_head(microseconds, frame.len() as u32);
        let cells = self.side.bytes.len() + FRAME_HEAD;
        self.side.bytes.extend(frame);
        if self.splicing {
            self.mark_cells(cells);
        }
        self.side.mark_end();
    }

    /// Marks places behind the first bytes of each cell from this place on.
    fn mark_cells(&mut self, start: usize) {
        let end = self.side.bytes.len();
        for cell in (start..end).step_by(CELL) {
            let place = cell + self.random.between(1, 6);
            let places = [place, place + self.random.between(1, 2)];
            self.side.ends.extend(places.iter().filter(|&&place| place < end));
        }
    }

    fn record_head(&mut self, microseconds: u32, stored_length: u32) {
        for word in [self.seconds, microseconds, stored_length, self.random.word()] {
            self.side.bytes.extend(word.to_le_bytes());
        }
    }

    /// A carrying frame of so many cells, with a few bytes of padding now and then.
    fn frame(&mut self, cells: usize) -> Vec<u8> {
        let mut frame = self.frame_head(8 + cells * CELL);
        for _ in 0..cells {
            frame.extend(self.cell());
        }
        if self.random.once_in(3) {
            let padding = self.random.pick(&[1, 2, 4, 18, 187, 188, 376]);
            frame.extend(self.random.bytes(padding));
        }
        frame
    }

    /// Ethernet, IPv4 and UDP headers for a datagram of this length, with good and ignored fields.
    fn frame_head(&mut self, datagram: usize) -> Vec<u8> {
        let mut head = self.random.bytes(FRAME_HEAD);
        head[12..15].copy_from_slice(&[0x08, 0x00, 0x45]);
        head[16..18].copy_from_slice(&((datagram + 20) as u16).to_be_bytes());
        head[20] = self.random.pick(&[0x00, 0x40, 0x80, 0xC0]);
        head[21] = 0;
        head[23] = 17;
        head[38..40].copy_from_slice(&(datagram as u16).to_be_bytes());
        head
    }

    fn broken_frame(&mut self, broken: Broken) -> Vec<u8> {
        let cells = self.random.between(1, 7);
        let mut frame = self.frame_head(8 + cells * CELL);
        for _ in 0..cells {
            frame.extend(self.cell());
        }
        match broken {
            Broken::Short => frame.truncate(FRAME_HEAD - 1),
            Broken::EtherType => frame[self.random.between(12, 13)] ^= 1 << self.random.below(8),
            Broken::Version => frame[14] ^= 1 << self.random.below(8),
            Broken::Fragment => {
                let bit = self.random.below(14);
                frame[21 - bit / 8] |= 1 << (bit % 8);
            }
            Broken::Protocol => frame[23] ^= 1 << self.random.below(8),
            Broken::TotalLength => {
                let off = self.random.pick(&[-20i32, -1, 1, 20]);
                let total = 28 + (cells * CELL) as i32 + off;
                frame[16..18].copy_from_slice(&(total as u16).to_be_bytes());
                frame.extend([0x47; 20]);
            }
            Broken::CutByOne => frame.truncate(frame.len() - 1),
            Broken::NoCell => frame = self.datagram_frame(8),
            Broken::NotCells => {
                let off = self.random.pick(&[1, 2, 94, 187]);
                frame = self.datagram_frame(8 + cells * CELL - off);
            }
            Broken::TinyDatagram => {
                let length = self.random.below(8);
                frame = self.datagram_frame(length);
            }
        }
        frame
    }

    /// A frame whose lengths agree for a datagram of any length; at least its heads are stored.
    fn datagram_frame(&mut self, datagram: usize) -> Vec<u8> {
        let mut frame = self.frame_head(datagram);
        while frame.len() < 34 + datagram {
            frame.extend(self.cell());
        }
        let padding = self.random.pick(&[0, 0, 188]);
        frame.truncate((34 + datagram).max(FRAME_HEAD));
        frame.extend(self.random.bytes(padding));
        frame
    }

    /// One cell: mostly the next of PID, now and then lost, doubled, bad or of another identifier.
    fn cell(&mut self) -> [u8; CELL] {
        let kind = self.random.below(20);
        let step = match kind {
            0 | 1 => self.random.between(2, 15) as u8,
            2 => 0,
            _ if self.splicing && self.random.once_in(2) => self.random.below(16) as u8,
            _ => 1,
        };
        let mut identifier = self.pid;
        let mut first = 0x47;
        match kind {
            3 => first ^= 1 << self.random.below(8),
            4 => first = self.random.pick(&[0, 0xFF]),
            5 | 6 => identifier ^= 1 << self.random.below(13),
            7 => identifier = 8191,
            _ => {}
        }
        if first == 0x47 && identifier == self.pid {
            self.counter = (self.counter + step) & 15;
        }
        let start = self.random.once_in(self.start_every);
        self.cell_of(first, identifier, start)
    }

    /// A carrying record of one good cell for each of these identifiers.
    pub fn listed_record(&mut self, identifiers: &[u32]) {
        let mut frame = self.frame_head(8 + identifiers.len() * CELL);
        for &identifier in identifiers {
            let start = self.random.once_in(self.start_every);
            frame.extend(undamaged(self.cell_of(0x47, identifier, start)));
        }
        self.record(&frame);
    }

    /// A carrying record of so many damaged cells of PID.
    pub fn damaged_record(&mut self, cells: usize, start: bool) {
        let mut frame = self.frame_head(8 + cells * CELL);
        for _ in 0..cells {
            let mut cell = self.cell_of(0x47, self.pid, start);
            cell[1] |= 0x80;
            frame.extend(cell);
        }
        self.record(&frame);
    }

    /// A carrying record of so many bad cells.
    pub fn bad_record(&mut self, cells: usize) {
        let mut frame = self.frame_head(8 + cells * CELL);
        for _ in 0..cells {
            let first = self.random.pick(&[0x46, 0x57, 0xB8, 0]);
            frame.extend(self.cell_of(first, self.pid, false));
        }
        self.record(&frame);
    }

    fn cell_of(&mut self, first: u8, identifier: u32, start: bool) -> [u8; CELL] {
        let mut cell = [self.random.pick(&[0x47, 0x00, 0xFF]); CELL];
        cell[0] = first;
        let damaged = self.random.once_in(self.damage_every);
        cell[1] = (identifier >> 8) as u8 & 0x1F | self.random.byte() & 0x20;
        cell[1] |= u8::from(start) << 6 | u8::from(damaged) << 7;
        cell[2] = identifier as u8;
        cell[3] = self.random.byte() & 0xF0 | self.counter;
        if self.splicing || self.random.once_in(2) {
            self.adaptation(&mut cell);
        }
        cell
    }

    /// An adaptation field: its length, which may be 0, and its flags; what follows is ignored.
    fn adaptation(&mut self, cell: &mut [u8; CELL]) {
        if !self.random.once_in(4) {
            cell[3] |= 0x20;
        }
        cell[4] = self.random.pick(&[0, 1, 1, 7, 183, 255]);
        cell[5] = self.random.pick(&[0x80, 0x80, 0xFF, 0x7F, 0x00]);
    }

    /// So many units: as many undamaged cells of PID with a start mark.
    pub fn units(&mut self, count: usize) {
        let mut left = count;
        while left > 0 {
            let cells = self.random.between(1, 9).min(left);
            let mut frame = self.frame_head(8 + cells * CELL);
            for _ in 0..cells {
                self.counter = (self.counter + 1) & 15;
                frame.extend(undamaged(self.cell_of(0x47, self.pid, true)));
            }
            left -= cells;
            self.record(&frame);
        }
    }

    /// A faulty header or record, or one that only just isn't; to be called first for the header's.
    pub fn fault(&mut self, fault: Fault) {
        match fault {
            Fault::Magic => {
                let mut magic = [0xD4, 0xC3, 0xB2, 0xA1];
                magic[self.random.below(4)] ^= 1 << self.random.below(8);
                let others = [[0xA1, 0xB2, 0xC3, 0xD4], [0x4D, 0x3C, 0xB2, 0xA1], magic, magic];
                let link_type = self.random.pick(&[1, 101]);
                let magic = self.random.pick(&others);
                self.header(magic, link_type);
            }
            Fault::LinkType => {
                let link_type = self.random.pick(&[0, 2, 101, 257, 0x0100_0000, u32::MAX]);
                self.header([0xD4, 0xC3, 0xB2, 0xA1], link_type);
            }
            Fault::Microseconds => {
                let microseconds = self.random.pick(&[1_000_000, 999_999, u32::MAX]);
                let stored_length = self.random.pick(&[60, 60, 65_536]);
                self.record_head(microseconds, stored_length);
                self.filler(60);
            }
            Fault::StoredLength => {
                let stored_length = self.random.pick(&[65_536, 65_535, u32::MAX]);
                self.record_head(999_999, stored_length);
                self.filler(65_535);
            }
        }
    }

    fn filler(&mut self, length: usize) {
        self.side.bytes.extend(self.random.bytes(length));
        self.side.mark_end();
    }

    /// One cell in each of the longest datagrams that can carry: 348 cells.
    pub fn longest_record(&mut self) {
        self.carrying_record(348);
    }
}

fn undamaged(mut cell: [u8; CELL]) -> [u8; CELL] {
    cell[1] &= 0x7F;
    cell
}
