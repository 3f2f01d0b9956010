use crate::raw::State;
use crate::Refusal;
use std::fmt;
use std::ops::Range;

/// What a sample is opened with.
#[derive(Debug, Clone, Copy, PartialEq, Eq, Hash)]
pub struct Opening {
    /// Width W of a picture, in bytes: 15 to 1920.
    pub width: u32,
    /// Height H of a picture, in rows: 30 to 1088, at most 2 W, at least W / 4.
    pub height: u32,
    /// Display time d of a picture, in microseconds: 10,000 to 200,000.
    pub time: u32,
    /// The identifier of the packets that are measured: at most 8191.
    pub pid: u32,
    /// The edition of the rules that it is measured by: 1 to [`NEWEST_EDITION`](crate::NEWEST_EDITION).
    pub edition: u32,
}

/// The index with its two parts. It is no opinion score.
#[derive(Debug, Clone, Copy, PartialEq)]
pub struct Index {
    /// Ic = 4 × (unrepeated pictures / pictures), 0 to 4.
    pub ic: f64,
    /// Ip = packets / (packets + lost), 0 to 1.
    pub ip: f64,
    /// 1 + Ic × Ip, 1 to 5.
    pub value: f64,
}

/// A sample: opened, fed on two sides in pieces of any length and in any order, sealed as often as wanted.
///
/// Its state is 61,064 bytes on the heap; no call allocates. A clone goes on by itself.
#[derive(Clone)]
pub struct Sample {
    state: Box<State>,
}

impl Sample {
    /// Opens a sample, or gives refusal 1, 2, 3 or 20.
    ///
    /// In the C interface a refused opening leaves a state of which every other call repeats the number. Here it
    /// leaves no sample, so there is nothing to feed.
    pub fn open(opening: Opening) -> Result<Sample, Refusal> {
        let mut state = State::new();
        let Opening { width, height, time, pid, edition } = opening;
        state.open(width, height, time, pid, edition)?;
        Ok(Sample { state })
    }

    /// Feeds a piece of the capture, and gives the piece's length, or refusal 4 to 9, which later feeds of
    /// this side and seals repeat.
    ///
    /// Bytes before the refusal's place are taken in, and later ones are ignored. The luma side goes on.
    pub fn feed_capture(&mut self, piece: &[u8]) -> Result<usize, Refusal> {
        self.state.feed_capture(piece)
    }

    /// Feeds a piece of the luma, and gives the piece's length, or refusal 10, which later feeds of
    /// this side and seals repeat.
    pub fn feed_luma(&mut self, piece: &[u8]) -> Result<usize, Refusal> {
        self.state.feed_luma(piece)
    }

    /// Seals what was fed: writes the record to the front of the buffer and gives its length, or gives the refusal (4
    /// to 15) and leaves the buffer as it was.
    ///
    /// The sample does not change, so feeding may go on. No record is longer than
    /// [`RECORD_MOST`](crate::RECORD_MOST) bytes.
    pub fn seal(&self, buffer: &mut [u8]) -> Result<usize, Refusal> {
        self.state.seal(buffer)
    }

    /// The index of what was fed so far: of all whole packets, those of an unfinished frame among
    /// them, and of all whole pictures.
    ///
    /// It may be asked for at any time and takes the same few steps however much was fed. Where a
    /// seal is done, it is the index that the record has. Refused: 4 to 10 as a feed gave them,
    /// then 12 (no packet) and 14 (no picture); 11 and 13 do not stop it.
    pub fn index(&self) -> Result<Index, Refusal> {
        let [ic, ip, value] = self.state.index()?;
        Ok(Index { ic, ip, value })
    }

    /// How many pictures of a passage are repeated: of those from its start up to but without its end.
    ///
    /// Refused: 26, if the passage's start is above its end, or its end above the whole pictures fed so far. Refusals
    /// of feeds do not stop it: after 10 the 750 pictures before it are there.
    pub fn repeats(&self, passage: Range<u32>) -> Result<usize, Refusal> {
        self.state.repeats(passage.start, passage.end)
    }
}

impl fmt::Debug for Sample {
    fn fmt(&self, f: &mut fmt::Formatter<'_>) -> fmt::Result {
        f.debug_struct("Sample").finish_non_exhaustive()
    }
}
