use crate::raw::SurveyState;
use crate::Refusal;
use std::fmt;

/// What a survey finds.
#[derive(Debug, Clone, Copy, PartialEq, Eq, Hash)]
pub struct Most {
    /// The identifier with most good packets, the lowest among equals: at most 8191.
    pub pid: u32,
    /// How many good packets it has: at least 1.
    pub packets: u64,
}

/// A survey of a capture: which identifier has most good packets, those that start with 0x47 and are not marked as
/// damaged. Opened, fed in pieces of any length, asked as often as wanted.
///
/// Its state is 32,960 bytes on the heap; no call allocates. A clone goes on by itself.
#[derive(Clone)]
pub struct Survey {
    state: Box<SurveyState>,
}

impl Survey {
    /// Opens a fresh survey.
    pub fn open() -> Survey {
        Survey { state: SurveyState::open() }
    }

    /// Feeds a piece of the capture, and gives the piece's length, or refusal 4 to 8, which later feeds and questions
    /// repeat.
    pub fn feed(&mut self, piece: &[u8]) -> Result<usize, Refusal> {
        self.state.feed(piece)
    }

    /// Asks what was fed so far: the identifier with most good packets, or refusal 4 to 8, 11 or 21.
    ///
    /// The survey does not change, so feeding may go on.
    pub fn ask(&self) -> Result<Most, Refusal> {
        let (pid, packets) = self.state.ask()?;
        Ok(Most { pid, packets })
    }

    /// How many good packets of an identifier have come whole; 0 of one above 8191. It is read from the lent table,
    /// where feeds are proved to keep these counts; behind a refused feed it says nothing.
    pub fn packets(&self, pid: u32) -> u64 {
        let count = self.state.counts().get(pid as usize);
        count.copied().unwrap_or(0).into()
    }
}

impl fmt::Debug for Survey {
    fn fmt(&self, f: &mut fmt::Formatter<'_>) -> fmt::Result {
        f.debug_struct("Survey").finish_non_exhaustive()
    }
}
