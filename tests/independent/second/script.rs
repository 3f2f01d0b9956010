//! Scripts: five words (W, H, d, PID, rule edition), then calls; a survey's have calls alone. See FORMAT.md.

use crate::opening::Opening;
use std::io::{self, Read, Write};

/// Longest piece of a feed, and longest buffer of a seal.
pub const LONGEST_PIECE: usize = 1_048_576;
pub const LONGEST_BUFFER: usize = 65_536;

#[derive(Clone, Debug, PartialEq, Eq)]
pub enum Call {
    Capture(Vec<u8>),
    Luma(Vec<u8>),
    /// A seal into a buffer of so many bytes.
    Seal(usize),
    /// The index of what was fed so far.
    Index,
    /// Repeated pictures from the first number up to but without the second.
    Repeats(u32, u32),
}

/// The opening's values; nothing if the script ends within the five words.
pub fn read_opening(script: &mut impl Read) -> Option<Opening> {
    Some(Opening {
        width: read_word(script)?,
        height: read_word(script)?,
        display_time: read_word(script)?,
        pid: read_word(script)?,
        edition: read_word(script)?,
    })
}

/// The next call; nothing where the run ends.
pub fn read_call(script: &mut impl Read) -> Option<Call> {
    match read_letter(script)? {
        b'C' => read_piece(script).map(Call::Capture),
        b'L' => read_piece(script).map(Call::Luma),
        b'S' => read_length(script, LONGEST_BUFFER).map(Call::Seal),
        b'I' => Some(Call::Index),
        b'R' => Some(Call::Repeats(read_word(script)?, read_word(script)?)),
        _ => None,
    }
}

/// The next call of a survey: a piece to feed, or a question (`None` within); nothing where the run ends.
pub fn read_survey_call(script: &mut impl Read) -> Option<Option<Vec<u8>>> {
    match read_letter(script)? {
        b'C' => read_piece(script).map(Some),
        b'Q' => Some(None),
        _ => None,
    }
}

fn read_letter(script: &mut impl Read) -> Option<u8> {
    let mut letter = [0];
    script.read_exact(&mut letter).ok()?;
    Some(letter[0])
}

fn read_piece(script: &mut impl Read) -> Option<Vec<u8>> {
    let mut piece = vec![0; read_length(script, LONGEST_PIECE)?];
    script.read_exact(&mut piece).ok()?;
    Some(piece)
}

fn read_length(script: &mut impl Read, longest: usize) -> Option<usize> {
    usize::try_from(read_word(script)?).ok().filter(|&length| length <= longest)
}

fn read_word(script: &mut impl Read) -> Option<u32> {
    let mut bytes = [0; 4];
    script.read_exact(&mut bytes).ok()?;
    Some(u32::from_le_bytes(bytes))
}

pub fn write_opening(script: &mut impl Write, opening: &Opening) -> io::Result<()> {
    for word in [opening.width, opening.height, opening.display_time, opening.pid, opening.edition] {
        script.write_all(&word.to_le_bytes())?;
    }
    Ok(())
}

pub fn write_call(script: &mut impl Write, call: &Call) -> io::Result<()> {
    let (letter, number, rest) = match call {
        Call::Capture(piece) => (b'C', piece.len() as u32, &piece[..]),
        Call::Luma(piece) => (b'L', piece.len() as u32, &piece[..]),
        Call::Seal(length) => (b'S', *length as u32, &[][..]),
        Call::Index => return script.write_all(b"I"),
        Call::Repeats(first, end) => (b'R', *first, &end.to_le_bytes()[..]),
    };
    script.write_all(&[letter])?;
    script.write_all(&number.to_le_bytes())?;
    script.write_all(rest)
}

/// A survey's question.
pub fn write_question(script: &mut impl Write) -> io::Result<()> {
    script.write_all(b"Q")
}
