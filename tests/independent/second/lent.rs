//! Lent memory: how a call writes to it, and how it is printed after the call.

use crate::opening::Refusal;
use std::io::{self, Write};

/// Every byte of a lent buffer before the call.
pub const UNALTERED: u8 = 0xA5;

/// Writes bytes to the front of a buffer: their length, or refusal 15 with the length needed.
pub fn fill(buffer: &mut [u8], bytes: &[u8]) -> Result<usize, Refusal> {
    match buffer.get_mut(..bytes.len()) {
        Some(front) => front.copy_from_slice(bytes),
        None => return Err(Refusal::at(15, bytes.len() as u64)),
    }
    Ok(bytes.len())
}

/// Lends a call a buffer of so many bytes, and prints a line of its answer and the whole buffer.
pub fn print_call(
    out: &mut impl Write,
    name: &str,
    room: usize,
    call: impl FnOnce(&mut [u8]) -> Result<usize, Refusal>,
) -> io::Result<()> {
    let mut buffer = vec![UNALTERED; room];
    match call(&mut buffer) {
        Ok(answer) => write!(out, "{name} {answer} ")?,
        Err(Refusal { number, place }) => write!(out, "{name} refused {number} {place} ")?,
    }
    let mut line = hexadecimal(&buffer);
    line.push(b'\n');
    out.write_all(&line)
}

fn hexadecimal(bytes: &[u8]) -> Vec<u8> {
    let digit = |value: u8| b"0123456789abcdef"[usize::from(value)];
    bytes.iter().flat_map(|&byte| [digit(byte >> 4), digit(byte & 15)]).collect()
}

#[cfg(test)]
mod tests {
    use super::*;

    #[test]
    fn a_buffer_is_filled_only_if_it_is_long_enough() {
        let mut buffer = [9; 3];
        assert_eq!(fill(&mut buffer, &[1, 2, 3, 4]), Err(Refusal::at(15, 4)));
        assert_eq!(buffer, [9, 9, 9]);
        assert_eq!(fill(&mut buffer, &[1, 2]), Ok(2));
        assert_eq!(buffer, [1, 2, 9]);
    }

    #[test]
    fn a_line_has_the_answer_and_the_buffer() {
        let mut out = Vec::new();
        print_call(&mut out, "seal", 2, |buffer| fill(buffer, &[0x1F])).unwrap();
        print_call(&mut out, "seal", 2, |buffer| fill(buffer, &[0; 3])).unwrap();
        assert_eq!(out, b"seal 1 1fa5\nseal refused 15 3 a5a5\n");
    }
}
