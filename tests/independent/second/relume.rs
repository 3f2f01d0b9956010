//! `relume`: a script with the same opening, capture and questions, and other luma of the same lengths or longer.

use crate::prng::Prng;
use crate::script::{read_call, read_opening, write_call, write_opening, Call, LONGEST_PIECE};
use std::io::{self, Read, Write};

pub fn relume(seed: u64, mut script: impl Read, mut out: impl Write) -> io::Result<()> {
    let mut random = Prng::new(seed);
    let Some(opening) = read_opening(&mut script) else {
        return Ok(());
    };
    write_opening(&mut out, &opening)?;
    // One picture more now and then, so that their number changes too.
    let picture = u64::from(opening.width) * u64::from(opening.height);
    if opening.check().is_ok() && picture <= LONGEST_PIECE as u64 && random.once_in(2) {
        let piece = random.bytes(picture as usize);
        write_call(&mut out, &Call::Luma(piece))?;
    }
    while let Some(call) = read_call(&mut script) {
        let call = match call {
            Call::Luma(piece) => Call::Luma(random.bytes(piece.len())),
            call => call,
        };
        write_call(&mut out, &call)?;
    }
    out.flush()
}
