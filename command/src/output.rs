//! Standard output, which has to take what is written, and standard error, which need not.
use crate::outside;
use crate::stop::Stop;
use std::io::{self, Write};

/// Writes a text to standard output, all of it.
pub fn print(text: &str) -> Result<(), Stop> {
    write(text.as_bytes())
}

/// Writes bytes to standard output, all of them.
pub fn write(bytes: &[u8]) -> Result<(), Stop> {
    let mut out = io::stdout().lock();
    let written = out.write_all(bytes).and_then(|()| out.flush());
    written.map_err(|error| Stop::file("standard output", &error))
}

/// Writes lines to standard error. Where that cannot be written there is nobody to tell.
pub fn say(text: &str) {
    let _ = io::stderr().lock().write_all(outside::lines(text).as_bytes());
}

/// Writes over the line of a terminal, standard error, that was written last: with this text, or with nothing.
pub fn write_over(text: &str) {
    let _ = io::stderr().lock().write_all(format!("\r\x1b[K{}", outside::shown(text)).as_bytes());
}

/// A number with its thousands parted: 1,234,567.
pub fn grouped(number: u64) -> String {
    let digits = number.to_string();
    let mut text = String::new();
    for (i, digit) in digits.chars().enumerate() {
        if i > 0 && (digits.len() - i).is_multiple_of(3) {
            text.push(',');
        }
        text.push(digit);
    }
    text
}

/// A count with its noun: `1 unit`, `2 units`, `no units`.
pub fn count(number: u64, noun: &str) -> String {
    match number {
        0 => format!("no {noun}s"),
        1 => format!("1 {noun}"),
        n => format!("{} {noun}s", grouped(n)),
    }
}
