//! Whatever comes from outside, as it may be printed: names of files, words, headings, a decoder's lines. No text of
//! outside reaches a terminal or a page but through here.
use std::ffi::OsStr;
use std::os::unix::ffi::OsStrExt;

/// A text of outside on one line. What would steer a terminal, turn the direction of writing or not be seen is given
/// byte by byte, as `\x1b`, and so are bytes that are no UTF-8.
pub fn shown(text: impl AsRef<OsStr>) -> String {
    shown_bytes(text.as_ref().as_bytes())
}

/// The same of bytes.
pub fn shown_bytes(bytes: &[u8]) -> String {
    let mut out = String::new();
    for chunk in bytes.utf8_chunks() {
        for letter in chunk.valid().chars() {
            match is_hidden(letter) {
                true => escape(letter.encode_utf8(&mut [0; 4]).as_bytes(), &mut out),
                false => out.push(letter),
            }
        }
        escape(chunk.invalid(), &mut out);
    }
    out
}

/// A text of outside as a page names it: controls, and bytes that are no UTF-8, are replaced (U+FFFD) there, where no
/// terminal reads them; what else would be hidden is given byte by byte.
pub fn in_page(text: impl AsRef<OsStr>) -> String {
    let replaced = |letter: char| if letter.is_control() { char::REPLACEMENT_CHARACTER } else { letter };
    shown(text.as_ref().to_string_lossy().chars().map(replaced).collect::<String>())
}

/// A text of ours, in which texts of outside may be: the same of each line.
pub fn lines(text: &str) -> String {
    text.split('\n').map(shown).collect::<Vec<_>>().join("\n")
}

fn escape(bytes: &[u8], out: &mut String) {
    for byte in bytes {
        *out += &format!("\\x{byte:02x}");
    }
}

/// Controls (C0, DEL and C1), marks and overrides of direction, separators of lines, and letters without a shape. The
/// two joiners, U+200C and U+200D, are part of how some languages are written.
fn is_hidden(letter: char) -> bool {
    let direction = matches!(letter, '\u{061C}' | '\u{200E}' | '\u{200F}' | '\u{202A}'..='\u{202E}');
    let shapeless = matches!(letter, '\u{00AD}' | '\u{200B}' | '\u{2060}'..='\u{206F}' | '\u{FEFF}');
    let tag = matches!(letter, '\u{E0000}'..='\u{E007F}');
    letter.is_control() || direction || shapeless || tag || matches!(letter, '\u{2028}' | '\u{2029}')
}

#[cfg(test)]
mod tests {
    use super::*;

    #[test]
    fn what_is_hidden_is_given_by_its_bytes() {
        assert_eq!(shown("seat \x1b[2J\x07\n\t\x7f"), r"seat \x1b[2J\x07\x0a\x09\x7f");
        assert_eq!(shown("\u{9b}31m \u{202e}gpj.exe \u{2066}"), r"\xc2\x9b31m \xe2\x80\xaegpj.exe \xe2\x81\xa6");
        assert_eq!(shown_bytes(b"a\xff\xc3b\xe2\x82"), r"a\xff\xc3b\xe2\x82");
    }

    #[test]
    fn everything_else_stays() {
        for text in ["", "Lumière 2026 – 夜.record", r"a\x1b\\", "نمی\u{200c}خواهم", "=1+2", "<b>\"'&"] {
            assert_eq!(shown(text), text);
            assert_eq!(shown(shown(text)), text);
        }
    }

    #[test]
    fn names_in_pages() {
        assert_eq!(in_page("two\nlines\x1b[31m"), "two\u{fffd}lines\u{fffd}[31m");
        assert_eq!(in_page(OsStr::from_bytes(b"\xff\xfe.record")), "\u{fffd}\u{fffd}.record");
        assert_eq!(in_page("\u{202e}gpj.exe"), r"\xe2\x80\xaegpj.exe");
    }

    #[test]
    fn lines_stay_lines() {
        assert_eq!(lines("a\r\nb\x1b\n"), "a\\x0d\nb\\x1b\n");
    }
}
