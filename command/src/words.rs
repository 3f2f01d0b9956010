//! The words of a command line: options, and the words that are none.
use crate::outside::shown;
use crate::stop::Stop;
use std::ffi::{OsStr, OsString};
use std::num::{IntErrorKind, ParseIntError};
use std::os::unix::ffi::OsStrExt;

/// Words, parted.
pub struct Words {
    plain: Vec<OsString>,
    options: Vec<(&'static str, Option<OsString>)>,
}

impl Words {
    /// Parts words. An option of `valued` takes the word behind it, or what stands behind its `=`; one of `bare`
    /// takes none. Behind a word `--` no word is an option.
    pub fn part(words: Vec<OsString>, valued: &[&'static str], bare: &[&'static str]) -> Result<Words, Stop> {
        let mut parted = Words { plain: Vec::new(), options: Vec::new() };
        let mut words = words.into_iter();
        while let Some(word) = words.next() {
            if word == "--" {
                parted.plain.extend(words.by_ref());
            } else if !word.as_encoded_bytes().starts_with(b"-") || word == "-" {
                parted.plain.push(word);
            } else {
                parted.option(&word, &mut words, valued, bare)?;
            }
        }
        Ok(parted)
    }

    fn option(
        &mut self,
        word: &OsStr,
        behind: &mut impl Iterator<Item = OsString>,
        valued: &[&'static str],
        bare: &[&'static str],
    ) -> Result<(), Stop> {
        let text = shown(word);
        let mut parts = word.as_bytes().splitn(if text.starts_with("--") { 2 } else { 1 }, |&byte| byte == b'=');
        let name = parts.next().unwrap_or_default();
        let value = parts.next().map(|value| OsStr::from_bytes(value).to_owned());
        let usage = |what: &str| Err(Stop::Usage(format!("{text}: {what}")));
        let given = if let Some(name) = valued.iter().find(|n| n.as_bytes() == name) {
            match value.or_else(|| behind.next()) {
                Some(value) => (*name, Some(value)),
                None => return usage("a word is missing behind it"),
            }
        } else if let Some(name) = bare.iter().find(|n| n.as_bytes() == name) {
            if value.is_some() {
                return usage("it takes no value");
            }
            (*name, None)
        } else {
            return usage("no such option");
        };
        if self.has(given.0) {
            return usage("given twice");
        }
        self.options.push(given);
        Ok(())
    }

    pub fn has(&self, option: &str) -> bool {
        self.options.iter().any(|(name, _)| *name == option)
    }

    /// The value of an option, where it is given.
    pub fn value(&self, option: &str) -> Option<&OsStr> {
        let given = self.options.iter().find(|(name, _)| *name == option)?;
        given.1.as_deref()
    }

    /// The value of an option as `read` understands it, where the option is given.
    pub fn read<T>(&self, option: &str, read: impl Fn(&str) -> Option<T>, wanted: &str) -> Result<Option<T>, Stop> {
        let Some(value) = self.value(option) else {
            return Ok(None);
        };
        match value.to_str().and_then(read) {
            Some(value) => Ok(Some(value)),
            None => Err(Stop::Usage(format!("{option} {}: not {wanted}", shown(value)))),
        }
    }

    /// All words that are no options.
    pub fn all(&self) -> &[OsString] {
        &self.plain
    }

    /// The word that is no option, where there is to be one and no more.
    pub fn one(&self, name: &str) -> Result<OsString, Stop> {
        Ok(self.plain(&[name], 0)?.into_iter().flatten().next().unwrap_or_default())
    }

    /// The words that are no options: the `names` by turn, of which the last `free` may be missing.
    pub fn plain(&self, names: &[&str], free: usize) -> Result<Vec<Option<OsString>>, Stop> {
        if let Some(word) = self.plain.get(names.len()) {
            return Err(Stop::Usage(format!("{}: a word too many", shown(word))));
        }
        if let Some(missing) = names.get(self.plain.len()).filter(|_| self.plain.len() + free < names.len()) {
            return Err(Stop::Usage(format!("{missing} is missing")));
        }
        let mut words: Vec<_> = self.plain.iter().cloned().map(Some).collect();
        words.resize(names.len(), None);
        Ok(words)
    }
}

/// A 32-bit number: decimal digits alone, or hexadecimal ones behind 0x.
pub fn number(text: &str) -> Option<u32> {
    digits(text)?.ok()
}

/// Such a number; one that 32 bits do not hold is the greatest that they do, for where the rule refuses both alike.
pub fn number_or_most(text: &str) -> Option<u32> {
    match digits(text)? {
        Err(error) if *error.kind() == IntErrorKind::PosOverflow => Some(u32::MAX),
        read => read.ok(),
    }
}

/// What the digits come to, where there is nothing but digits.
fn digits(text: &str) -> Option<Result<u32, ParseIntError>> {
    let (digits, base) = match text.strip_prefix("0x").or(text.strip_prefix("0X")) {
        Some(digits) => (digits, 16),
        None => (text, 10),
    };
    let all = digits.chars().all(|digit| digit.is_digit(base));
    all.then(|| u32::from_str_radix(digits, base))
}

#[cfg(test)]
mod tests {
    use super::*;

    #[test]
    fn numbers() {
        for (text, read) in [("0", 0), ("4294967295", u32::MAX), ("0xfF", 255), ("0XFFFFFFFF", u32::MAX)] {
            assert_eq!((number(text), number_or_most(text)), (Some(read), Some(read)), "{text}");
        }
        for text in ["4294967296", "18446744073709551616", "0x100000000", "99999999999999999999999999"] {
            assert_eq!((number(text), number_or_most(text)), (None, Some(u32::MAX)), "{text}");
        }
        for text in ["", "0x", "x", "-1", "+1", "1.0", " 1", "4294967296 ", "12_345", "0x0x1", "٣"] {
            assert_eq!((number(text), number_or_most(text)), (None, None), "{text}");
        }
    }
}
