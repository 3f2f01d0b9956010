//! carolsedge gaps: how many runs of the counter's gaps have one lost total.
use crate::output;
use crate::outside::shown;
use crate::stop::Stop;
use crate::words::{number_or_most, Words};
use crate::Subcommand;
use std::ffi::OsString;

pub const SUBCOMMAND: Subcommand =
    Subcommand { name: "gaps", summary: "count the runs of gaps behind each lost total", help: HELP, run };

const HELP: &str = "\
usage: carolsedge gaps N

Prints how many runs of N gaps of the counter, each 0 to 15, lose a total of 0,
of 1, and so on up to 14 N: an entry a line, 14 N + 1 lines. A gap of 0 or 1
loses nothing, one of 2 to 15 loses 1 to 14. N is 0 to 15.

Exit status: 0 printed, 1 refused, 2 wrong words or standard output's error.
";

/// Entries of the longest table.
const MOST: usize = 14 * 15 + 1;

fn run(words: Vec<OsString>) -> Result<(), Stop> {
    let n = asked(words)?;
    let mut table = [0; MOST];
    let entries = carolsedge::gap_runs(n, &mut table)?;
    output::print(&lines(table.iter().take(entries)))
}

/// How many gaps: one word. That there are at most 15 is for the library to see (refusal 24).
fn asked(words: Vec<OsString>) -> Result<u32, Stop> {
    let word = Words::part(words, &[], &[])?.one("N")?;
    match word.to_str().and_then(number_or_most) {
        Some(gaps) => Ok(gaps),
        None => Err(Stop::Usage(format!("{}: not a number of gaps", shown(word)))),
    }
}

/// An entry a line, from a total of 0 upward.
fn lines<'a>(table: impl Iterator<Item = &'a u64>) -> String {
    table.map(|runs| format!("{runs}\n")).collect()
}

#[cfg(test)]
mod tests {
    use super::*;

    fn given(words: &[&str]) -> Option<u32> {
        asked(words.iter().map(OsString::from).collect()).ok()
    }

    #[test]
    fn one_number() {
        assert_eq!(given(&["0"]), Some(0));
        assert_eq!(given(&["0xF"]), Some(15));
        assert_eq!(given(&["4294967295"]), Some(u32::MAX));
        assert_eq!(given(&["4294967296"]), Some(u32::MAX));
    }

    #[test]
    fn anything_else() {
        for words in [&[][..], &[""], &["x"], &["-1"], &["--all"], &["1", "2"], &["4294967296x"]] {
            assert_eq!(given(words), None, "{words:?}");
        }
    }

    #[test]
    fn an_entry_a_line() {
        assert_eq!(lines([2, 1, u64::MAX].iter()), "2\n1\n18446744073709551615\n");
    }
}
