//! carolsedge: the command that people type. Every figure that it prints comes from the proved library, through the
//! crate in bindings/rust; what stands here reads words and files, and says what was found.
//!
//! A subcommand is one file with one `SUBCOMMAND`, listed in `SUBCOMMANDS`.
#![forbid(unsafe_code)]
#![cfg_attr(
    not(test),
    deny(
        clippy::unwrap_used,
        clippy::expect_used,
        clippy::panic,
        clippy::indexing_slicing,
        clippy::string_slice,
        clippy::print_stdout,
        clippy::print_stderr
    )
)]

mod explain;
mod frames;
mod gaps;
mod input;
mod loss;
mod measure;
mod output;
mod outside;
mod page;
mod rtp;
mod sheet;
mod shelf;
mod show;
mod stop;
mod survey;
mod verify;
mod walk;
mod words;
mod write;

use carolsedge_system as system;
use outside::shown;
use std::ffi::OsString;
use std::process::ExitCode;
use stop::Stop;

/// One subcommand: its name, what it does in a line, its help (at most a screen), and the work.
pub struct Subcommand {
    name: &'static str,
    summary: &'static str,
    help: &'static str,
    run: fn(Vec<OsString>) -> Result<(), Stop>,
}

const SUBCOMMANDS: &[Subcommand] = &[
    survey::SUBCOMMAND,
    measure::SUBCOMMAND,
    show::SUBCOMMAND,
    verify::SUBCOMMAND,
    sheet::SUBCOMMAND,
    page::SUBCOMMAND,
    loss::SUBCOMMAND,
    gaps::SUBCOMMAND,
    rtp::SUBCOMMAND,
    shelf::SUBCOMMAND,
    explain::SUBCOMMAND,
];

#[global_allocator]
static MEMORY: system::Memory = system::Memory;

const VERSION: &str = concat!("carolsedge ", env!("CARGO_PKG_VERSION"), "\n");

fn help() -> String {
    let mut text = String::from("usage: carolsedge SUBCOMMAND ..\n\n");
    for subcommand in SUBCOMMANDS {
        text += &format!("  {:10}{}\n", subcommand.name, subcommand.summary);
    }
    text + "\ncarolsedge SUBCOMMAND --help tells more; carolsedge --version gives the version.\n\
            Exit status: 0 done, 1 refused, 2 wrong words or a file's error.\n"
}

/// `carolsedge help`, or `carolsedge help SUBCOMMAND`.
fn help_of(word: Option<OsString>) -> Result<(), Stop> {
    let Some(word) = word else {
        return output::print(&help());
    };
    match SUBCOMMANDS.iter().find(|s| word == s.name) {
        Some(subcommand) => output::print(subcommand.help),
        None => Err(Stop::Usage(format!("{}: no such subcommand", shown(word)))),
    }
}

/// Whether help is asked for, before a word `--` or behind which nothing is an option.
fn asks_help(words: &[OsString]) -> bool {
    let mut options = words.iter().take_while(|word| *word != "--");
    options.any(|word| word == "--help" || word == "-h")
}

fn run(subcommand: &Subcommand, words: Vec<OsString>) -> Result<(), Stop> {
    if asks_help(&words) {
        return output::print(subcommand.help);
    }
    (subcommand.run)(words)
}

fn main() -> ExitCode {
    system::outlive_size_limit();
    let mut words = std::env::args_os().skip(1);
    let first = words.next().unwrap_or_default();
    if let Some(subcommand) = SUBCOMMANDS.iter().find(|s| first == s.name) {
        let name = format!("carolsedge {}", subcommand.name);
        return stop::status(&name, run(subcommand, words.collect()));
    }
    let done = match first.to_str() {
        Some("help") => help_of(words.next()),
        Some("--help" | "-h") => output::print(&help()),
        Some("--version" | "-V") => output::print(VERSION),
        Some("") => Err(Stop::Usage("a subcommand is missing".into())),
        _ => Err(Stop::Usage(format!("{}: no such subcommand", shown(first)))),
    };
    stop::status("carolsedge", done)
}
