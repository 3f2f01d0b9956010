//! How a run ends that does not end well, what it says, and its exit status.
use crate::{explain, output};
use carolsedge::Refusal;
use std::io;
use std::process::ExitCode;

/// Why a run stopped.
pub enum Stop {
    /// Words that ask for nothing that can be done: the word, and what is wrong with it.
    Usage(String),
    /// A file, a program or standard output: its name, and the reason.
    Failed(String),
    /// A refusal, with what was found about it.
    Refused(Refused),
    /// All has been said; the exit status.
    Said(u8),
}

/// A refusal as it is printed: `line` on standard output, the rest on standard error.
pub struct Refused {
    line: String,
    refusal: Refusal,
    /// The name of what was refused, where it has one.
    of: Option<String>,
    /// What it means here, where the number's own words would mislead.
    words: Option<String>,
    found: Vec<String>,
}

impl From<Refusal> for Stop {
    fn from(refusal: Refusal) -> Stop {
        Stop::refused(refusal, Vec::new())
    }
}

impl Stop {
    /// A file's error: its name and the system's reason.
    pub fn file(name: &str, error: &io::Error) -> Stop {
        Stop::Failed(format!("{name}: {}", reason(error)))
    }

    /// A refusal, with what was found; without that, what usually mends it is said.
    pub fn refused(refusal: Refusal, found: Vec<String>) -> Stop {
        let line = format!("refused {} {}\n", refusal.number, refusal.place);
        Stop::Refused(Refused { line, refusal, of: None, words: None, found })
    }

    /// The same, with another line on standard output where it is a refusal.
    pub fn printed(self, line: String) -> Stop {
        match self {
            Stop::Refused(refused) => Stop::Refused(Refused { line, ..refused }),
            other => other,
        }
    }

    /// The same, in other words than the number's own where it is a refusal.
    pub fn in_words(self, words: String) -> Stop {
        match self {
            Stop::Refused(refused) => Stop::Refused(Refused { words: Some(words), ..refused }),
            other => other,
        }
    }

    /// The same, with the name of what was refused where it is a refusal that has none yet.
    pub fn of(self, name: &str) -> Stop {
        match self {
            Stop::Refused(refused) => {
                let of = refused.of.or_else(|| Some(name.to_string()));
                Stop::Refused(Refused { of, ..refused })
            }
            other => other,
        }
    }

    /// The same, as one line of many: where it is a refusal, the name of what was refused comes first.
    pub fn listed(self, name: &str) -> Stop {
        match self {
            Stop::Refused(refused) => {
                let line = format!("{name}: {}", refused.line);
                Stop::Refused(Refused { line, of: Some(name.to_string()), ..refused })
            }
            other => other,
        }
    }

    /// The number, where it is a refusal.
    pub fn number(&self) -> Option<u32> {
        match self {
            Stop::Refused(refused) => Some(refused.refusal.number),
            _ => None,
        }
    }
}

/// The system's words for an error, without the number behind them.
pub fn reason(error: &io::Error) -> String {
    error.to_string().split(" (os error").next().unwrap_or_default().to_string()
}

/// Says how a run ended, and gives its exit status.
pub fn status(name: &str, done: Result<(), Stop>) -> ExitCode {
    ExitCode::from(done.map_or_else(|stop| said(name, stop), |()| 0))
}

/// Says why a run stopped, or a part of it, and gives the exit status of that.
pub fn said(name: &str, stop: Stop) -> u8 {
    match stop {
        Stop::Usage(text) => output::say(&format!("{name}: {text}\n{name} --help tells more\n")),
        Stop::Failed(text) => output::say(&format!("{name}: {text}\n")),
        Stop::Refused(refused) => return say_refused(name, &refused),
        Stop::Said(status) => return status,
    }
    2
}

/// What is said goes out in one piece, so that it stays together where many runs have one standard error.
fn say_refused(name: &str, refused: &Refused) -> u8 {
    let printed = output::print(&refused.line);
    let of = refused.of.as_ref().map(|of| format!(": {of}")).unwrap_or_default();
    let found = match (refused.found.is_empty(), refused.refusal) {
        (false, _) => refused.found.join("\n"),
        // A capture of no bytes.
        (true, Refusal { number: 11, place: 0 }) => format!("{}\n{}", explain::EMPTY, explain::mends(11)),
        (true, refusal) => explain::mends(refusal.number).to_string(),
    };
    let what = match &refused.words {
        Some(words) => format!("refused {}: {words}", refused.refusal.number),
        None => refused.refusal.to_string(),
    };
    output::say(&format!("{name}: {what}{of}\n{found}\n"));
    printed.map_or_else(|stop| said(name, stop), |()| 1)
}
