//! A line on standard error that says how far a run is: only on a terminal, and only behind the first second.
use crate::output::{grouped, write_over};
use carolsedge::Sample;
use std::io::{self, IsTerminal};
use std::time::{Duration, Instant};

const FIRST: Duration = Duration::from_secs(1);
const EACH: Duration = Duration::from_millis(250);

pub struct Progress {
    terminal: bool,
    begun: Instant,
    shown: Option<Instant>,
    total: Option<u64>,
}

impl Progress {
    /// Of so many bytes in all, where that is known.
    pub fn of(total: Option<u64>) -> Progress {
        let terminal = io::stderr().is_terminal();
        Progress { terminal, begun: Instant::now(), shown: None, total }
    }

    /// Says how far it is and the index so far, where it is time to.
    pub fn at(&mut self, bytes: u64, pictures: u64, sample: Option<&Sample>) {
        if !self.terminal || self.begun.elapsed() < FIRST {
            return;
        }
        if self.shown.is_some_and(|shown| shown.elapsed() < EACH) {
            return;
        }
        self.shown = Some(Instant::now());
        // There is none yet before the first packet and the first picture.
        let index = sample.and_then(|sample| sample.index().ok());
        let index = index.map(|index| format!(", index {:.2} so far", index.value)).unwrap_or_default();
        write_over(&format!("{}{index}", self.line(bytes, pictures)));
    }

    fn line(&self, bytes: u64, pictures: u64) -> String {
        let mega = |bytes: u64| format!("{:.1} MB", bytes as f64 / 1e6);
        let pictures = format!("{} pictures", grouped(pictures));
        match self.total {
            Some(total) if 0 < bytes && bytes <= total => {
                let left = self.begun.elapsed().as_secs_f64() * (total - bytes) as f64 / bytes as f64;
                format!("{} of {}, {pictures}, {left:.0} s left", mega(bytes), mega(total))
            }
            _ => format!("{}, {pictures}", mega(bytes)),
        }
    }
}

impl Drop for Progress {
    fn drop(&mut self) {
        if self.shown.is_some() {
            write_over("");
        }
    }
}
