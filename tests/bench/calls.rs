//! Single calls, each beside another that does the same work, in turn in every round of one run.
use crate::make::captures::CaptureMaker;
use crate::prng::Prng;
use crate::{feed_ours, largest_record, loss, ours, pieces, record, rtp, shelf, sum_all, timed, verify};
use crate::{Cut, Input, EDITION, PID, ROUNDS};
use std::fmt;
use std::hint::black_box;

/// Calls of a round, where one is too short to be timed alone.
const CALLS: usize = 100_000;

/// The display time with which 750 pictures can have 250 scenes, in microseconds.
const LONGEST_TIME: u32 = 200_000;

/// How the seconds of a call are printed: as the speed at which it takes so many bytes, or as they are.
#[derive(Clone, Copy)]
enum Figure {
    Speed(usize),
    Time,
}

impl Figure {
    fn text(self, seconds: f64) -> String {
        match self {
            Figure::Speed(bytes) => format!("{:.2} GB/s", 1e-9 * bytes as f64 / seconds),
            Figure::Time if seconds < 1e-6 => format!("{:.1} ns", 1e9 * seconds),
            Figure::Time => format!("{:.3} ms", 1e3 * seconds),
        }
    }
}

/// Best seconds of a call of ours, and of what stands beside it.
pub struct Row {
    name: &'static str,
    beside: &'static str,
    figure: Figure,
    seconds: [f64; 2],
    /// What is asked of the ratio, or of the seconds, and whether it holds.
    pub goals: Vec<(String, bool)>,
}

impl Row {
    fn new(name: &'static str, beside: &'static str, figure: Figure, seconds: [f64; 2]) -> Row {
        Row { name, beside, figure, seconds, goals: Vec::new() }
    }

    /// How many times as fast as the other we are, in hundredths, as it is printed.
    fn ratio(&self) -> f64 {
        (100.0 * self.seconds[1] / self.seconds[0]).round() / 100.0
    }

    fn quick(&self) -> bool {
        self.seconds.iter().all(|&seconds| seconds < 1e-6)
    }

    fn goal(mut self, text: &str, holds: impl Fn(&Row) -> bool) -> Row {
        self.goals.push((format!("{}: {text}", self.name), holds(&self)));
        self
    }
}

impl fmt::Display for Row {
    fn fmt(&self, f: &mut fmt::Formatter<'_>) -> fmt::Result {
        let [ours, other] = self.seconds.map(|seconds| self.figure.text(seconds));
        write!(f, "{:36}{ours:>12}   {:24}{other:>12}{:>8.2}", self.name, self.beside, self.ratio())
    }
}

/// The heads of the columns of a row.
pub fn heads() -> String {
    format!("{:36}{:>12}   {:36}{:>8}", "calls", "ours", "beside", "ratio")
}

pub fn rows(capture: &Input) -> Vec<Row> {
    let mut rows = vec![survey_feed(capture), index_call(), repeats_call(), verify_largest(), effective_loss()];
    rows.push(rtp_falling());
    rows.extend(all_units());
    rows.extend(shelf_test());
    rows
}

/// Best seconds of some works, which are done in turn in every round.
fn best<const N: usize>(mut works: [&mut dyn FnMut() -> f64; N]) -> [f64; N] {
    let mut best = [f64::MAX; N];
    for _ in 0..ROUNDS {
        for (best, work) in best.iter_mut().zip(&mut works) {
            *best = best.min(work());
        }
    }
    best
}

/// A survey's feed beside a sample's feed of the same capture.
fn survey_feed(capture: &Input) -> Row {
    let pieces = pieces(&capture.bytes, Cut::Every(65_536));
    let seconds = best([&mut || feed_survey(&pieces), &mut || feed_ours(capture, &pieces)]);
    let row = Row::new("survey at 65536", "the capture feed", Figure::Speed(capture.bytes.len()), seconds);
    row.goal("0.9 of the capture feed", |row| row.ratio() >= 0.9)
}

fn feed_survey(pieces: &[&[u8]]) -> f64 {
    let mut state = ours::SurveyState::open();
    let seconds = timed(|| {
        for &bytes in pieces {
            assert_eq!(state.feed(bytes), Ok(bytes.len()));
        }
    });
    assert_eq!(state.ask().map(|(pid, _)| pid), Ok(PID), "the identifier with most packets");
    seconds
}

/// An index call after 750 units and 750 pictures beside one after one of each.
fn index_call() -> Row {
    let (many, one) = (sample_of(750), sample_of(1));
    let ask = |state: &ours::State| {
        timed(|| (0..CALLS).for_each(|_| assert!(black_box(black_box(state).index()).is_ok()))) / CALLS as f64
    };
    let seconds = best([&mut || ask(&many), &mut || ask(&one)]);
    let row = Row::new("index call at 750 units", "at 1 unit", Figure::Time, seconds);
    row.goal("less than a microsecond", Row::quick)
        .goal("the same as at 1 unit, within a tenth", |row| (0.9..=1.1).contains(&row.ratio()))
}

/// A question of the repeats of 750 pictures beside one of a single picture's.
fn repeats_call() -> Row {
    let state = sample_of(750);
    let ask = |end: u32| {
        let calls = || (0..CALLS).for_each(|_| assert_eq!(black_box(&state).repeats(0, black_box(end)), Ok(0)));
        timed(calls) / CALLS as f64
    };
    let seconds = best([&mut || ask(750), &mut || ask(1)]);
    let row = Row::new("repeats of 750 pictures", "of 1 picture", Figure::Time, seconds);
    row.goal("less than a microsecond", Row::quick)
}

/// A sealed record of 750 units and 250 scenes, of which every row has to be looked at.
fn verify_largest() -> Row {
    const PICTURES: u32 = 750;
    let mut luma = vec![0; PICTURES as usize * 64 * 48];
    assert_eq!(ours::busiest_luma(64, 48, LONGEST_TIME, PICTURES, 0, &mut luma), Ok(luma.len()));
    let state = sample_with(750, LONGEST_TIME, &luma);
    let mut record = vec![0; crate::record::LONGEST];
    assert_eq!(state.seal(&mut record), Ok(crate::record::LONGEST), "the longest record");
    let mut ours = || timed(|| assert_eq!(ours::verify(black_box(&record)).map(|verdict| verdict[0]), Ok(0)));
    let could_be = |record: &[u8]| matches!(verify::verify(record), Ok(verify::Verdict::CouldBe(_)));
    let mut other = || timed(|| assert!(could_be(black_box(&record))));
    let seconds = best([&mut ours, &mut other]);
    let row = Row::new("verify of the largest record", "independent", Figure::Time, seconds);
    row.goal("less than a tenth of a millisecond", |row| row.seconds[0] < 1e-4)
}

/// A sample that was fed so many units and as many pictures.
fn sample_of(count: usize) -> Box<ours::State> {
    sample_with(count, 40_000, &Prng::new(1).bytes(count * 64 * 48))
}

fn sample_with(units: usize, time: u32, luma: &[u8]) -> Box<ours::State> {
    let mut random = Prng::new(1);
    let mut maker = CaptureMaker::new(&mut random, PID);
    maker.units(units);
    let mut state = ours::State::new();
    assert_eq!(state.open(64, 48, time, PID, EDITION), Ok(()), "a good opening");
    for (answer, length) in [
        (state.feed_capture(&maker.side.bytes), maker.side.bytes.len()),
        (state.feed_luma(luma), luma.len()),
    ] {
        assert_eq!(answer, Ok(length));
    }
    state
}

/// Losses of 750 units with key frames as unlikely as are heeded: each loss reaches over hundreds of later units.
fn effective_loss() -> Row {
    const UNITS: usize = 750;
    let losses: Vec<u32> = (1..=UNITS as u32).collect();
    let probabilities = [0.01f64.next_up(); UNITS];
    let mut lists = [[[0.0; UNITS]; 2]; 2];
    let [[keys, plain], [other_keys, other_plain]] = &mut lists;
    let mut ours = || {
        timed(|| assert_eq!(ours::effective_loss(UNITS as u32, &losses, &probabilities, keys, plain), Ok(())))
    };
    let mut other = || {
        timed(|| assert_eq!(loss::fill(UNITS, &losses, &probabilities, other_keys, other_plain), Ok(())))
    };
    let seconds = best([&mut ours, &mut other]);
    assert_eq!(lists[0], lists[1], "the same lists");
    let row = Row::new("effective loss of 750 units", "independent", Figure::Time, seconds);
    row.goal("no slower than the independent program", |row| row.ratio() >= 1.0)
}

/// Packets that come in falling order, in units of eight.
fn rtp_falling() -> Row {
    const ROWS: u16 = 4_096;
    let sequence: Vec<u16> = (0..ROWS).rev().collect();
    let marker: Vec<bool> = sequence.iter().map(|number| number % 8 == 7).collect();
    let time: Vec<u64> = (0..u64::from(ROWS)).map(|row| 1_000 * row).collect();
    let size = vec![1_400; ROWS.into()];
    let packets = rtp::Packets {
        sequence: sequence.clone(),
        marker: marker.iter().map(|&set| u16::from(set)).collect(),
        time: time.clone(),
        length: size.clone(),
    };
    let mut buffers = [[0; 32 * ROWS as usize / 8]; 2];
    let [buffer, other_buffer] = &mut buffers;
    let mut ours = || timed(|| assert_eq!(ours::rtp_units(&sequence, &marker, &time, &size, buffer), Ok(512)));
    let mut other = || timed(|| assert_eq!(rtp::write(&packets, other_buffer), Ok(512)));
    let seconds = best([&mut ours, &mut other]);
    assert_eq!(buffers[0], buffers[1], "the same rows");
    let row = Row::new("rtp, 4096 rows in falling order", "independent", Figure::Time, seconds);
    row.goal("0.8 of the independent program", |row| row.ratio() >= 0.8)
}

/// All unit rows of the largest record at once, beside the independent program's and beside our own, read one by one.
fn all_units() -> [Row; 2] {
    const UNITS: usize = 750;
    const REPEATS: u32 = 1_000;
    let bytes = largest_record();
    let mut rows = vec![[0; 6]; UNITS];
    let mut other_rows = Vec::with_capacity(UNITS);
    let each = |seconds: f64| seconds / f64::from(REPEATS);
    let mut ours = || {
        let mut read = || assert_eq!(ours::read_units(black_box(&bytes), &mut rows), Ok(UNITS));
        each(timed(|| (0..REPEATS).for_each(|_| read())))
    };
    let mut other = || {
        each(timed(|| {
            for _ in 0..REPEATS {
                let view = record::View::open(black_box(&bytes)).expect("a good record");
                other_rows.clear();
                other_rows.extend((0..UNITS).map(|j| view.unit(j).expect("a row")));
                black_box(&other_rows);
            }
        }))
    };
    let mut single = || timed(|| (0..UNITS).for_each(|j| assert!(black_box(ours::read_unit(&bytes, j)).is_ok())));
    let [ours, other, single] = best([&mut ours, &mut other, &mut single]);
    let lost = [rows.iter().map(|row| row[4]).sum(), other_rows.iter().map(|row| u64::from(row.lost)).sum::<u64>()];
    assert_eq!(lost[0], lost[1], "the same losses");
    let row = |beside, seconds| Row::new("750 units of the largest record", beside, Figure::Time, [ours, seconds]);
    let read = row("independent", other).goal("no slower than the independent program", |row| row.ratio() >= 1.0);
    [read, row("ours, row by row", single)]
}

/// The longest shelf, tested by the independent program too, and its bytes summed.
fn shelf_test() -> [Row; 2] {
    let shelf = shelf::bind(&vec![largest_record(); 4_096]);
    let mut answer = Ok([0; 2]);
    let mut other_answer = Ok([0; 2]);
    let mut ours = || timed(|| answer = ours::shelf_open(&shelf));
    let mut other = || {
        timed(|| other_answer = shelf::Shelf::open(&shelf).and_then(|shelf| Ok([shelf.count() as u64, shelf.lost()?])))
    };
    let [ours, other, sum] = best([&mut ours, &mut other, &mut || sum_all(&[&shelf])]);
    assert_eq!(answer.expect("a good shelf"), other_answer.expect("a good shelf"), "the same records and losses");
    let name = "shelf of 4096 largest records";
    let row = |beside, seconds| Row::new(name, beside, Figure::Speed(shelf.len()), [ours, seconds]);
    let tested = row("independent", other).goal("no slower than the independent program", |row| row.ratio() >= 1.0);
    [tested, row("a wide sum", sum)]
}
