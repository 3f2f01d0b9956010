//! Speed of the library's feeds, beside the independent program's feeds, a wide sum of the same bytes, and memcpy; the
//! time that the largest sheet takes; and other calls, each beside one that does the same work (`calls.rs`).
//!
//! All four take the same bytes in the same pieces, in turn in every round. A figure is the best of its rounds, by CPU
//! time of this process.
//! It is linked with libcarolsedge.a, has the calls of bindings/rust, and the independent program's modules as they
//! are. The last lines say which goals hold.
#![allow(dead_code)]

#[path = "../independent/second/batch.rs"]
mod batch;
#[path = "../independent/second/busiest.rs"]
mod busiest;
#[path = "../independent/second/capture.rs"]
mod capture;
#[path = "../independent/second/cells.rs"]
mod cells;
#[path = "../independent/second/film.rs"]
mod film;
#[path = "../independent/second/lent.rs"]
mod lent;
#[path = "../independent/second/loss.rs"]
mod loss;
#[path = "../independent/second/luma.rs"]
mod luma;
#[path = "../independent/second/make"]
mod make {
    pub mod captures;
    pub mod weave;
}
#[path = "../independent/second/opening.rs"]
mod opening;
#[path = "../independent/second/prng.rs"]
mod prng;
#[path = "../independent/second/record.rs"]
mod record;
#[path = "../independent/second/records.rs"]
mod records;
#[path = "../independent/second/rtp.rs"]
mod rtp;
#[path = "../independent/second/sample.rs"]
mod sample;
#[path = "../independent/second/script.rs"]
mod script;
#[path = "../independent/second/shelf.rs"]
mod shelf;
#[path = "../independent/second/units.rs"]
mod units;
#[path = "../independent/second/verify.rs"]
mod verify;

#[path = "../../bindings/rust/src/raw.rs"]
mod ours;
#[path = "../../bindings/rust/src/refusal.rs"]
mod refusal;

mod calls;

use make::captures::CaptureMaker;
use opening::Opening;
use prng::Prng;
use std::arch::x86_64::{__m128i, _mm_add_epi64, _mm_loadu_si128, _mm_sad_epu8, _mm_setzero_si128};
use std::hint::black_box;

/// How the bytes are cut: pieces of one size, or a frame's header and its body in turn, as a
/// live capture hands them over.
#[derive(Clone, Copy, PartialEq)]
enum Cut {
    Every(usize),
    Frames,
}

const CUTS: [Cut; 3] = [Cut::Every(1_316), Cut::Every(65_536), Cut::Every(2_073_600)];

const FILE_HEADER: usize = 24;
const FRAME_HEADER: usize = 16;

/// Rounds of which the best counts: many and short, as other work on the machine comes and goes.
const ROUNDS: usize = 40;

/// Bytes that a round takes at least, and those of the capture.
const ROUND: usize = 16 << 20;
const CAPTURE: usize = 64 << 20;

const PID: u32 = 256;
/// The edition of the rules that samples are measured by.
const EDITION: u32 = 1;

/// Bytes of the longest sheet: 17 pages.
const SHEET_MOST: usize = 103_020;

/// Best seconds a byte of ours, the independent program's, the wide sum's and memcpy's.
struct Times([f64; 4]);

impl Times {
    /// How many times as fast as another we are, in hundredths, as it is printed.
    fn ratio(&self, other: usize) -> f64 {
        (100.0 * self.0[other] / self.0[0]).round() / 100.0
    }
}

#[derive(Clone, Copy, PartialEq)]
enum Side {
    Capture,
    Luma,
}

/// Input of one side: a film of whole pictures, or a capture.
struct Input {
    name: &'static str,
    opening: Opening,
    side: Side,
    bytes: Vec<u8>,
}

fn main() {
    let inputs = [
        film("luma 1920 x 1080", 1920, 1080, 32),
        film("luma 64 x 48", 64, 48, 750),
        stream(),
        film("luma 320 x 180", 320, 180, 300),
        film("luma 640 x 360", 640, 360, 75),
        film("luma 1280 x 720", 1280, 720, 19),
    ];
    println!(
        "{:18}{:>10}{:>9}{:>13}{:>11}{:>9}   ours by: independent  wide sum    memcpy",
        "GB/s", "piece", "ours", "independent", "wide sum", "memcpy"
    );
    let mut goals = Vec::new();
    for input in &inputs {
        let frames = if input.side == Side::Capture { &[Cut::Frames][..] } else { &[] };
        for &cut in CUTS.iter().chain(frames) {
            let times = measure(input, cut);
            let speed = |i: usize| 1e-9 / times.0[i];
            println!(
                "{:18}{:>10}{:>9.2}{:>13.2}{:>11.2}{:>9.2}{:>23.2}{:>10.2}{:>10.2}",
                input.name, name_of(cut), speed(0), speed(1), speed(2), speed(3),
                times.ratio(1), times.ratio(2), times.ratio(3)
            );
            goals.extend(goals_of(input, cut, &times));
        }
    }
    let sheet = sheet_seconds();
    println!("the largest sheet: {:.3} ms", 1e3 * sheet);
    goals.push(("the largest sheet in less than a millisecond".to_string(), sheet < 1e-3));
    println!("{}", calls::heads());
    for row in calls::rows(&inputs[2]) {
        println!("{row}");
        goals.extend(row.goals);
    }
    let named = |holds: bool| goals.iter().filter(|goal| goal.1 == holds).map(|goal| goal.0.as_str())
        .collect::<Vec<_>>().join("; ");
    println!("goals that hold: {}", named(true));
    println!("goals that do not: {}", if goals.iter().all(|goal| goal.1) { "none".to_string() } else { named(false) });
}

fn name_of(cut: Cut) -> String {
    match cut {
        Cut::Every(size) => size.to_string(),
        Cut::Frames => "frames".to_string(),
    }
}

/// The goals about one line of the table, and whether each holds. Pieces of luma below 65,536 bytes have
/// none, but for small pictures.
fn goals_of(input: &Input, cut: Cut, times: &Times) -> Vec<(String, bool)> {
    let (alone, sum) = (times.ratio(1), times.ratio(2));
    let goal = |text: &str, holds: bool| (format!("{} at {}: {text}", input.name, name_of(cut)), holds);
    let whole = matches!(cut, Cut::Every(size) if size >= 65_536);
    match input.name {
        "luma 64 x 48" | "luma 320 x 180" | "luma 640 x 360" | "luma 1280 x 720" => {
            vec![goal("no slower than the independent program", alone >= 1.0)]
        }
        "capture" if whole => vec![
            goal("1.2 of the independent program", alone >= 1.2),
            goal("faster than the wide sum", sum > 1.0),
        ],
        "capture" => vec![goal("no slower than the independent program", alone >= 1.0)],
        _ if whole => vec![
            goal("no slower than the independent program", alone >= 1.0),
            goal("0.8 of the wide sum", sum >= 0.8),
        ],
        _ => Vec::new(),
    }
}

/// The input's bytes, cut. A stored length is the third word of a frame's header.
fn pieces(bytes: &[u8], cut: Cut) -> Vec<&[u8]> {
    match cut {
        Cut::Every(size) => bytes.chunks(size).collect(),
        Cut::Frames => {
            let (first, mut rest) = bytes.split_at(FILE_HEADER);
            let mut all = vec![first];
            while rest.len() >= FRAME_HEADER {
                let stored = u32::from_le_bytes([rest[8], rest[9], rest[10], rest[11]]) as usize;
                let (header, more) = rest.split_at(FRAME_HEADER);
                let (body, more) = more.split_at(stored.min(more.len()));
                all.extend([header, body]);
                rest = more;
            }
            all.push(rest);
            all
        }
    }
}

/// CPU seconds of the sheet of the largest record: the best of the rounds.
fn sheet_seconds() -> f64 {
    let record = largest_record();
    let mut buffer = vec![0; SHEET_MOST];
    let mut print = || timed(|| assert_eq!(ours::sheet(&record, &mut buffer), Ok(SHEET_MOST)));
    (0..ROUNDS).map(|_| print()).fold(f64::MAX, f64::min)
}

/// A record of 750 units and 250 scenes, with figures of as many digits as they can have.
fn largest_record() -> Vec<u8> {
    const CELLS: u32 = u32::MAX / 184;
    let header = [1, 32_064, 750, 64, 250, 24_064, 1920, 1088, 40_000, PID, 750, 0, 0, 0, u32::MAX, u32::MAX];
    let unit = [u32::MAX, u32::MAX, u32::MAX, u32::MAX, 184 * CELLS, CELLS, u32::MAX, 0];
    let scene = |j: u32| [3 * j, 3, u32::MAX, u32::MAX, u32::MAX, u32::MAX, u32::MAX, 0];
    let rows = (0..750).flat_map(|_| unit).chain((0..250).flat_map(scene));
    header.into_iter().chain(rows).flat_map(u32::to_le_bytes).collect()
}

/// Pictures of noise.
fn film(name: &'static str, width: u32, height: u32, pictures: usize) -> Input {
    let opening = Opening { width, height, display_time: 40_000, pid: PID, edition: EDITION };
    let bytes = Prng::new(1).bytes(pictures * (width * height) as usize);
    Input { name, opening, side: Side::Luma, bytes }
}

/// A capture of UDP frames with seven packets each, and a skipped frame in ten.
fn stream() -> Input {
    let opening = Opening { width: 64, height: 48, display_time: 40_000, pid: PID, edition: EDITION };
    let mut random = Prng::new(1);
    let mut maker = CaptureMaker::new(&mut random, PID);
    maker.start_every = 2_000;
    for number in 1.. {
        if maker.side.bytes.len() >= CAPTURE {
            break;
        }
        if number % 10 == 0 { maker.skipped_record() } else { maker.carrying_record(7) }
    }
    Input { name: "capture", opening, side: Side::Capture, bytes: std::mem::take(&mut maker.side.bytes) }
}

fn measure(input: &Input, cut: Cut) -> Times {
    let pieces = pieces(&input.bytes, cut);
    let repeats = ROUND.div_ceil(input.bytes.len());
    let mut copy = input.bytes.clone();
    let mut best = [f64::MAX; 4];
    for _ in 0..ROUNDS {
        let mut seconds = [0.0; 4];
        for _ in 0..repeats {
            seconds[0] += feed_ours(input, &pieces);
            seconds[1] += feed_independent(input, &pieces);
            seconds[2] += sum_all(&pieces);
            seconds[3] += copy_all(&pieces, &mut copy);
        }
        for (best, seconds) in best.iter_mut().zip(seconds) {
            *best = best.min(seconds / (repeats * input.bytes.len()) as f64);
        }
    }
    Times(best)
}

fn feed_ours(input: &Input, pieces: &[&[u8]]) -> f64 {
    let Opening { width, height, display_time, pid, edition } = input.opening;
    let mut state = ours::State::new();
    assert_eq!(state.open(width, height, display_time, pid, edition), Ok(()), "a good opening");
    timed(|| {
        for &bytes in pieces {
            let answer = match input.side {
                Side::Capture => state.feed_capture(bytes),
                Side::Luma => state.feed_luma(bytes),
            };
            assert_eq!(answer, Ok(bytes.len()));
        }
    })
}

fn feed_independent(input: &Input, pieces: &[&[u8]]) -> f64 {
    let mut sample = sample::Sample::open(input.opening);
    timed(|| {
        for &bytes in pieces {
            let answer = match input.side {
                Side::Capture => sample.feed_capture(bytes),
                Side::Luma => sample.feed_luma(bytes),
            };
            assert_eq!(answer, Ok(bytes.len()));
        }
    })
}

fn sum_all(pieces: &[&[u8]]) -> f64 {
    timed(|| {
        for &bytes in pieces {
            black_box(wide_sum(bytes));
        }
    })
}

fn copy_all(pieces: &[&[u8]], copy: &mut [u8]) -> f64 {
    timed(|| {
        let mut at = 0;
        for bytes in pieces {
            copy[at..at + bytes.len()].copy_from_slice(bytes);
            at += bytes.len();
        }
        black_box(&copy);
    })
}

/// The sum of all bytes, by the processor's wide sums of bytes, four at a time.
fn wide_sum(bytes: &[u8]) -> u64 {
    let chunks = bytes.chunks_exact(64);
    let rest: u64 = chunks.remainder().iter().map(|&byte| u64::from(byte)).sum();
    // SAFETY: SSE2 is part of x86-64; each load reads 16 of the chunk's 64 bytes.
    unsafe {
        let zero = _mm_setzero_si128();
        let mut sums = [zero; 4];
        for chunk in chunks {
            for (i, sum) in sums.iter_mut().enumerate() {
                let part = _mm_loadu_si128(chunk.as_ptr().add(16 * i).cast::<__m128i>());
                *sum = _mm_add_epi64(*sum, _mm_sad_epu8(part, zero));
            }
        }
        let sums: [u64; 8] = std::mem::transmute(sums);
        rest + sums.iter().sum::<u64>()
    }
}

#[repr(C)]
struct Timespec {
    seconds: i64,
    nanoseconds: i64,
}

extern "C" {
    fn clock_gettime(clock: i32, time: *mut Timespec) -> i32;
}

const CLOCK_PROCESS_CPUTIME_ID: i32 = 2;

/// Seconds of CPU time of this process so far.
fn cpu_seconds() -> f64 {
    let mut time = Timespec { seconds: 0, nanoseconds: 0 };
    // SAFETY: the call writes the time and nothing else.
    let status = unsafe { clock_gettime(CLOCK_PROCESS_CPUTIME_ID, &mut time) };
    assert_eq!(status, 0, "no clock of CPU time");
    time.seconds as f64 + time.nanoseconds as f64 * 1e-9
}

fn timed(work: impl FnOnce()) -> f64 {
    let before = cpu_seconds();
    work();
    cpu_seconds() - before
}
