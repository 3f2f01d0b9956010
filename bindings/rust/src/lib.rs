//! Measures how a video stream arrived at one place: a packet capture and up to 750 luma pictures go in, and one small
//! record comes out, 64 bytes and a row of 32 for each unit and each scene. The work is done by a library in which
//! every call is proved to answer what the written rule (`docs/RULE.md`) says, however the bytes are cut into pieces;
//! this crate is the thin way to it.
//!
//! ```
//! use carolsedge::{Opening, Record, Sample, Verdict, NEWEST_EDITION, RECORD_MOST};
//!
//! # fn main() -> Result<(), carolsedge::Refusal> {
//! # // A capture of one frame, at 10 s 5 µs, with one packet of PID 256.
//! # let mut capture = vec![0xD4, 0xC3, 0xB2, 0xA1, 2, 0, 4, 0, 0, 0, 0, 0, 0, 0, 0, 0, 0xFF, 0xFF, 0, 0, 1, 0, 0, 0];
//! # capture.extend([10, 0, 0, 0, 5, 0, 0, 0, 230, 0, 0, 0, 230, 0, 0, 0]);
//! # let mut frame = [0u8; 230];
//! # frame[12..15].copy_from_slice(&[8, 0, 0x45]);
//! # frame[16..18].copy_from_slice(&216u16.to_be_bytes());
//! # frame[23] = 17;
//! # frame[38..40].copy_from_slice(&196u16.to_be_bytes());
//! # frame[42..46].copy_from_slice(&[0x47, 0x41, 0, 0x10]);
//! # capture.extend(frame);
//! # let luma = [0u8; 2 * 30 * 30];
//! let mut sample = Sample::open(Opening { width: 30, height: 30, time: 40_000, pid: 256, edition: NEWEST_EDITION })?;
//! for piece in capture.chunks(100) {
//!     sample.feed_capture(piece)?;
//! }
//! sample.feed_luma(&luma)?;
//! let mut buffer = [0; RECORD_MOST];
//! let length = sample.seal(&mut buffer)?;
//!
//! let record = Record::read(&buffer[..length])?;
//! assert_eq!(record.header().index, 3.0);
//! if let Verdict::CouldBeSealed(reached) = record.verify()? {
//!     assert_eq!(reached.to_string(), "3.0 = 1 + 4 x (1 / 2) x (1 / (1 + 0))");
//! }
//! for unit in record.units() {
//!     println!("{} packets, {} lost, from {} on", unit.packets, unit.lost, unit.least);
//! }
//! assert_eq!(record.scenes().len(), 1);
//! # Ok(())
//! # }
//! ```
//!
//! The archive `libcarolsedge.a` is for x86-64 Linux. The build looks for it in the folder that the environment
//! variable `CAROLSEDGE_LIB_DIR` names, and otherwise in `target/staticlib` at the top of the repository, where
//! `make library` writes it.
#![deny(missing_docs, unsafe_code)]
#![cfg_attr(
    not(test),
    deny(
        clippy::unwrap_used,
        clippy::expect_used,
        clippy::panic,
        clippy::indexing_slicing,
        clippy::string_slice,
        clippy::print_stdout,
        clippy::print_stderr
    )
)]

mod busiest;
mod gaps;
mod loss;
mod raw;
mod record;
mod refusal;
mod rtp;
mod sample;
mod shelf;
mod survey;
mod verify;

pub use busiest::{busiest_luma, most_scenes};
pub use gaps::gap_runs;
pub use loss::effective_loss;
pub use record::{sheet, Header, Record, Scene, Unit};
pub use refusal::Refusal;
pub use rtp::rtp_units;
pub use sample::{Index, Opening, Sample};
pub use shelf::{shelf_of, shelf_part, shelf_write, Shelf, SHELF_MOST, SHELF_RECORDS_MOST};
pub use survey::{Most, Survey};
pub use verify::{verify, Mark, Missing, Reached, Verdict};

/// The version of this crate, and of the library's header (`CAROLSEDGE_VERSION`).
pub const VERSION: &str = env!("CARGO_PKG_VERSION");

/// The newest edition of the rules (`docs/RULE.md`, 1). The editions are 1 to this one.
pub const NEWEST_EDITION: u32 = 4;

/// No record is longer: 64 bytes, and 32 for each of 750 units and 250 scenes.
pub const RECORD_MOST: usize = 32_064;

/// No sheet is longer: 17 pages of 60 lines of 101 bytes.
pub const SHEET_MOST: usize = 103_020;
