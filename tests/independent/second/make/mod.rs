//! `make`: random scripts for comparing two programs, by families.

mod busiest;
mod captures;
mod films;
mod limit;
mod losses;
mod packets;
mod shelves;
mod surveys;
mod weave;

use crate::opening::Opening;
use crate::prng::Prng;
use captures::{CaptureMaker, Fault};
use films::{FilmMaker, Style};
use std::io::{self, Write};
pub use busiest::arguments as busiest_arguments;
pub use limit::make_survey as make_survey_limit;
pub use losses::input as loss_input;
pub use packets::input as rtp_input;
pub use shelves::shelf;
pub use surveys::{capture_file, make as make_survey};
use weave::{weave, Cutting, Plan, Side};

/// Names of the families, and what each of them is about.
pub const KINDS: [(&str, &str); 16] = [
    ("valid", "small valid samples of every kind, cut anywhere, seals between"),
    ("scenes", "scene starts, repeats, runs, changes; cut strengths near their bounds"),
    ("changes", "changes q on either side of a half, and at it"),
    ("shapes", "every level k, surplus columns and rows"),
    ("frames", "skipped frames of every kind, padding, bad and foreign cells, lost cells, times"),
    ("openings", "refused openings and openings on the bounds"),
    ("faults", "wrong magic, link type, microseconds, stored length, and feeding on"),
    ("splices", "spliced cells with and without a length byte, gaps, cells cut behind each of their first bytes"),
    ("damaged", "damaged cells before and in units, with start marks and splices"),
    ("units", "749 to 760 units"),
    ("pictures", "749 to 751 pictures, up to 250 scenes"),
    ("ends", "captures and pictures that aren't finished, headers alone, nothing at all"),
    ("seals", "a seal after almost every feed"),
    ("tiny", "pieces of 0 to 3 bytes"),
    ("garbage", "scripts that end inside a call or hold no call; lengths too great"),
    ("mixed", "any capture with any film and any opening"),
];

/// The family that isn't in `KINDS`, as its scripts hold 256 MiB.
pub const LIMIT: &str = "limit";

/// Writes the script of a seed and a family (by name or number); false if there is no such family.
pub fn make(seed: u64, kind: &str, script: impl Write) -> io::Result<bool> {
    let mut random = Prng::new(seed);
    if kind == LIMIT {
        return limit::make(seed, script).map(|()| true);
    }
    let by_number = kind.parse().ok().filter(|&number: &usize| number < KINDS.len());
    let Some(number) = by_number.or(KINDS.iter().position(|(name, _)| *name == kind)) else {
        return Ok(false);
    };
    for _ in 0..=number {
        random = Prng::new(random.next());
    }
    if KINDS[number].0 == "garbage" {
        return garbage(&mut random, script).map(|()| true);
    }
    let plan = plan(&mut random, KINDS[number].0);
    weave(&mut random, plan, script).map(|()| true)
}

fn plan(random: &mut Prng, kind: &str) -> Plan {
    let opening = match kind {
        "shapes" => shaped_opening(random),
        "openings" => any_opening(random),
        "mixed" if random.once_in(8) => any_opening(random),
        "scenes" => scene_opening(random),
        "valid" => small_opening(random),
        "changes" => changed_opening(random),
        "damaged" => Opening { edition: random.pick(&[3, 4, 4, 4]), width: 15, height: 30, ..small_opening(random) },
        "splices" => Opening { edition: random.pick(&[1, 2, 3, 4]), width: 15, height: 30, ..small_opening(random) },
        "mixed" if random.once_in(2) => small_opening(random),
        _ => Opening { width: 15, height: 30, ..small_opening(random) },
    };
    let capture_family = match kind {
        "frames" | "splices" | "damaged" | "faults" | "units" | "ends" => kind,
        "mixed" => random.pick(&["valid", "few", "frames", "splices", "damaged", "faults", "units", "ends"]),
        "valid" => "valid",
        _ => "few",
    };
    let film_family = match kind {
        "valid" | "scenes" | "changes" | "pictures" | "ends" => kind,
        "mixed" => random.pick(&["valid", "few", "scenes", "pictures", "ends"]),
        _ => "few",
    };
    let cutting = match kind {
        "tiny" => Cutting::Tiny,
        "splices" => Cutting::AtEnds,
        _ => random.pick(&[Cutting::Any, Cutting::AtEnds]),
    };
    let seal_every = if kind == "seals" { 2 } else { 25 };
    let feeds = if kind == "tiny" { 4_000 } else { random.pick(&[6, 60, 300]) };
    let capture = capture(random, capture_family, opening.pid & 8191);
    let luma = film(random, film_family, &opening);
    Plan { opening, capture, luma, cutting, seal_every, feeds }
}

fn opening_of(random: &mut Prng, (width, height): (u32, u32)) -> Opening {
    let display_time = random.pick(&[10_000, 39_999, 40_000, 40_001, 199_999, 200_000, 200_000]);
    let pid = random.pick(&[0, 1, 256, 256, 257, 4_096, 8_190, 8_191]);
    Opening { width, height, display_time, pid, edition: any_edition(random) }
}

/// A rule edition, mostly an allowed one.
fn any_edition(random: &mut Prng) -> u32 {
    let refused = random.pick(&[0, 5, 256 + 1, u32::MAX]);
    if random.once_in(20) { refused } else { random.pick(&[1, 2, 3, 4, 4]) }
}

fn small_opening(random: &mut Prng) -> Opening {
    loop {
        let sides = (random.between(15, 64) as u32, random.between(30, 48) as u32);
        let opening = opening_of(random, sides);
        if opening.check().is_ok() {
            return opening;
        }
    }
}

/// A size with six tiles of 1,000 pixels: one pixel of each gives a cut strength of just 1,000.
const ROUND_TILES: (u32, u32) = (150, 59);

/// Sizes whose tiles have round numbers of pixels, so that cut strengths can meet their bounds.
fn scene_opening(random: &mut Prng) -> Opening {
    let sides = random.pick(&[(15, 30), (15, 30), (30, 30), (60, 60), ROUND_TILES, ROUND_TILES, (236, 59)]);
    let display_time = random.pick(&[200_000, 200_000, 40_000, 40_001, 120_000, 150_000]);
    Opening { display_time, ..opening_of(random, sides) }
}

/// Sizes of 1,600 reduced pixels: a change may lie halfway between two whole numbers there.
fn changed_opening(random: &mut Prng) -> Opening {
    let sides = random.pick(&[(40, 40), (40, 40), (50, 32), (80, 80), (81, 83)]);
    Opening { edition: random.pick(&[1, 2, 3, 3, 4]), ..opening_of(random, sides) }
}

/// Sizes of every level k, many with surplus columns and rows.
fn shaped_opening(random: &mut Prng) -> Opening {
    if random.once_in(12) {
        let sides = random.pick(&[(1001, 961), (1920, 1080), (1920, 1088), (1916, 479), (544, 1088), (1023, 1000)]);
        return opening_of(random, sides);
    }
    let named = [(61, 61), (125, 123), (250, 241), (500, 481), (119, 119), (476, 119), (239, 239), (120, 30)];
    loop {
        let any = (random.between(15, 400) as u32, random.between(30, 260) as u32);
        let sides = if random.once_in(2) { random.pick(&named) } else { any };
        let opening = opening_of(random, sides);
        if opening.check().is_ok() {
            return opening;
        }
    }
}

/// An opening on or past its bounds; mostly small if it is allowed.
fn any_opening(random: &mut Prng) -> Opening {
    let sides = random.pick(&[
        (14, 30),
        (15, 29),
        (15, 30),
        (15, 31),
        (120, 30),
        (121, 30),
        (640, 29),
        (1920, 480),
        (1920, 479),
        (1921, 1088),
        (544, 1089),
        (543, 1088),
        (0, 0),
        (u32::MAX, u32::MAX),
        (30, 1 << 31),
    ]);
    let (width, height) = if random.once_in(3) { sides } else { (30, 30) };
    let bad_time = random.pick(&[0, 9_999, 200_001, u32::MAX]);
    let display_time = random.pick(&[10_000, 40_000, 200_000, bad_time]);
    let pid = random.pick(&[0, 8_191, 8_191, 8_192, 8_192 + 256, u32::MAX]);
    let edition = random.pick(&[0, 1, 2, 3, 4, 5, 256 + 1]);
    Opening { width, height, display_time, pid, edition }
}

/// What is drawn of a capture before it is made.
struct Drawn {
    count: usize,
    units: usize,
    skipped_in_ten: usize,
    longest: bool,
    surely_a_unit: bool,
    damaged_start: bool,
}

fn capture(random: &mut Prng, family: &str, pid: u32) -> Side {
    if family == "faults" {
        return faulty_capture(random, pid);
    }
    let drawn = Drawn {
        count: random.between(1, 12),
        units: random.pick(&[749, 750, 750, 751, 752, 760]),
        skipped_in_ten: random.below(6),
        longest: random.once_in(10),
        surely_a_unit: if family == "damaged" { random.once_in(2) } else { !random.once_in(12) },
        damaged_start: random.once_in(3),
    };
    let mut maker = CaptureMaker::new(random, pid);
    if drawn.surely_a_unit && family != "units" {
        maker.units(1);
    }
    add_records(&mut maker, family, &drawn);
    let side = maker.side;
    if family == "ends" { unfinished_capture(random, side) } else { side }
}

/// The records of a family.
fn add_records(maker: &mut CaptureMaker, family: &str, drawn: &Drawn) {
    let count = drawn.count;
    match family {
        "frames" => {
            maker.start_every = 1 + count;
            maker.records(5 * count, 7);
            if drawn.longest {
                maker.longest_record();
            }
        }
        "splices" => {
            maker.splicing = true;
            maker.records(2 + count, 1);
        }
        "damaged" => {
            maker.damage_every = 1 + count / 3;
            maker.start_every = 3;
            maker.records(2 + count, 1);
        }
        "units" => {
            maker.start_every = 1_000;
            maker.units(drawn.units);
            if drawn.damaged_start {
                maker.damaged_record(1, true);
            }
            maker.records(4, 3);
        }
        "few" => maker.records(1 + count / 4, 2),
        _ => maker.records(count, drawn.skipped_in_ten),
    }
}

/// A capture cut inside its header, behind it, at the end of a record, anywhere, or not at all.
fn unfinished_capture(random: &mut Prng, mut side: Side) -> Side {
    let length = match random.below(8) {
        0 => random.below(25),
        1 => 24,
        2 => random.pick(&side.ends),
        3 => random.below(side.bytes.len() + 1),
        _ => side.bytes.len(),
    };
    side.cut_to(length);
    side
}

fn faulty_capture(random: &mut Prng, pid: u32) -> Side {
    let fault = random.pick(&[
        Fault::Magic,
        Fault::LinkType,
        Fault::Microseconds,
        Fault::Microseconds,
        Fault::StoredLength,
    ]);
    let before = random.below(6);
    let mut maker = match fault {
        Fault::Magic | Fault::LinkType => CaptureMaker::bare(random, pid),
        _ => CaptureMaker::new(random, pid),
    };
    if !matches!(fault, Fault::Magic | Fault::LinkType) {
        maker.records(before, 3);
    }
    maker.fault(fault);
    maker.records(3, 3);
    maker.side
}

fn film(random: &mut Prng, family: &str, opening: &Opening) -> Side {
    if opening.check().is_err() {
        let length = random.below(2_000);
        return Side { bytes: random.bytes(length), ends: vec![length] };
    }
    let picture = (opening.width * opening.height) as usize;
    let fitting = |count: usize, bytes: usize| count.min(1 + bytes / picture);
    let every = random.between(3, 20);
    let style = random.pick(&[Style::Black, Style::Noise, Style::Fade, Style::Steps, Style::Runs, Style::Mixed]);
    let scene_style = random.pick(&[Style::Cuts(every), Style::Cuts(3), Style::Drift, Style::Drift, Style::Mixed]);
    let scene_style = if (opening.width, opening.height) == ROUND_TILES { Style::Drift } else { scene_style };
    let (count, style) = match family {
        "scenes" => (fitting(random.between(12, 200), 150_000), scene_style),
        "changes" => (random.between(2, 30), Style::Halves),
        "pictures" => (random.pick(&[749, 750, 750, 751]), scene_style),
        "few" => (fitting(random.between(1, 9), 300_000), random.pick(&[style, scene_style])),
        _ => (fitting(random.between(1, 40), 100_000), random.pick(&[style, scene_style])),
    };
    let count = if family == "pictures" { fitting(count, 400_000) } else { count };
    let mut maker = FilmMaker::new(random, opening.width, opening.height);
    maker.pictures(count, style);
    let mut side = maker.side;
    if family == "ends" {
        let whole = random.pick(&side.ends);
        let length = random.pick(&[0, 0, 1, whole, whole - 1, whole / 2]);
        side.cut_to(length);
    }
    side
}

/// A small script, damaged where scripts can be.
fn garbage(random: &mut Prng, mut out: impl Write) -> io::Result<()> {
    let mut script = Vec::new();
    let small = plan(random, "seals");
    weave(random, small, &mut script)?;
    match random.below(6) {
        0 => script.truncate(random.below(24)),
        1 => script.truncate(random.below(script.len())),
        2 => script.push(random.byte()),
        3 => {
            let (letter, most) = random.pick(&[(b'C', 1_048_576u32), (b'L', 1_048_576), (b'S', 65_536)]);
            let length = random.pick(&[most, most + 1, u32::MAX]);
            script.push(letter);
            script.extend(length.to_le_bytes());
            script.resize(script.len() + length.min(1_048_577) as usize, b'S');
        }
        4 => {
            let place = random.below(script.len());
            script[place] = random.byte();
        }
        _ => {
            let length = random.below(200);
            script.extend(random.bytes(length));
        }
    }
    out.write_all(&script)?;
    out.flush()
}
