//! The rule of each figure: sentences of docs/RULE.md, in its words.
use super::html::escaped;
use std::ops::RangeInclusive;

/// A sentence of the rule, the number of its section, 0 for what stands before the first, and the editions of which it
/// speaks.
pub struct Rule {
    section: u32,
    editions: RangeInclusive<u32>,
    sentence: &'static str,
}

/// A sentence that holds in all editions.
const fn always(section: u32, sentence: &'static str) -> Rule {
    by(1..=u32::MAX, section, sentence)
}

const fn by(editions: RangeInclusive<u32>, section: u32, sentence: &'static str) -> Rule {
    Rule { section, editions, sentence }
}

/// The sentences that hold by an edition, as they stand behind a term.
pub fn quoted(rules: &[Rule], edition: u32) -> Vec<String> {
    rules.iter().filter(|rule| rule.editions.contains(&edition)).map(quote).collect()
}

fn quote(rule: &Rule) -> String {
    let place = match rule.section {
        0 => "RULE.md, at the top".to_string(),
        section => format!("RULE.md, {section}"),
    };
    let sentence = escaped(rule.sentence);
    format!("<dd class=\"rule\"><q>{sentence}</q> <cite>{place}</cite></dd>")
}

pub const EDITION: &[Rule] = &[always(
    0,
    "An edition is a version of this rule, named by a number: a sample is opened with the edition that it is \
     measured by, and its record says in its first word which that was.",
)];

pub const SIZE: &[Rule] = &[always(7, "A picture is W × H bytes, H rows of W.")];

pub const TIME: &[Rule] =
    &[always(1, "Given: width W, height H, display time d in microseconds, packet identifier PID, and the edition.")];

pub const PID: &[Rule] = &[always(
    4,
    "The identifier of one that is not bad is (byte 1 % 32) × 256 + byte 2; it is wanted if that is PID, and \
     otherwise of another identifier and ignored.",
)];

pub const PICTURES: &[Rule] = &[always(
    7,
    "Picture i is the W × H bytes from i × W × H on, and is whole when they are there; N is the number of whole \
     pictures, at most 750, and 0 after a refused opening.",
)];

pub const FRAMES: &[Rule] = &[always(2, "A frame is a header of 16 bytes and L more, L being its word at 8.")];

pub const SKIPPED: &[Rule] = &[always(
    3,
    "Every other frame is skipped; skipped frames are counted over the whole frames, as all frames are.",
)];

pub const BAD: &[Rule] = &[
    always(
        4,
        "A packet is one of three: bad if its byte 0 is not 0x47, whatever byte 1 says; otherwise damaged if its byte \
         1 has 0x80, the transport error indicator, and otherwise good.",
    ),
    SET_APART,
    by(
        4..=u32::MAX,
        5,
        "Before the first unit, that is before the first wanted packet that is not damaged, it is in no unit and \
         counts as a bad packet.",
    ),
];

/// What is said of `it` in the sentences behind this one.
const SET_APART: Rule = by(4..=u32::MAX, 5, "From edition 4 on a damaged wanted packet is set apart.");

const NO_PART: Rule = by(
    4..=u32::MAX,
    5,
    "It begins no unit, start mark or not, and nothing is lost before it; it is none of its unit's packets, so that \
     packets, size and times take no notice of it; and no gap is measured from its counter, nor is its splice mark \
     heeded: the gap of the next packet that is not damaged is measured from the last one that is not.",
);

pub const INDEX: &[Rule] = &[always(
    11,
    "With f the pictures that are not repeated, and p and l the packets and the lost over all units, each \
     operation in IEEE 754 binary64, rounded once to nearest, ties to even: Ic = 4 × (f / N), Ip = p / (p + l), \
     index = 1 + (Ic × Ip), where / is binary64's.",
)];

pub const UNIT: &[Rule] = &[
    always(
        5,
        "The first begins a unit, with or without a start mark; each later one begins a unit if it has a start mark, \
         and otherwise belongs to the unit of the packet before it.",
    ),
    SET_APART,
    NO_PART,
];

pub const TIMES: &[Rule] = &[
    always(2, "The frame's time is seconds × 1,000,000 + microseconds."),
    always(4, "Each packet has its frame's time."),
];

pub const PACKETS: &[Rule] = &[always(
    5,
    "A unit's figures: least and greatest time of its packets; size, 184 for each packet; packets; lost, the sum \
     of what is lost before each of its own packets (so the gap before a unit's first packet is that unit's); and \
     damaged, which is 0 before edition 4.",
)];

pub const LOST: &[Rule] = &[
    always(
        5,
        "Each packet but the first has a gap g = (its counter − the counter of the wanted packet before it) \
         modulo 16, which is 0 to 15.",
    ),
    always(
        5,
        "If g > 1, then g − 1 packets are lost before it, otherwise none; the first packet has lost nothing \
         before it.",
    ),
    by(2..=u32::MAX, 5, "From edition 2 on nothing is lost before a packet with a splice mark."),
    SET_APART,
    NO_PART,
];

pub const DAMAGED: &[Rule] =
    &[SET_APART, by(4..=u32::MAX, 5, "It adds one to damaged of the unit that stands last.")];

pub const SCENE: &[Rule] = &[
    always(10, "Picture 0 starts a scene."),
    always(
        10,
        "With b the last start, the next start is the least i > b (and below N) for which (i − b) × d ≥ 600,000, \
         and s(i) > 1,000, and s(i) × (i − b − 1) > 5 × (s(b+1) + … + s(i−1)).",
    ),
];

pub const SPAN: &[Rule] = &[always(10, "A scene goes from its start to before the next one, the last to before N.")];

pub const REPEATED: &[Rule] =
    &[always(9, "Picture i is repeated if i ≥ 1 and every pixel equals that of picture i−1.")];

pub const ROW: &[Rule] = &[always(
    10,
    "Its row: first picture; pictures; repeated ones; the longest run of repeated ones within the scene; the sum \
     of s; the greatest s; the sum of q.",
)];

pub const SCORE: &[Rule] = &[always(
    8,
    "The cut score s(i) is the least of the six differences between one of pictures i−2, i−1 and one of i, i+1, \
     i+2.",
)];

pub const CHANGE: &[Rule] = &[
    always(9, "The change q(i) is 0 for i = 0."),
    always(
        9,
        "Otherwise, with e the difference of each pixel to that of picture i−1, signed, −255 to 255, n = w × h \
         and V = n × (sum of e²) − (sum of e)², in editions 1 and 2 it is the greatest whole number q with q² × \
         n² ≤ 10,000 × V.",
    ),
    by(
        3..=u32::MAX,
        9,
        "From edition 3 on it is the whole number nearest to the square root of 10,000 × V / n², where this \
         quotient is not rounded, and the upper of two that are equally near.",
    ),
];

pub const SHELF: &[Rule] = &[always(
    25,
    "A shelf is a byte string that holds records, of any editions, one behind the other, behind a head.",
)];

pub const SHELF_LOST: &[Rule] = &[
    always(
        25,
        "Reading a shelf is refused by 27, place 0, unless it is laid out so; otherwise by 28 if reading refuses one \
         of the records (15: by 16, 17 or 18), place: the number of the first such record.",
    ),
    always(
        25,
        "Otherwise it gives n and the total of lost: over all records, over all their units, as reading gives them.",
    ),
];
