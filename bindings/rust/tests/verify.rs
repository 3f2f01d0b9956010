//! Verifying from Rust: the worked record of the rule, section 30, each mark on either side of its edge, and refusals.
use carolsedge::{verify, Mark, Record, Refusal, Verdict};

/// The worked record, word by word: its header, two units and two scenes.
#[rustfmt::skip]
const HAND: [u32; 48] = [
    4, 192, 2, 64, 2, 128, 30, 30, 40_000, 256, 100, 2, 0, 0, 0, 0x400A_0000,
    10_000_005, 0, 10_000_005, 0, 368, 2, 0, 0,
    10_040_005, 0, 10_040_005, 0, 184, 1, 1, 0,
    0, 60, 15, 1, 0, 0, 0, 0,
    60, 40, 10, 1, 1_000_000, 1_000_000, 0, 0,
];

/// Where its rows begin, in words.
const UNITS: [usize; 2] = [16, 24];
const SCENES: [usize; 2] = [32, 40];

/// The record with some words changed.
fn with(changes: &[(usize, u32)]) -> Vec<u8> {
    let mut words = HAND;
    changes.iter().for_each(|&(place, word)| words[place] = word);
    words.iter().flat_map(|word| word.to_le_bytes()).collect()
}

fn said(record: &[u8]) -> String {
    match verify(record) {
        Ok(Verdict::CouldBeSealed(reached)) => reached.to_string(),
        Ok(Verdict::CouldNotBeSealed(missing)) => format!("{}: {missing}", missing.mark.number()),
        Err(refusal) => refusal.to_string(),
    }
}

#[test]
fn the_worked_record_reaches_its_index() {
    let bytes = with(&[]);
    let Ok(Verdict::CouldBeSealed(reached)) = verify(&bytes) else {
        panic!("{}", said(&bytes));
    };
    assert_eq!((reached.unrepeated, reached.pictures, reached.packets, reached.lost), (75, 100, 3, 1));
    assert_eq!((reached.index.ic, reached.index.ip, reached.index.value), (3.0, 0.75, 3.25));
    assert_eq!(reached.to_string(), "3.25 = 1 + 4 x (75 / 100) x (3 / (3 + 1))");
    assert_eq!(Record::read(&bytes).unwrap().verify(), Ok(Verdict::CouldBeSealed(reached)));
}

#[test]
fn every_mark_has_its_words() {
    let [u0, u1] = UNITS;
    let [s0, s1] = SCENES;
    let cases: [(&[(usize, u32)], &str); 15] = [
        (
            &[(11, 16_777_175), (12, 16_777_173)],
            "1: its frames and packets take 268,435,472 bytes; a capture has at most 268,435,456",
        ),
        (&[(13, 694)], "2: it has 697 packets; the frames that carried have room for at most 696"),
        (&[(u1 + 6, 15)], "4: unit 1 lost 15 packets; at most 14 can be missing before its packets"),
        (
            &[(u0 + 3, 1_000_000)],
            "5: unit 0 has a packet at 4,294,967,306,000,005 microseconds; a capture's times end at",
        ),
        (&[(s1 + 2, 40)], "6: scene 1 has 40 repeated pictures; at most 39 of its pictures can be repeated"),
        (&[(s0 + 3, 16)], "7: scene 0 has a run of 16 repeated pictures; it has 15 repeated pictures in all"),
        (&[(s0 + 3, 0)], "8: scene 0 has 15 repeated pictures; runs as long as its longest hold at most 0"),
        (&[(s0 + 5, 1)], "9: scene 0 has a greatest cut score of 1; the sum of its cut scores is 0"),
        (
            &[(s1 + 4, 1_000_001), (s1 + 5, 1_000_001)],
            "10: scene 1 has a greatest cut score of 1,000,001; a cut score is at most 1,000,000",
        ),
        (
            &[(s1 + 4, 30_000_001)],
            "11: scene 1 has cut scores of 30,000,001 in all; its greatest one allows at most 30,000,000",
        ),
        (&[(s0 + 6, 1_122_001)], "12: scene 0 has changes of 1,122,001 in all; its pictures allow at most 1,122,000"),
        (
            &[(s1 + 4, 1_000), (s1 + 5, 1_000)],
            "13: scene 1 begins without a cut: its greatest cut score is 1,000, and a cut has at least 1,001",
        ),
        (
            &[(10, 62), (s1 + 1, 2), (s1 + 2, 0), (s1 + 3, 0)],
            "14: scene 1 begins at picture 60; no scene begins after picture 59",
        ),
        (
            &[(8, 40_000), (s0 + 1, 14), (s0 + 2, 5), (s1, 14), (s1 + 1, 86)],
            "15: scene 0 lasts 560,000 microseconds; one that another follows lasts at least 600,000",
        ),
        (&[(15, 0x400A_6666), (14, 0x6666_6666)], "16: index 3.3 is in the header, the rows reach 3.25"),
    ];
    for (changes, words) in cases {
        let said = said(&with(changes));
        assert!(said.starts_with(words), "{said}");
    }
}

#[test]
fn scenes_are_no_more_than_can_be() {
    // Three scenes of 100 pictures, of 10,000 microseconds each.
    let mut words = HAND[..40].to_vec();
    words.extend([60, 15, 5, 1, 1_000_000, 1_000_000, 0, 0, 75, 25, 5, 1, 1_000_000, 1_000_000, 0, 0]);
    (words[1], words[4], words[8]) = (224, 3, 10_000);
    let bytes: Vec<u8> = words.iter().flat_map(|word| word.to_le_bytes()).collect();
    assert_eq!(said(&bytes), "3: it has 3 scenes; so many pictures have at most 2");
    let Ok(Verdict::CouldNotBeSealed(missing)) = verify(&bytes) else {
        panic!("it could be sealed");
    };
    assert_eq!((missing.mark, missing.row, missing.found, missing.limit), (Mark::Scenes, 0, 3, 2));
}

#[test]
fn refused_records() {
    let refused = |record: &[u8]| verify(record).err();
    assert_eq!(refused(&with(&[])[..63]), Some(Refusal { number: 16, place: 0 }));
    assert_eq!(refused(&with(&[(0, 5)])), Some(Refusal { number: 17, place: 0 }));
    assert_eq!(refused(&with(&[(10, 99)])), Some(Refusal { number: 18, place: 0 }));
    assert_eq!(refused(&[]), Some(Refusal { number: 16, place: 0 }));
}
