//! All rows of a record at once: they are those that are read one by one, of the largest records and of random ones.
use carolsedge::{Record, Scene, Unit};

const MOST_UNITS: usize = 750;
const MOST_SCENES: usize = 250;

struct Chance(u64);

impl Chance {
    // splitmix64
    fn next(&mut self) -> u64 {
        self.0 = self.0.wrapping_add(0x9E37_79B9_7F4A_7C15);
        let mut z = self.0;
        z = (z ^ (z >> 30)).wrapping_mul(0xBF58_476D_1CE4_E5B9);
        z = (z ^ (z >> 27)).wrapping_mul(0x94D0_49BB_1331_11EB);
        z ^ (z >> 31)
    }

    fn below(&mut self, n: usize) -> usize {
        (self.next() % n as u64) as usize
    }

    fn figure(&mut self) -> u32 {
        (self.next() >> (32 + self.below(32))) as u32
    }
}

/// An allowed record with the rows that it was made of.
struct Made {
    bytes: Vec<u8>,
    units: Vec<Unit>,
    scenes: Vec<Scene>,
}

fn made(chance: &mut Chance, units: usize, scenes: usize) -> Made {
    let units: Vec<Unit> = (0..units)
        .map(|_| {
            let (least, packets) = (chance.next() >> 1, 1 + chance.figure() % 1_000_000);
            let greatest = least + u64::from(chance.figure());
            let (size, lost, damaged) = (184 * packets, chance.figure(), chance.figure());
            Unit { least, greatest, size, packets, lost, damaged }
        })
        .collect();
    let mut first = 0;
    let scenes: Vec<Scene> = (0..scenes)
        .map(|_| {
            let pictures = 1 + chance.below(3) as u32;
            first += pictures;
            let [repeated, longest, score, peak, change] = [0; 5].map(|_| chance.figure());
            Scene { first: first - pictures, pictures, repeated, longest, score, peak, change }
        })
        .collect();
    let (u, s) = (units.len() as u32, scenes.len() as u32);
    let header = [4, 64 + 32 * (u + s), u, 64, s, 64 + 32 * u, 640, 360, 40_000, 256, first, 9, 3, 2, 0, 0x4008_0000];
    let mut bytes: Vec<u8> = header.iter().flat_map(|word: &u32| word.to_le_bytes()).collect();
    for unit in &units {
        bytes.extend([unit.least, unit.greatest].iter().flat_map(|time| time.to_le_bytes()));
        let words = [unit.size, unit.packets, unit.lost, unit.damaged];
        bytes.extend(words.iter().flat_map(|word| word.to_le_bytes()));
    }
    for scene in &scenes {
        let Scene { first, pictures, repeated, longest, score, peak, change } = *scene;
        let words = [first, pictures, repeated, longest, score, peak, change, 0];
        bytes.extend(words.iter().flat_map(|word| word.to_le_bytes()));
    }
    Made { bytes, units, scenes }
}

/// All rows at once are those that are read one by one, in both directions, and as many as the header says.
fn same_as_one_by_one(record: &Record) {
    let header = record.header();
    let units: Vec<Unit> = (0..header.units).map(|j| record.unit(j).unwrap()).collect();
    let scenes: Vec<Scene> = (0..header.scenes).map(|j| record.scene(j).unwrap()).collect();
    assert_eq!(record.units().collect::<Vec<_>>(), units);
    assert_eq!(record.scenes().collect::<Vec<_>>(), scenes);
    assert_eq!((record.units().len(), record.scenes().len()), (header.units, header.scenes));
    assert!(record.units().rev().eq(units.iter().rev().copied()));
    assert!(record.scenes().rev().eq(scenes.iter().rev().copied()));
}

#[test]
fn rows_of_the_smallest_and_the_largest_record() {
    let mut chance = Chance(1);
    for (units, scenes) in [(1, 1), (MOST_UNITS, 1), (1, MOST_SCENES), (MOST_UNITS, MOST_SCENES)] {
        let made = made(&mut chance, units, scenes);
        let record = Record::read(&made.bytes).unwrap();
        assert_eq!(record.units().collect::<Vec<_>>(), made.units);
        assert_eq!(record.scenes().collect::<Vec<_>>(), made.scenes);
        same_as_one_by_one(&record);
    }
}

/// Records with up to three bytes altered: those that are still allowed have the rows that are read one by one, and
/// all kinds of refusals come up among the others.
#[test]
fn rows_of_random_records() {
    let mut chance = Chance(2);
    let (mut allowed, mut refused) = (0, [0; 29]);
    for _ in 0..3_000 {
        let (units, scenes) = (1 + chance.below(12), 1 + chance.below(12));
        let mut bytes = made(&mut chance, units, scenes).bytes;
        for _ in 0..chance.below(4) {
            let at = chance.below(bytes.len());
            bytes[at] = chance.figure() as u8;
        }
        if chance.below(10) == 0 {
            bytes.truncate(chance.below(bytes.len()));
        }
        match Record::read(&bytes) {
            Ok(record) => {
                same_as_one_by_one(&record);
                allowed += 1;
            }
            Err(refusal) => refused[refusal.number as usize] += 1,
        }
    }
    assert!(allowed > 1_000, "{allowed} allowed");
    assert!(refused[16] > 20 && refused[17] > 20 && refused[18] > 500, "{refused:?} refused");
}
