//! Shelves from Rust: those that are made are read back record by record, and every refusal stands at its place.
use carolsedge::{
    shelf_of, shelf_part, shelf_write, Refusal, Shelf, NEWEST_EDITION, RECORD_MOST, SHELF_RECORDS_MOST,
};

fn words(words: &[u32]) -> Vec<u8> {
    words.iter().flat_map(|word| word.to_le_bytes()).collect()
}

// A record of an edition with a unit for each number of lost packets.
fn record(edition: u32, lost: &[u32]) -> Vec<u8> {
    let units = lost.len() as u32;
    let length = 64 + 32 * (units + 1);
    let scenes = 64 + 32 * units;
    let mut bytes = words(&[edition, length, units, 64, 1, scenes]);
    bytes.extend(words(&[30, 30, 40_000, 256, 2, 1, 0, 0, 0, 0x4008_0000]));
    for &lost in lost {
        bytes.extend(words(&[5, 0, 5, 0, 184, 1, lost, 0]));
    }
    bytes.extend(words(&[0, 2, 1, 1, 0, 0, 0, 0]));
    bytes
}

fn refusal(number: u32, place: u64) -> Refusal {
    Refusal { number, place }
}

fn read(bytes: &[u8]) -> Result<(usize, u64), Refusal> {
    Shelf::read(bytes).map(|shelf| (shelf.len(), shelf.lost()))
}

#[test]
fn given_back() {
    let records: Vec<_> = (0..40).map(|i| record(1 + i % NEWEST_EDITION, &vec![i; 1 + i as usize % 7])).collect();
    let bytes = shelf_of(&records).unwrap();
    let shelf = Shelf::read(&bytes).unwrap();
    let lost = (0..40u64).map(|i| i * (1 + i % 7)).sum::<u64>();
    assert_eq!((shelf.len(), shelf.is_empty(), shelf.lost()), (40, false, lost));
    assert_eq!(shelf.records().collect::<Vec<_>>(), records);
    for (j, record) in records.iter().enumerate() {
        assert_eq!(shelf.record(j), Ok(&record[..]));
        assert_eq!(&bytes[shelf_part(&bytes, j).unwrap()], record);
    }
    for j in [40, 41, SHELF_RECORDS_MOST, usize::MAX] {
        assert_eq!(shelf.record(j), Err(refusal(19, 0)));
        assert_eq!(shelf_part(&bytes, j), Err(refusal(19, 0)));
    }
}

#[test]
fn without_a_record() {
    let none: [&[u8]; 0] = [];
    let bytes = shelf_of(&none).unwrap();
    assert_eq!(bytes, words(&[0, 8]));
    assert_eq!(read(&bytes), Ok((0, 0)));
    assert!(Shelf::read(&bytes).unwrap().is_empty());
    assert_eq!(shelf_part(&bytes, 0), Err(refusal(19, 0)));
    for wrong in [&[][..], &bytes[..7], &[words(&[0, 9]), vec![0]].concat(), &words(&[0, 9])] {
        assert_eq!(read(wrong), Err(refusal(27, 0)));
        assert_eq!(shelf_part(wrong, 0), Err(refusal(27, 0)));
    }
}

#[test]
fn the_most_that_there_can_be() {
    let one = record(1, &[u32::MAX; 3]);
    let records = vec![&one; SHELF_RECORDS_MOST];
    let bytes = shelf_of(&records).unwrap();
    assert_eq!(read(&bytes), Ok((4_096, 4_096 * 3 * u64::from(u32::MAX))));
    assert_eq!(shelf_part(&bytes, 4_095), Ok(bytes.len() - one.len()..bytes.len()));
    assert_eq!(shelf_part(&bytes, 4_096), Err(refusal(19, 0)));
    assert_eq!(shelf_of(&vec![&one; 4_097]), Err(refusal(27, 0)));
    // 4,097 records, laid out as they would be
    let mut more = words(&[4_097, 8 + 4 * 4_097 + 4_097 * 192]);
    more.extend((0..4_097).flat_map(|j: u32| words(&[8 + 4 * 4_097 + 192 * j])));
    more.extend(one.repeat(4_097));
    assert_eq!(read(&more), Err(refusal(27, 0)));
}

#[test]
fn not_laid_out() {
    let bytes = shelf_of(&[record(1, &[3]), record(2, &[4])]).unwrap();
    assert_eq!(read(&bytes), Ok((2, 7)));
    let with = |at: usize, word: u32| {
        let mut other = bytes.clone();
        other[at..at + 4].copy_from_slice(&word.to_le_bytes());
        other
    };
    // the count, the total length, a gap behind the head, an offset not above the one before, one not below the end
    for (at, word) in [(0, 3), (0, 1), (0, 4_097), (4, 271), (4, 273), (8, 17), (12, 16), (12, 272)] {
        assert_eq!(read(&with(at, word)), Err(refusal(27, 0)), "word {at}: {word}");
    }
    for length in 0..bytes.len() {
        assert_eq!(read(&bytes[..length]), Err(refusal(27, 0)));
    }
    assert_eq!(read(&[&bytes[..], &[0]].concat()), Err(refusal(27, 0)));
}

#[test]
fn refused_records() {
    let (good, bad) = (record(1, &[3]), record(NEWEST_EDITION + 1, &[4]));
    assert_eq!(shelf_of(&[&good, &bad, &bad]), Err(refusal(28, 1)));
    assert_eq!(shelf_of(&[&good[..], &[]]), Err(refusal(28, 1)));
    let mut bytes = shelf_of(&[&good, &good, &good]).unwrap();
    bytes[20 + 2 * 128] = 9;
    assert_eq!(read(&bytes), Err(refusal(28, 2)));
    assert_eq!(shelf_part(&bytes, 0), Err(refusal(28, 2)));
    assert_eq!(shelf_part(&bytes, 3), Err(refusal(28, 2)));
    bytes[20] = 9;
    assert_eq!(read(&bytes), Err(refusal(28, 0)));
    // an offset one too high: both neighbours are refused, the first is told
    bytes[12] += 1;
    assert_eq!(read(&bytes), Err(refusal(28, 0)));
    // 27 comes first
    bytes[8] += 1;
    assert_eq!(read(&bytes), Err(refusal(27, 0)));
    assert_eq!(refusal(28, 2).to_string(), "refused 28: the shelf holds a record that is refused (record 2)");
}

#[test]
fn written_into_lent_memory() {
    let records = [record(1, &[3, 4]), record(2, &[5]), record(4, &[6])];
    let lengths = records.each_ref().map(|record| record.len() as u32);
    let all = records.concat();
    let size = 8 + 4 * 3 + all.len();
    for room in 0..size + 40 {
        let mut buffer = vec![0xA5; room];
        let wrote = shelf_write(&all, &lengths, &mut buffer);
        if room < size {
            assert_eq!(wrote, Err(refusal(15, size as u64)), "{room} bytes");
            assert_eq!(buffer, vec![0xA5; room], "{room} bytes were written");
        } else {
            assert_eq!(wrote, Ok(size));
            assert_eq!(buffer[size..], vec![0xA5; room - size], "behind the shelf");
            let shelf = Shelf::read(&buffer[..size]).unwrap();
            assert_eq!((shelf.len(), shelf.lost()), (3, 18));
            assert_eq!(shelf.records().collect::<Vec<_>>(), records);
        }
    }
}

// Each of these leaves a buffer that has room as it was; 27 comes before 28, 28 before 15.
#[test]
fn not_written() {
    let (good, bad) = (record(1, &[3]), record(NEWEST_EDITION + 1, &[4]));
    let length = good.len() as u32;
    let two = [&good[..], &bad].concat();
    let many = vec![length; SHELF_RECORDS_MOST + 1];
    let all = good.repeat(SHELF_RECORDS_MOST + 1);
    for (records, lengths, refused) in [
        (&two[..], &[length, length + 1][..], refusal(27, 0)),
        (&two, &[length, length - 1], refusal(27, 0)),
        (&two, &[length], refusal(27, 0)),
        (&two, &[], refusal(27, 0)),
        (&two, &[length, u32::MAX], refusal(27, 0)),
        (&[], &[1], refusal(27, 0)),
        (&all, &many, refusal(27, 0)),
        (&two, &[length, length], refusal(28, 1)),
        (&two, &[2 * length], refusal(28, 0)),
        (&two, &[0, length, length], refusal(28, 0)),
        (&two, &[length, 0, length], refusal(28, 1)),
        (&[], &[0], refusal(28, 0)),
    ] {
        for room in [0, 8, all.len() + 20_000] {
            let mut buffer = vec![0xA5; room];
            assert_eq!(shelf_write(records, lengths, &mut buffer), Err(refused));
            assert_eq!(buffer, vec![0xA5; room]);
        }
    }
    let mut buffer = [0xA5; 9];
    assert_eq!(shelf_write(&[], &[], &mut buffer[..7]), Err(refusal(15, 8)));
    assert_eq!(shelf_write(&[], &[], &mut buffer), Ok(8));
    assert_eq!(buffer[..], [0, 0, 0, 0, 8, 0, 0, 0, 0xA5]);
    // no copy of a long record is made to see that it is refused
    assert_eq!(shelf_of(&[&good[..], &vec![1; 2 * RECORD_MOST]]), Err(refusal(28, 1)));
}
