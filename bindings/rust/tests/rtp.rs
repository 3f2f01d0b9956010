//! RTP packets from Rust: units worked by hand, places that wrap and go back, duplicates, and refusals that leave the
//! buffer as it was.
use carolsedge::{rtp_units, Refusal};

type Row = (u16, u16, u64, u16);

// Least and greatest time, size, cells, lost of each unit.
fn units(rows: &[Row]) -> Vec<[u64; 5]> {
    let mut buffer = vec![0xA5; 32 * rows.len() + 7];
    let n = read(rows, &mut buffer).unwrap();
    assert!(buffer[32 * n..].iter().all(|&b| b == 0xA5), "bytes behind the rows were written");
    let word = |at: usize, n: usize| {
        let bytes = buffer[at..at + n].iter().rev();
        bytes.fold(0, |number, &byte| number << 8 | u64::from(byte))
    };
    (0..n)
        .map(|i| {
            let at = 32 * i;
            assert_eq!(word(at + 28, 4), 0);
            [word(at, 8), word(at + 8, 8), word(at + 16, 4), word(at + 20, 4), word(at + 24, 4)]
        })
        .collect()
}

fn read(rows: &[Row], buffer: &mut [u8]) -> Result<usize, Refusal> {
    let sequence: Vec<_> = rows.iter().map(|r| r.0).collect();
    let marker: Vec<_> = rows.iter().map(|r| r.1 != 0).collect();
    let time: Vec<_> = rows.iter().map(|r| r.2).collect();
    let length: Vec<_> = rows.iter().map(|r| r.3).collect();
    rtp_units(&sequence, &marker, &time, &length, buffer)
}

#[test]
fn by_hand() {
    // the dropped row's marker, time and length do not count
    let dropped = [(5, 0, 50, 100), (7, 1, 70, 20), (4, 0, 40, 3), (5, 1, 10, 9)];
    assert_eq!(units(&dropped), [[40, 70, 123, 3, 1]]);
    // a unit ends at a marker or the last row; what is missing counts for the unit of the row behind it
    assert_eq!(units(&[(1, 2, 9, 1), (4, 0, 8, 2), (5, 0, 8, 3)]), [[9, 9, 1, 1, 0], [8, 8, 5, 2, 2]]);
    // the counter wraps, and a step of 32,768 goes back
    assert_eq!(units(&[(65_535, 0, 1, 1), (0, 0, 2, 1)]), [[1, 2, 2, 2, 0]]);
    assert_eq!(units(&[(32_768, 0, 1, 1), (0, 1, 2, 1)]), [[2, 2, 1, 1, 0], [1, 1, 1, 1, 32_767]]);
    assert_eq!(units(&[(0, 0, 1, 1), (32_767, 1, 2, 1)]), [[1, 2, 2, 2, 32_766]]);
    // the place before is that of the row before, also if that was dropped
    let late = [(0, 0, 1, 1), (32_767, 0, 2, 1), (0, 1, 3, 1), (32_769, 0, 4, 1)];
    assert_eq!(units(&late), [[1, 4, 3, 3, 65_532]]);
}

#[test]
fn falling() {
    let rows: Vec<Row> = (0..4096u64).map(|i| (4095 - i as u16, 0, i, 1)).collect();
    assert_eq!(units(&rows), [[0, 4095, 4096, 4096, 0]]);
}

#[test]
fn refused() {
    let refusal = |number, place| Err(Refusal { number, place });
    let mut buffer = [0xA5; 64];
    assert_eq!(read(&[], &mut buffer), refusal(25, 0));
    assert_eq!(read(&[(0, 0, 0, 0); 4097], &mut buffer), refusal(25, 0));
    assert_eq!(rtp_units(&[1, 2], &[false; 2], &[0, 0], &[1], &mut buffer), refusal(25, 0));
    assert_eq!(rtp_units(&[1, 2], &[false], &[0, 0], &[1, 1], &mut []), refusal(25, 0));
    let two = [(1, 1, 0, 0), (2, 0, 0, 0)];
    assert_eq!(read(&two, &mut buffer[..63]), refusal(15, 64));
    assert_eq!(buffer, [0xA5; 64]);
    assert_eq!(read(&two, &mut buffer), Ok(2));
}
