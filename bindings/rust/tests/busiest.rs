//! The greatest number of scenes by document 02's formula, for every N and many d; the busiest luma in pieces, and a
//! sample's scenes of it; their refusals.
use carolsedge::{busiest_luma, most_scenes, Opening, Record, Refusal, Sample, NEWEST_EDITION, RECORD_MOST};

fn least_between(time: u32) -> u32 {
    (1..).find(|m| m * time >= 600_000).unwrap()
}

fn refusal<T>(number: u32) -> Result<T, Refusal> {
    Err(Refusal { number, place: 0 })
}

#[test]
fn by_the_formula() {
    for d in (10_000..=200_000).step_by(1_237).chain([10_000, 40_000, 85_714, 85_715, 200_000]) {
        let m = least_between(d);
        for n in 1..=750 {
            let expected = if n < 3 { 1 } else { 1 + (n - 3) / m };
            assert_eq!(most_scenes(d, n), Ok(expected), "d {d}, N {n}");
        }
    }
}

#[test]
fn refused() {
    let mut piece = [7; 9];
    for d in [0, 9_999, 200_001, u32::MAX] {
        for n in [0, 1, 751] {
            assert_eq!(most_scenes(d, n), refusal(2));
            assert_eq!(busiest_luma(30, 31, d, n, 0, &mut piece), refusal(2));
            assert_eq!(busiest_luma(640, 29, d, n, 0, &mut piece), refusal(1));
        }
    }
    assert_eq!(most_scenes(40_000, 0), refusal(14));
    assert_eq!(most_scenes(40_000, 751), refusal(10));
    assert_eq!(most_scenes(40_000, u32::MAX), refusal(10));
    assert_eq!(busiest_luma(30, 31, 40_000, 0, 0, &mut piece), refusal(14));
    assert_eq!(busiest_luma(30, 31, 40_000, 751, 0, &mut piece), refusal(10));
    assert_eq!(piece, [7; 9]);
}

/// No byte is to blame where there is only a number of pictures.
#[test]
fn told() {
    let text = most_scenes(40_000, 751).unwrap_err().to_string();
    assert_eq!(text, "refused 10: the luma is longer than 750 pictures");
    let mut sample = Sample::open(Opening { width: 16, height: 31, time: 40_000, pid: 256, edition: 1 }).unwrap();
    sample.feed_luma(&[0; 750 * 16 * 31]).unwrap();
    let text = sample.feed_luma(&[0]).unwrap_err().to_string();
    assert_eq!(text, "refused 10: the luma is longer than 750 pictures (at byte 372000)");
}

/// W and H differ; pieces of every length, also none, from every kind of place; bytes behind the luma's end stand.
#[test]
fn in_pieces() {
    let (w, h, d, n) = (16, 31, 200_000, 8);
    let picture = |i: u32| vec![if (i / least_between(d)).is_multiple_of(2) { 0 } else { 255 }; (w * h) as usize];
    let luma: Vec<u8> = (0..n).flat_map(picture).collect();
    for at in (0..luma.len() + 3).step_by(61).chain([495, 496, 1_487, 1_488, 1_489, luma.len() - 1, luma.len()]) {
        for size in [0, 1, 2, 495, 496, 497, 1_500, 5_000] {
            let mut piece = vec![7; size];
            let part = &luma[at.min(luma.len())..(at + size).min(luma.len()).max(at.min(luma.len()))];
            assert_eq!(busiest_luma(w, h, d, n, at as u64, &mut piece), Ok(part.len()), "at {at}, {size} bytes");
            assert_eq!(&piece[..part.len()], part);
            assert!(piece[part.len()..].iter().all(|&byte| byte == 7));
        }
    }
    for at in [u64::MAX, u64::MAX - 1, 1 << 63] {
        let mut piece = [7; 5];
        assert_eq!(busiest_luma(w, h, d, n, at, &mut piece), Ok(0));
        assert_eq!(piece, [7; 5]);
    }
}

/// A sample of that luma has that many scenes, by every edition.
#[test]
fn sealed() {
    let capture = include_bytes!("../../../tests/streams/clip.pcap");
    for edition in 1..=NEWEST_EDITION {
        for (time, pictures) in [(200_000, 1), (200_000, 6), (40_000, 17), (40_000, 18), (199_999, 750)] {
            let mut sample = Sample::open(Opening { width: 16, height: 31, time, pid: 256, edition }).unwrap();
            sample.feed_capture(capture).unwrap();
            let mut piece = [0; 1_000];
            let mut at = 0;
            loop {
                let length = busiest_luma(16, 31, time, pictures, at, &mut piece).unwrap();
                if length == 0 {
                    break;
                }
                sample.feed_luma(&piece[..length]).unwrap();
                at += length as u64;
            }
            let mut buffer = [0; RECORD_MOST];
            let length = sample.seal(&mut buffer).unwrap();
            let record = Record::read(&buffer[..length]).unwrap();
            assert_eq!(record.header().pictures, pictures);
            assert_eq!(Ok(record.header().scenes as u32), most_scenes(time, pictures), "d {time}, N {pictures}");
        }
    }
}
