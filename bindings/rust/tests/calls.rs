//! The calls from Rust: document 01's worked sample, cuts, every refusal with its place, and that a refusal leaves
//! lent memory as it was.
use carolsedge::{sheet, Index, Most, Opening, Record, Refusal, Sample, Scene, Survey, Unit};
use carolsedge::{NEWEST_EDITION, RECORD_MOST, SHEET_MOST};

const BLACK: Opening = Opening { width: 30, height: 30, time: 40_000, pid: 256, edition: 1 };
const PICTURE: usize = 900;

fn file_header() -> Vec<u8> {
    let mut header = vec![0; 24];
    header[..4].copy_from_slice(&[0xD4, 0xC3, 0xB2, 0xA1]);
    header[20] = 1;
    header
}

// A frame with these packets, or with a body of any other kind.
fn frame(seconds: u32, microseconds: u32, body: &[u8]) -> Vec<u8> {
    let length = body.len() as u32;
    [seconds, microseconds, length, length]
        .iter()
        .flat_map(|word| word.to_le_bytes())
        .chain(body.iter().copied())
        .collect()
}

fn carrying(packets: &[[u8; 188]]) -> Vec<u8> {
    let udp = 8 + 188 * packets.len() as u16;
    let mut body = vec![0; 42];
    body[12..15].copy_from_slice(&[8, 0, 0x45]);
    body[16..18].copy_from_slice(&(udp + 20).to_be_bytes());
    body[23] = 17;
    body[38..40].copy_from_slice(&udp.to_be_bytes());
    body.extend(packets.concat());
    body
}

fn packet(pid: u16, start: bool, counter: u8) -> [u8; 188] {
    let mut packet = [0; 188];
    packet[..4].copy_from_slice(&[0x47, (pid >> 8) as u8 | if start { 0x40 } else { 0 }, pid as u8, 0x10 | counter]);
    packet
}

fn worked_capture() -> Vec<u8> {
    [file_header(), frame(10, 5, &carrying(&[packet(256, true, 0)]))].concat()
}

fn refusal(number: u32, place: u64) -> Refusal {
    Refusal { number, place }
}

fn sealed(sample: &Sample) -> Result<Vec<u8>, Refusal> {
    let mut buffer = vec![0xAA; RECORD_MOST];
    let answer = sample.seal(&mut buffer);
    let behind = answer.unwrap_or(0);
    assert!(
        buffer[behind..].iter().all(|&b| b == 0xAA),
        "bytes behind the record, or of a refused seal, were written"
    );
    buffer.truncate(answer?);
    Ok(buffer)
}

// The worked sample, with the capture and the luma given.
fn fed(capture: &[u8], luma: &[u8]) -> Sample {
    let mut sample = Sample::open(BLACK).unwrap();
    let _ = sample.feed_capture(capture);
    let _ = sample.feed_luma(luma);
    sample
}

#[test]
fn worked_sample() {
    let bytes = sealed(&fed(&worked_capture(), &[0; 2 * PICTURE])).unwrap();
    assert_eq!(bytes.len(), 128);
    let record = Record::read(&bytes).unwrap();
    let h = record.header();
    assert_eq!(h.edition, 1);
    assert_eq!((h.units, h.scenes, h.width, h.height, h.time, h.pid), (1, 1, 30, 30, 40_000, 256));
    assert_eq!((h.pictures, h.frames, h.skipped, h.bad, h.index.to_bits()), (2, 1, 0, 0, 0x4008_0000_0000_0000));
    let unit = Unit { least: 10_000_005, greatest: 10_000_005, size: 184, packets: 1, lost: 0, damaged: 0 };
    let scene = Scene { first: 0, pictures: 2, repeated: 1, longest: 1, score: 0, peak: 0, change: 0 };
    assert_eq!(record.units().collect::<Vec<_>>(), [unit]);
    assert_eq!(record.scenes().collect::<Vec<_>>(), [scene]);
    assert_eq!((record.unit(0), record.scene(0)), (Ok(unit), Ok(scene)));
    assert_eq!((record.units().len(), record.scenes().len()), (1, 1));
}

#[test]
fn worked_sheet() {
    let bytes = sealed(&fed(&worked_capture(), &[0; 2 * PICTURE])).unwrap();
    let mut buffer = vec![0xAA; SHEET_MOST];
    assert_eq!(sheet(&bytes, &mut buffer), Ok(6_060));
    assert!(buffer[6_060..].iter().all(|&b| b == 0xAA));
    let text = std::str::from_utf8(&buffer[..6_060]).unwrap();
    let lines: Vec<_> = text.split_terminator('\n').collect();
    assert!(lines.len() == 60 && lines.iter().all(|line| line.len() == 100));
    assert_eq!(lines[0].trim_end(), format!(" {:>11}{:>11}{:>11}{:>21}", 30, 30, 2, "4008000000000000"));
    let unit = format!("U{:>11}{:>21}{:>21}{:>11}{:>11}{:>11}", 0, 10_000_005, 10_000_005, 184, 1, 0);
    assert_eq!(lines[1].trim_end(), unit);
    let scene = [0, 0, 2, 1, 1, 0, 0, 0].map(|figure| format!("{figure:>11}")).concat();
    assert_eq!(lines[2].trim_end(), format!("S{scene}"));
    assert!(lines[3..].iter().all(|line| line.trim_end().is_empty()));
}

#[test]
fn refused_sheets() {
    let bytes = sealed(&fed(&worked_capture(), &[0; 2 * PICTURE])).unwrap();
    let mut other = bytes.clone();
    other[0] = NEWEST_EDITION as u8 + 1;
    let mut wrong = bytes.clone();
    wrong[92] = 1;
    let cases = [(&bytes[..63], 16, 0), (&other, 17, 0), (&wrong, 18, 0), (&bytes, 15, 6_060)];
    for (record, number, place) in cases {
        for room in [0, 1, 6_059] {
            let mut buffer = vec![0xAA; room];
            assert_eq!(sheet(record, &mut buffer), Err(refusal(number, place)));
            assert!(buffer.iter().all(|&b| b == 0xAA));
        }
    }
}

#[test]
fn cuts_do_not_matter() {
    let capture = [
        worked_capture(),
        frame(11, 0, &carrying(&[packet(256, false, 3), packet(256, true, 4)])),
        frame(12, 0, b"another"),
    ]
    .concat();
    let luma: Vec<u8> = (0..7 * PICTURE).map(|i| (i / PICTURE * 37 + i % 23) as u8).collect();
    let whole = sealed(&fed(&capture, &luma)).unwrap();
    let mut sample = Sample::open(BLACK).unwrap();
    let (mut captures, mut lumas) = (capture.chunks(7), luma.chunks(13));
    loop {
        let (piece, rows) = (captures.next(), lumas.next());
        if piece.is_none() && rows.is_none() {
            break;
        }
        let (piece, rows) = (piece.unwrap_or(&[]), rows.unwrap_or(&[]));
        assert_eq!(sample.feed_capture(piece), Ok(piece.len()));
        assert_eq!(sample.feed_luma(rows), Ok(rows.len()));
        let _ = sealed(&sample);
    }
    assert_eq!(sealed(&sample).unwrap(), whole);
    assert_eq!(
        Record::read(&whole).unwrap().units().map(|u| (u.packets, u.lost)).collect::<Vec<_>>(),
        [(2, 2), (1, 0)]
    );
}

#[test]
fn openings() {
    let opened_by =
        |width, height, time, pid, edition| Sample::open(Opening { width, height, time, pid, edition }).map(|_| ());
    let opened = |width, height, time, pid| opened_by(width, height, time, pid, 1);
    assert_eq!(opened(1920, 1080, 40_000, 8191), Ok(()));
    assert_eq!(opened(640, 29, 40_000, 256), Err(refusal(1, 0)));
    assert_eq!(opened(u32::MAX, u32::MAX, 0, u32::MAX), Err(refusal(1, 0)));
    assert_eq!(opened(640, 480, 9_999, 256), Err(refusal(2, 0)));
    assert_eq!(opened(640, 480, 40_000, 8192), Err(refusal(3, 0)));
    for edition in 1..=NEWEST_EDITION {
        assert_eq!(opened_by(640, 480, 40_000, 256, edition), Ok(()));
    }
    for edition in [0, NEWEST_EDITION + 1, u32::MAX] {
        assert_eq!(opened_by(640, 480, 40_000, 8192, edition), Err(refusal(3, 0)));
        assert_eq!(opened_by(640, 480, 40_000, 256, edition), Err(refusal(20, 0)));
    }
}

// A gap of 5 at a cell with a splice mark, and one of 3 behind it: edition 1 counts both, 2 to 4 the later one alone.
#[test]
fn editions() {
    let mut spliced = packet(256, false, 5);
    spliced[3..6].copy_from_slice(&[0x35, 1, 0x80]);
    let mut unmarked = spliced;
    unmarked[4] = 0;
    for (cell, edition, lost) in
        [(spliced, 1, 4 + 2), (spliced, 2, 2), (spliced, 3, 2), (spliced, 4, 2), (unmarked, 2, 4 + 2)]
    {
        let cells = [packet(256, true, 0), cell, packet(256, false, 8)];
        let capture = [file_header(), frame(10, 5, &carrying(&cells))].concat();
        let mut sample = Sample::open(Opening { edition, ..BLACK }).unwrap();
        sample.feed_capture(&capture).unwrap();
        sample.feed_luma(&[0; 2 * PICTURE]).unwrap();
        let bytes = sealed(&sample).unwrap();
        let record = Record::read(&bytes).unwrap();
        assert_eq!(record.header().edition, edition);
        assert_eq!(record.unit(0).unwrap().lost, lost);
        for other in [0, NEWEST_EDITION + 1] {
            let mut unknown = bytes.clone();
            unknown[0] = other as u8;
            assert_eq!(Record::read(&unknown).map(|_| ()), Err(refusal(17, 0)));
        }
    }
}

// A cell, marked as damaged.
fn broken(pid: u16, start: bool, counter: u8) -> [u8; 188] {
    let mut cell = packet(pid, start, counter);
    cell[1] |= 0x80;
    cell
}

// A damaged start mark before the first unit, then counters 3 and 5 with a damaged start mark between, whose counter
// is another: editions 1 to 3 trust it; 4 counts the first as a bad cell and the other in the unit's word 28 alone.
#[test]
fn damaged() {
    let first = [broken(256, true, 9), packet(256, false, 3)];
    let later = [broken(256, true, 12), packet(256, false, 5)];
    let frames =
        [frame(10, 5, &carrying(&first)), frame(9, 0, &carrying(&later[..1])), frame(11, 0, &carrying(&later[1..]))]
            .concat();
    let capture = [file_header(), frames].concat();
    let measured = |edition| {
        let mut sample = Sample::open(Opening { edition, ..BLACK }).unwrap();
        sample.feed_capture(&capture).unwrap();
        sample.feed_luma(&[0; 2 * PICTURE]).unwrap();
        sealed(&sample).unwrap()
    };
    let unit = Unit { least: 10_000_005, greatest: 11_000_000, size: 2 * 184, packets: 2, lost: 1, damaged: 1 };
    let bytes = measured(4);
    let record = Record::read(&bytes).unwrap();
    assert_eq!(record.units().collect::<Vec<_>>(), [unit]);
    assert_eq!(record.header().bad, 1);
    // its sheet has a field more, and in another edition word 28 is not let through
    let mut page = [0; 6060];
    assert_eq!(sheet(&bytes, &mut page), Ok(6060));
    assert_eq!(page[101 + 87..101 + 100], *b"          1  ");
    let mut other = bytes.clone();
    other[0] = 3;
    assert_eq!(Record::read(&other).map(|_| ()), Err(refusal(18, 0)));
    for edition in 1..4 {
        let bytes = measured(edition);
        let record = Record::read(&bytes).unwrap();
        let rows: Vec<_> = record.units().map(|u| (u.packets, u.lost, u.damaged)).collect();
        assert_eq!(rows, [(2, 9, 0), (2, 8 + 8, 0)], "edition {edition}");
        assert_eq!(record.header().bad, 0);
        assert_eq!(sheet(&bytes, &mut page), Ok(6060));
        assert_eq!(page[101 + 87..101 + 100], *b"             ");
    }
    // damaged cells alone begin no unit
    let mut sample = Sample::open(Opening { edition: 4, ..BLACK }).unwrap();
    sample.feed_capture(&[file_header(), frame(10, 5, &carrying(&first[..1]))].concat()).unwrap();
    assert_eq!(sealed(&sample), Err(refusal(12, 0)));
}

// Pictures of 16 by 32: of the second four pixels are higher by 1 and four lower, so that 100 times the deviation is
// 12.5, a tie; of the third every fourth pixel is higher by 2 (e 0 0 0 2), and it is 86.60.
#[test]
fn changes() {
    let capture = [file_header(), frame(10, 5, &carrying(&[packet(256, true, 0)]))].concat();
    let mut luma = [100u8; 3 * 512];
    luma[512..516].fill(101);
    luma[516..520].fill(99);
    luma.copy_within(512..1024, 1024);
    for pixel in luma[1024..].iter_mut().step_by(4) {
        *pixel += 2;
    }
    for (edition, change) in [(1, 12 + 86), (2, 12 + 86), (3, 13 + 87), (4, 13 + 87)] {
        let opening = Opening { width: 16, height: 32, edition, ..BLACK };
        let mut sample = Sample::open(opening).unwrap();
        sample.feed_capture(&capture).unwrap();
        sample.feed_luma(&luma).unwrap();
        let bytes = sealed(&sample).unwrap();
        let record = Record::read(&bytes).unwrap();
        assert_eq!(record.scene(0).unwrap().change, change, "edition {edition}");
    }
}

#[test]
fn refused_captures() {
    let header = file_header();
    let is_refused = |capture: &[u8], expected: Refusal| {
        let mut sample = Sample::open(BLACK).unwrap();
        assert_eq!(sample.feed_capture(capture), Err(expected));
        assert_eq!(sample.feed_capture(&[]), Err(expected), "a later feed repeats it");
        assert_eq!(sample.feed_luma(&[0; 2 * PICTURE]), Ok(2 * PICTURE), "the other side goes on");
        assert_eq!(sealed(&sample), Err(expected));
    };
    is_refused(&[0xA1, 0xB2, 0xC3, 0xD4], refusal(5, 3));
    is_refused(&[&header[..20], &[101, 0, 0, 0]].concat(), refusal(6, 23));
    is_refused(&[header.clone(), frame(0, 1_000_000, &[])].concat(), refusal(7, 31));
    is_refused(&[header.clone(), frame(0, 0, &[0; 65_536])].concat(), refusal(8, 35));
    let starts: Vec<u8> =
        (0..751u32).flat_map(|i| frame(i, 0, &carrying(&[packet(256, true, i as u8 % 16)]))).collect();
    is_refused(&[header, starts].concat(), refusal(9, 24 + 750 * 246 + 16 + 42 + 3));
}

#[test]
fn capture_past_its_length() {
    let mut sample = Sample::open(BLACK).unwrap();
    sample.feed_capture(&file_header()).unwrap();
    let other = frame(0, 0, &[0; 65_519]);
    let mut left = 268_435_456 - 24;
    while left > 0 {
        let n = other.len().min(left);
        assert_eq!(sample.feed_capture(&other[..n]), Ok(n));
        left -= n;
    }
    assert_eq!(sample.feed_capture(&[0]), Err(refusal(4, 268_435_456)));
}

#[test]
fn refused_luma() {
    let mut sample = fed(&worked_capture(), &[7; 750 * PICTURE]);
    assert_eq!(sample.feed_luma(&[7]), Err(refusal(10, 675_000)));
    assert_eq!(sample.feed_capture(&frame(11, 0, b"")), Ok(16), "the other side goes on");
    assert_eq!(sealed(&sample), Err(refusal(10, 675_000)));
}

#[test]
fn refused_seals() {
    let black = [0; 2 * PICTURE];
    assert_eq!(sealed(&fed(&[], &black)), Err(refusal(11, 0)));
    assert_eq!(sealed(&fed(&worked_capture()[..100], &black)), Err(refusal(11, 100)));
    assert_eq!(sealed(&fed(&file_header(), &black)), Err(refusal(12, 0)));
    assert_eq!(sealed(&fed(&worked_capture(), &[0])), Err(refusal(13, 1)));
    assert_eq!(sealed(&fed(&worked_capture(), &[])), Err(refusal(14, 0)));
    let mut short = [0xAA; 127];
    assert_eq!(fed(&worked_capture(), &black).seal(&mut short), Err(refusal(15, 128)));
    assert_eq!(short, [0xAA; 127]);
    assert_eq!(fed(&worked_capture(), &black).seal(&mut []), Err(refusal(15, 128)));
}

// The index of these counts, each operation once.
fn index_of(unrepeated: u32, pictures: u32, packets: u32, lost: u32) -> Index {
    let ic = 4.0 * (f64::from(unrepeated) / f64::from(pictures));
    let ip = f64::from(packets) / f64::from(packets + lost);
    let value = 1.0 + ic * ip;
    Index { ic, ip, value }
}

fn bits(index: Index) -> [u64; 3] {
    [index.ic, index.ip, index.value].map(f64::to_bits)
}

// A capture of two frames, fed byte by byte: a packet counts with its last byte, and its loss with
// it; and so does a picture.
#[test]
fn index_while_feeding() {
    let packets = [packet(256, true, 0), packet(256, false, 3), packet(256, true, 4)];
    let frames = [frame(1, 0, &carrying(&packets[..2])), frame(2, 0, &carrying(&packets[2..]))];
    let capture = [file_header(), frames.concat()].concat();
    let first = 24 + 16 + 42;
    let ends = [first + 188, first + 376, capture.len()];
    let lost = [0, 0, 2, 2];
    let mut sample = fed(&[], &[0; 2 * PICTURE + 1]);
    for (i, byte) in capture.iter().enumerate() {
        sample.feed_capture(&[*byte]).unwrap();
        let whole = ends.iter().filter(|&&end| end <= i + 1).count();
        let expected = match whole {
            0 => Err(refusal(12, 0)),
            n => Ok(bits(index_of(1, 2, n as u32, lost[n]))),
        };
        assert_eq!(sample.index().map(bits), expected);
    }
    sample.feed_luma(&[9; PICTURE - 1]).unwrap();
    let last = sample.index().unwrap();
    assert_eq!(bits(last), bits(index_of(2, 3, 3, 2)));
    let bytes = sealed(&sample).unwrap();
    assert_eq!(Record::read(&bytes).unwrap().header().index, last.value);
}

#[test]
fn refused_indices() {
    let black = [0; 2 * PICTURE];
    let asked = |capture: &[u8], luma: &[u8]| fed(capture, luma).index().map(bits);
    assert_eq!(asked(&[], &[]), Err(refusal(12, 0)));
    assert_eq!(asked(&worked_capture()[..269], &black), Err(refusal(12, 0)));
    assert_eq!(asked(&worked_capture(), &[0]), Err(refusal(14, 0)));
    assert_eq!(asked(&[0; 4], &black), Err(refusal(5, 3)));
    let surplus = vec![0; 750 * PICTURE + 1];
    assert_eq!(asked(&[0; 4], &surplus), Err(refusal(5, 3)));
    assert_eq!(asked(&[], &surplus), Err(refusal(10, 675_000)));
    let three = asked(&worked_capture(), &black);
    assert_eq!(three, Ok(bits(index_of(1, 2, 1, 0))));
    assert_eq!(three.unwrap()[2], 0x4008_0000_0000_0000);
}

// 200 pictures in runs of 1, 2, 3 and so on alike ones: a passage's repeats are all its pictures but the runs' first.
#[test]
fn repeats_in_passages() {
    let mut firsts = vec![0];
    while *firsts.last().unwrap() < 200 {
        firsts.push(firsts.last().unwrap() + firsts.len());
    }
    let run_of = |i: usize| firsts.iter().filter(|&&first| first <= i).count();
    let luma: Vec<u8> = (0..200).flat_map(|i| [run_of(i) as u8 * 8; PICTURE]).collect();
    let mut sample = fed(&[], &luma[..100 * PICTURE + 1]);
    let counted = |sample: &Sample, a: usize, b: usize| sample.repeats(a as u32..b as u32);
    assert_eq!(counted(&sample, 0, 101), Err(refusal(26, 0)));
    assert_eq!(counted(&sample, 100, 100), Ok(0));
    sample.feed_luma(&luma[100 * PICTURE + 1..]).unwrap();
    for a in 0..=200 {
        for b in a..=200 {
            let repeated = (a..b).filter(|i| !firsts.contains(i)).count();
            assert_eq!(counted(&sample, a, b), Ok(repeated));
        }
    }
    for (a, b) in [(0, 201), (1, 0), (200, 199), (201, 201), (0, u32::MAX as usize)] {
        assert_eq!(counted(&sample, a, b), Err(refusal(26, 0)));
    }
    // refusals of feeds do not stop it: 5 of the capture, and 10 behind 750 pictures
    assert_eq!(sample.feed_capture(&[0; 4]), Err(refusal(5, 3)));
    assert_eq!(counted(&sample, 0, 200), Ok(200 - run_of(199)));
    sample.feed_luma(&vec![0; 550 * PICTURE]).unwrap();
    assert_eq!(sample.feed_luma(&[0]), Err(refusal(10, 675_000)));
    assert_eq!(counted(&sample, 0, 750), Ok(750 - run_of(199) - 1));
    assert_eq!(counted(&sample, 0, 751), Err(refusal(26, 0)));
}

#[test]
fn refused_readings() {
    let read = |bytes: &[u8]| Record::read(bytes).map(|_| ());
    let bytes = sealed(&fed(&worked_capture(), &[0; 2 * PICTURE])).unwrap();
    let altered = |at: usize| {
        let mut other = bytes.clone();
        other[at] ^= 1;
        other
    };
    assert_eq!(read(&bytes), Ok(()));
    assert_eq!(read(&[]), Err(refusal(16, 0)));
    assert_eq!(read(&bytes[..63]), Err(refusal(16, 0)));
    assert_eq!(read(&altered(0)), Err(refusal(17, 0)));
    assert_eq!(read(&altered(64 + 28)), Err(refusal(18, 0)));
    assert_eq!(read(&bytes[..127]), Err(refusal(18, 0)));
    let record = Record::read(&bytes).unwrap();
    for j in [1, 2, 750, usize::MAX] {
        assert_eq!(record.unit(j), Err(refusal(19, 0)));
        assert_eq!(record.scene(j), Err(refusal(19, 0)));
    }
}

#[test]
fn a_clone_goes_on_by_itself() {
    let mut sample = fed(&worked_capture(), &[0; 2 * PICTURE]);
    let before = sealed(&sample).unwrap();
    let kept = sample.clone();
    sample.feed_luma(&[9; PICTURE]).unwrap();
    assert_eq!(sealed(&kept).unwrap(), before);
    assert_ne!(sealed(&sample).unwrap(), before);
}

#[test]
fn words() {
    let said: Vec<String> = (1..=28).map(|number| refusal(number, 0).meaning().to_string()).collect();
    for (i, words) in said.iter().enumerate() {
        assert!(!said[..i].contains(words), "two numbers say: {words}");
    }
    assert_eq!(refusal(15, 128).to_string(), "refused 15: the buffer is too short (128 needed)");
    assert_eq!(refusal(6, 23).to_string(), "refused 6: the capture's link type is not 1, Ethernet (at byte 23)");
    assert_eq!(refusal(14, 0).to_string(), "refused 14: there is no picture");
    let error: Box<dyn std::error::Error> = refusal(12, 0).into();
    assert_eq!(
        error.to_string(),
        "refused 12: the capture has no whole packet with the identifier, or, by edition 4, damaged ones alone"
    );
}

fn surveyed(capture: &[u8], piece: usize) -> Result<Most, Refusal> {
    let mut survey = Survey::open();
    for bytes in capture.chunks(piece) {
        let fed = survey.feed(bytes);
        assert!(fed == Ok(bytes.len()) || fed == survey.ask().map(|_| 0));
    }
    survey.ask()
}

// Every cutting ends alike.
fn survey(capture: &[u8]) -> Result<Most, Refusal> {
    let whole = surveyed(capture, capture.len().max(1));
    for piece in [1, 3, 16, 58, 188, 300] {
        assert_eq!(surveyed(capture, piece), whole, "pieces of {piece}");
    }
    whole
}

#[test]
fn surveys() {
    let capture = |packets: &[[u8; 188]]| [file_header(), frame(1, 2, &carrying(packets))].concat();
    let good = |pid| packet(pid, false, 0);
    let mut bad = good(256);
    bad[0] = 0x46;
    let damaged = broken(256, false, 0);
    let most = |pid, packets| Ok(Most { pid, packets });
    assert_eq!(survey(&capture(&[good(257), good(256), good(257)])), most(257, 2));
    assert_eq!(survey(&capture(&[good(8191), good(0)])), most(0, 1));
    assert_eq!(survey(&capture(&[good(8191)])), most(8191, 1));
    assert_eq!(survey(&capture(&[bad, bad, good(300)])), most(300, 1));
    assert_eq!(survey(&capture(&[damaged, damaged, good(300)])), most(300, 1));
    assert_eq!(survey(&capture(&[damaged])), Err(refusal(21, 0)));
    assert_eq!(survey(&capture(&[bad])), Err(refusal(21, 0)));
    assert_eq!(survey(&file_header()), Err(refusal(21, 0)));
    assert_eq!(survey(&[]), Err(refusal(11, 0)));
    assert_eq!(survey(&[capture(&[bad]), vec![0]].concat()), Err(refusal(11, 271)));
    assert_eq!(survey(&[0; 30]), Err(refusal(5, 3)));
    assert_eq!(survey(&[file_header(), frame(0, 1_000_000, &[])].concat()), Err(refusal(7, 31)));
    let mut early = Survey::open();
    let bytes = capture(&[good(9)]);
    early.feed(&bytes[..100]).unwrap();
    assert_eq!(early.ask(), Err(refusal(11, 100)));
    let mut other = early.clone();
    early.feed(&bytes[100..]).unwrap();
    assert_eq!((early.ask(), other.ask()), (most(9, 1), Err(refusal(11, 100))));
    assert_eq!(other.feed(&[]), Ok(0));
}

#[test]
fn packets_of_each_identifier() {
    let good = |pid| packet(pid, false, 0);
    let packets = [good(0), good(8191), good(256), broken(256, false, 0), good(8191)];
    let capture = [file_header(), frame(1, 2, &carrying(&packets))].concat();
    let mut survey = Survey::open();
    for byte in &capture[..capture.len() - 1] {
        survey.feed(&[*byte]).unwrap();
    }
    let counts = |survey: &Survey| [0, 255, 256, 8191, 8192, u32::MAX].map(|pid| survey.packets(pid));
    assert_eq!(counts(&survey), [1, 0, 1, 1, 0, 0]);
    survey.feed(&capture[capture.len() - 1..]).unwrap();
    assert_eq!(counts(&survey), [1, 0, 1, 2, 0, 0]);
    assert_eq!(counts(&Survey::open()), [0; 6]);
}
