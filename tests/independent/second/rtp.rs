//! Small-screen streams (request R-11): units of RTP packets, which have no cells.

use crate::lent;
use crate::opening::Refusal;
use crate::record::ROW;
use std::collections::BTreeMap;

/// Most packets.
const MOST_PACKETS: usize = 4_096;

/// Bytes of a packet's row in the program's input, and of the longest input.
const INPUT_ROW: usize = 14;
pub const LONGEST_INPUT: usize = 4 + INPUT_ROW * (MOST_PACKETS + 1);

/// Packets in arrival order, as four lists.
#[derive(Clone, Debug, Default)]
pub struct Packets {
    pub sequence: Vec<u16>,
    /// Set if not 0.
    pub marker: Vec<u16>,
    pub time: Vec<u64>,
    pub length: Vec<u16>,
}

/// A unit of packets that stayed.
#[derive(Clone, Copy, Debug, PartialEq, Eq)]
pub struct PacketUnit {
    pub least_time: u64,
    pub greatest_time: u64,
    pub size: u32,
    pub cells: u32,
    pub lost: u32,
}

impl Packets {
    /// Refusal 25: no packets, too many, or lists of unequal lengths.
    fn check(&self) -> Result<(), Refusal> {
        let count = self.sequence.len();
        let lengths = [self.marker.len(), self.time.len(), self.length.len()];
        let allowed = (1..=MOST_PACKETS).contains(&count) && lengths == [count; 3];
        if allowed { Ok(()) } else { Err(Refusal::unplaced(25)) }
    }

    /// The place of each packet, in arrival order.
    fn places(&self) -> Vec<i64> {
        let mut places = vec![i64::from(self.sequence[0])];
        for pair in self.sequence.windows(2) {
            let difference = pair[1].wrapping_sub(pair[0]).cast_signed();
            places.push(places[places.len() - 1] + i64::from(difference));
        }
        places
    }

    /// The units of the packets that stay, ordered by place; refusal 25.
    pub fn units(&self) -> Result<Vec<PacketUnit>, Refusal> {
        self.check()?;
        let mut stayed = BTreeMap::new();
        for (row, place) in self.places().into_iter().enumerate() {
            stayed.entry(place).or_insert(row);
        }
        let mut units = Vec::new();
        let mut open = None;
        let mut before = None;
        for (place, row) in stayed {
            let time = self.time[row];
            let begun = PacketUnit { least_time: time, greatest_time: time, size: 0, cells: 0, lost: 0 };
            let unit: &mut PacketUnit = open.get_or_insert(begun);
            unit.least_time = unit.least_time.min(time);
            unit.greatest_time = unit.greatest_time.max(time);
            unit.size += u32::from(self.length[row]);
            unit.cells += 1;
            unit.lost += before.map_or(0, |before| (place - before - 1) as u32);
            before = Some(place);
            if self.marker[row] != 0 {
                units.extend(open.take());
            }
        }
        units.extend(open);
        Ok(units)
    }

    /// The program's input: a count, then a row a packet. Of any other length it has unequal lists.
    fn from_input(input: &[u8]) -> Result<Self, Refusal> {
        let (count, rest) = input.split_first_chunk().ok_or(Refusal::unplaced(25))?;
        if rest.len() as u64 != INPUT_ROW as u64 * u64::from(u32::from_le_bytes(*count)) {
            return Err(Refusal::unplaced(25));
        }
        let half = |row: &[u8], place: usize| u16::from_le_bytes([row[place], row[place + 1]]);
        let mut packets = Packets::default();
        for row in rest.as_chunks::<INPUT_ROW>().0 {
            packets.sequence.push(half(row, 0));
            packets.marker.push(half(row, 2));
            packets.time.push((0..8).rev().fold(0, |time, place| time << 8 | u64::from(row[4 + place])));
            packets.length.push(half(row, 12));
        }
        Ok(packets)
    }
}

/// Writes the unit rows to a lent buffer: the number of rows, or 25, or 15.
pub fn write(packets: &Packets, buffer: &mut [u8]) -> Result<usize, Refusal> {
    let mut rows = Vec::new();
    for unit in packets.units()? {
        rows.extend(unit.least_time.to_le_bytes());
        rows.extend(unit.greatest_time.to_le_bytes());
        rows.extend([unit.size, unit.cells, unit.lost, 0].iter().flat_map(|word| word.to_le_bytes()));
    }
    lent::fill(buffer, &rows).map(|length| length / ROW)
}

/// The call on the program's input.
pub fn write_input(input: &[u8], buffer: &mut [u8]) -> Result<usize, Refusal> {
    write(&Packets::from_input(input)?, buffer)
}

/// What the program prints about its input: a line a unit.
pub fn print(input: &[u8]) -> String {
    let line = |unit: &PacketUnit| {
        let PacketUnit { least_time, greatest_time, size, cells, lost } = unit;
        format!("{least_time} {greatest_time} {size} {cells} {lost}\n")
    };
    match Packets::from_input(input).and_then(|packets| packets.units()) {
        Ok(units) => units.iter().map(line).collect(),
        Err(Refusal { number, place }) => format!("refused {number} {place}\n"),
    }
}

#[cfg(test)]
mod tests {
    use super::*;

    /// Packets of these sequence numbers and markers; packet j has time 100 + j and length 1,000 + j.
    fn packets(rows: &[(u16, u16)]) -> Packets {
        Packets {
            sequence: rows.iter().map(|row| row.0).collect(),
            marker: rows.iter().map(|row| row.1).collect(),
            time: (0..rows.len() as u64).map(|j| 100 + j).collect(),
            length: (0..rows.len() as u16).map(|j| 1_000 + j).collect(),
        }
    }

    fn units(rows: &[(u16, u16)]) -> Vec<[u64; 5]> {
        let units = packets(rows).units().unwrap();
        let row = |unit: &PacketUnit| {
            let [size, cells, lost] = [unit.size, unit.cells, unit.lost].map(u64::from);
            [unit.least_time, unit.greatest_time, size, cells, lost]
        };
        units.iter().map(row).collect()
    }

    #[test]
    fn places_wrap_and_are_read_with_their_sign() {
        let places = |sequence: &[u16]| packets(&sequence.iter().map(|&s| (s, 0)).collect::<Vec<_>>()).places();
        assert_eq!(places(&[65_534, 65_535, 0, 1]), [65_534, 65_535, 65_536, 65_537]);
        assert_eq!(places(&[1, 0, 65_535, 3]), [1, 0, -1, 3]);
        assert_eq!(places(&[0, 32_767, 65_535]), [0, 32_767, -1]);
        assert_eq!(places(&[0, 32_768, 0]), [0, -32_768, -65_536]);
    }

    #[test]
    fn units_of_ordered_rows() {
        // The doubled 7 is dropped with its marker; 4 and 5 are missing before 6, and 8 before 9.
        let rows = [(3, 0), (7, 0), (6, 1), (7, 9), (9, 256), (10, 0)];
        assert_eq!(units(&rows), [[100, 102, 2_002, 2, 2], [101, 104, 2_005, 2, 1], [105, 105, 1_005, 1, 0]]);
        assert_eq!(units(&[(9, 0)]), [[100, 100, 1_000, 1, 0]]);
        assert_eq!(units(&[(9, 1)]), [[100, 100, 1_000, 1, 0]]);
        // The lowest place comes last: nothing is missing before it, and the gap belongs to the row behind.
        assert_eq!(units(&[(5, 1), (1, 1)]), [[101, 101, 1_001, 1, 0], [100, 100, 1_000, 1, 3]]);
        assert_eq!(units(&[(0, 0), (32_768, 0)]), [[100, 101, 2_001, 2, 32_767]]);
    }

    #[test]
    fn refusals_and_the_lent_buffer() {
        let two = packets(&[(1, 1), (2, 0)]);
        let mut buffer = [7; 66];
        assert_eq!(write(&two, &mut buffer[..63]), Err(Refusal::at(15, 64)));
        assert_eq!(buffer, [7; 66]);
        assert_eq!(write(&two, &mut buffer), Ok(2));
        assert_eq!((buffer[0], buffer[32], &buffer[60..]), (100, 101, &[0, 0, 0, 0, 7, 7][..]));
        let mut unequal = two.clone();
        unequal.length.pop();
        let many = |count: usize| packets(&[(1, 0)]).repeated(count);
        for wrong in [Packets::default(), unequal, many(4_097)] {
            assert_eq!(write(&wrong, &mut []), Err(Refusal::unplaced(25)));
        }
        assert_eq!(many(4_096).units().unwrap().len(), 1);
    }

    impl Packets {
        fn repeated(&self, count: usize) -> Self {
            Packets {
                sequence: self.sequence.repeat(count),
                marker: self.marker.repeat(count),
                time: self.time.repeat(count),
                length: self.length.repeat(count),
            }
        }
    }

    #[test]
    fn lines_of_the_program() {
        let mut input = vec![1, 0, 0, 0, 9, 0, 0, 1];
        input.extend(u64::MAX.to_le_bytes());
        input.extend([255, 255]);
        assert_eq!(print(&input), format!("{0} {0} 65535 1 0\n", u64::MAX));
        for length in [0, 3, 4, 17] {
            assert_eq!(print(&input[..length]), "refused 25 0\n");
        }
        assert_eq!(print(&[0; 4]), "refused 25 0\n");
        assert_eq!(print(&[0, 0, 0, 128]), "refused 25 0\n");
    }
}
