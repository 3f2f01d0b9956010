//! carolsedge rtp: the units of RTP packets, which come without transport packets.
mod capture;

use crate::input::{little_endian, Input};
use crate::output;
use crate::stop::Stop;
use crate::words::{number, Words};
use crate::Subcommand;
use carolsedge::Refusal;
use std::ffi::{OsStr, OsString};

pub const SUBCOMMAND: Subcommand =
    Subcommand { name: "rtp", summary: "print the units of RTP packets", help: HELP, run };

const HELP: &str = "\
usage: carolsedge rtp < PACKETS
       carolsedge rtp CAPTURE --port P [--ssrc S]

Prints the units of RTP packets, a line each:

  LEAST GREATEST SIZE PACKETS LOST

its least and greatest time, the sum of its packets' lengths, its packets, and
the packets that the sequence numbers say are missing. Packets are ordered by
sequence number, which wraps; of two with one number the first to arrive stays;
a unit ends at a marker or the last packet. There may be 1 to 4,096 packets.

  PACKETS    in arrival order, little-endian: a 32-bit count, then of each its
             sequence number (16 bits), marker (16, set if not 0), time (64)
             and length (16)
  CAPTURE    a libpcap file of Ethernet frames, or - for standard input, with
             RTP in plain UDP over IPv4; a packet's time is its frame's, its
             length the bytes behind the RTP header's first 12
  --port P   the UDP port that the packets go to
  --ssrc S   their source; without it the one that has most packets is taken

Exit status: 0 printed, 1 refused, 2 wrong words or a file's error.
";

/// Bytes of a packet in the input, and of a unit's row.
const PACKET: usize = 14;
const ROW: usize = 32;

/// No more packets are allowed; with one more, input is refused, so that more need not be read.
const PACKETS_MOST: usize = 4_096;

/// Bytes that are read: one more than a count and one packet too many.
const LONGEST: usize = 4 + PACKET * (PACKETS_MOST + 1) + 1;

/// Packets in arrival order, as the lists that the library takes.
#[derive(Debug, Default, PartialEq)]
struct Packets {
    sequences: Vec<u16>,
    markers: Vec<bool>,
    times: Vec<u64>,
    lengths: Vec<u16>,
}

fn run(words: Vec<OsString>) -> Result<(), Stop> {
    let words = Words::part(words, &["--port", "--ssrc"], &[])?;
    let capture = words.plain(&["CAPTURE"], 1)?.remove(0);
    let port = words.read("--port", |text| number(text)?.try_into().ok(), "a port, 0 to 65535")?;
    let ssrc = words.read("--ssrc", number, "a source's identifier of 32 bits")?;
    let rows = match (capture, port) {
        (Some(capture), Some(port)) => captured(&capture, port, ssrc)?,
        (Some(_), None) => return Err(Stop::Usage("--port P is missing".into())),
        (None, None) if ssrc.is_none() => listed()?,
        (None, _) => return Err(Stop::Usage("CAPTURE is missing".into())),
    };
    output::print(&rows.chunks_exact(ROW).map(line).collect::<String>())
}

/// The unit rows of the packets on standard input.
fn listed() -> Result<Vec<u8>, Stop> {
    let mut input = Input::piped("PACKETS")?;
    let bytes = input.up_to(LONGEST)?;
    let unequal = Refusal { number: 25, place: 0 };
    let packets = given(&bytes).map_err(|found| Stop::refused(unequal, vec![found]).of(input.name()))?;
    packets.units().map_err(|refusal| Stop::from(refusal).of(input.name()))
}

/// The unit rows of one source's packets to a port, and says on standard error what was taken and what was left out.
fn captured(capture: &OsStr, port: u16, ssrc: Option<u32>) -> Result<Vec<u8>, Stop> {
    let mut input = Input::open(capture)?;
    let found = capture::find(&mut input, port, ssrc)?;
    let rows = found.packets().units();
    let rows = rows.map_err(|refusal| Stop::refused(refusal, found.refused()).of(input.name()))?;
    found.tell();
    Ok(rows)
}

impl Packets {
    fn push(&mut self, sequence: u16, marker: bool, time: u64, length: u16) {
        self.sequences.push(sequence);
        self.markers.push(marker);
        self.times.push(time);
        self.lengths.push(length);
    }

    /// The rows of their units.
    fn units(&self) -> Result<Vec<u8>, Refusal> {
        let Packets { sequences, markers, times, lengths } = self;
        let mut rows = vec![0; ROW * sequences.len()];
        let units = carolsedge::rtp_units(sequences, markers, times, lengths, &mut rows)?;
        rows.truncate(ROW * units);
        Ok(rows)
    }
}

/// The packets of the input, or what is wrong with its length.
fn given(bytes: &[u8]) -> Result<Packets, String> {
    let Some((count, rest)) = bytes.split_first_chunk() else {
        return Err("standard input ends inside the count of packets".into());
    };
    let count = u32::from_le_bytes(*count);
    if rest.len() as u64 != PACKET as u64 * u64::from(count) {
        let behind = rest.len();
        return Err(format!("{behind} bytes or more stand behind a count of {count} packets of {PACKET} bytes"));
    }
    let mut packets = Packets::default();
    for packet in rest.chunks_exact(PACKET) {
        let figure = |part| little_endian(packet.get(part).unwrap_or_default());
        let [sequence, marker, time, length] = [0..2, 2..4, 4..12, 12..14].map(figure);
        packets.push(sequence as u16, marker != 0, time, length as u16);
    }
    Ok(packets)
}

/// The line of a unit's row.
fn line(row: &[u8]) -> String {
    let figure = |part| little_endian(row.get(part).unwrap_or_default());
    let [least, greatest, size, packets, lost] = [0..8, 8..16, 16..20, 20..24, 24..28].map(figure);
    format!("{least} {greatest} {size} {packets} {lost}\n")
}

#[cfg(test)]
mod tests {
    use super::*;

    fn bytes(count: u32, packets: &[(u16, u16, u64, u16)]) -> Vec<u8> {
        let mut all = count.to_le_bytes().to_vec();
        for (sequence, marker, time, length) in packets {
            all.extend(sequence.to_le_bytes());
            all.extend(marker.to_le_bytes());
            all.extend(time.to_le_bytes());
            all.extend(length.to_le_bytes());
        }
        all
    }

    /// A marker is set whatever bit of it is.
    #[test]
    fn packets_in_order() {
        let packets = given(&bytes(3, &[(65_535, 0, 7, 1_400), (0, 256, u64::MAX, 0), (1, 0x8000, 1, 2)])).unwrap();
        assert_eq!(packets.sequences, [65_535, 0, 1]);
        assert_eq!(packets.markers, [false, true, true]);
        assert_eq!(packets.times, [7, u64::MAX, 1]);
        assert_eq!(packets.lengths, [1_400, 0, 2]);
        assert_eq!(given(&bytes(0, &[])), Ok(Packets::default()));
    }

    #[test]
    fn another_length_than_the_count() {
        let packet = (1, 0, 1, 1);
        let whole = bytes(2, &[packet, packet]);
        let more = bytes(1, &[packet, packet]);
        for other in [&whole[..0], &whole[..3], &whole[..4], &whole[..18], &whole[..31], &more] {
            assert!(given(other).is_err(), "{} bytes", other.len());
        }
        assert!(given(&bytes(u32::MAX, &[packet])).is_err());
    }

    #[test]
    fn a_line_a_unit() {
        let mut row = [1u64.to_le_bytes(), u64::MAX.to_le_bytes()].concat();
        row.extend([3u32, 4, 5, 0].iter().flat_map(|word| word.to_le_bytes()));
        assert_eq!(line(&row), "1 18446744073709551615 3 4 5\n");
    }
}
