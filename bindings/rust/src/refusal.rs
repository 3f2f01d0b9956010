use std::error::Error;
use std::fmt;

/// A call that was refused: the number of documents 01 and 02, 1 to 28, and the place.
///
/// The place counts bytes from 0. Of 4 to 10 it is where the refusal shows (0 where 10 is about the busiest sample),
/// of 11 and 13 how many bytes that side was fed, of 15 how long the lent buffer or table has to be (of a table in
/// entries), of 28 the number of the record that is refused, and of all others 0.
#[derive(Debug, Clone, Copy, PartialEq, Eq, Hash)]
pub struct Refusal {
    /// 1 to 3 and 20: opening; 4 to 9: the capture; 10: the luma; 11 to 15: sealing (11: a survey too, 12 and 14: the
    /// index too, 15: a sheet, runs of gaps, RTP and writing a shelf too; 1, 2, 10 and 14: the busiest sample too); 16
    /// to 19: reading (19: a shelf too); 21: a survey; 22 and 23: losses; 24: runs of gaps; 25: RTP; 26: a passage; 27
    /// and 28: a shelf.
    pub number: u32,
    /// Where, or 0 where no place is named.
    pub place: u64,
}

impl Refusal {
    /// What the number says, in words.
    pub fn meaning(&self) -> &'static str {
        match self.number {
            1 => {
                "height outside 30 to 1088, width outside 15 to 1920, height above twice the width, or width \
                  above four times the height"
            }
            2 => "display time outside 10,000 to 200,000 microseconds",
            3 => "packet identifier above 8191",
            4 => "the capture is longer than 268,435,456 bytes",
            5 => {
                "the capture's first four bytes are not D4 C3 B2 A1: no little-endian libpcap file with microseconds"
            }
            6 => "the capture's link type is not 1, Ethernet",
            7 => "a frame's microseconds are above 999,999",
            8 => "a frame's stored length is above 65,535",
            9 => "a 751st unit begins",
            10 => "the luma is longer than 750 pictures",
            11 => "the capture ends inside its header or a frame",
            12 => "the capture has no whole packet with the identifier, or, by edition 4, damaged ones alone",
            13 => "the luma ends inside a picture",
            14 => "there is no picture",
            15 => "the buffer is too short",
            16 => "the record has fewer than 64 bytes",
            17 => "the record's edition is one that there is not",
            18 => "the bytes are no record that the rule allows",
            19 => "the record has no row, or the shelf no record, with that number",
            20 => "there is no such edition of the rules",
            21 => "the capture has no good packet",
            22 => "the units are not 1 to 750, or the lists of losses are not all so long",
            23 => "a key-frame probability is not within 0 to 1",
            24 => "the gaps of a run are more than 15",
            25 => "the rows of packets are none or more than 4,096, or their lists are not equally long",
            26 => "the passage ends before it starts, or behind the whole pictures",
            27 => "the shelf is not laid out as one",
            28 => "the shelf holds a record that is refused",
            _ => "a number that is not in the table",
        }
    }
}

/// What a call gave, or its refusal where the number is not 0: every call of the library answers so.
pub(crate) fn answer<T>(number: u32, place: u64, given: T) -> Result<T, Refusal> {
    match number {
        0 => Ok(given),
        _ => Err(Refusal { number, place }),
    }
}

impl fmt::Display for Refusal {
    fn fmt(&self, f: &mut fmt::Formatter<'_>) -> fmt::Result {
        write!(f, "refused {}: {}", self.number, self.meaning())?;
        match self.number {
            // The busiest sample's 10 is about a number; a feed's stands behind 750 pictures.
            10 if self.place == 0 => Ok(()),
            4..=10 => write!(f, " (at byte {})", self.place),
            11 | 13 => write!(f, " ({} bytes fed)", self.place),
            15 => write!(f, " ({} needed)", self.place),
            28 => write!(f, " (record {})", self.place),
            _ => Ok(()),
        }
    }
}

impl Error for Refusal {}
