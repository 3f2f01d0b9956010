//! carolsedge explain: what a refusal means and what usually mends it.
use crate::output;
use crate::outside::shown;
use crate::stop::Stop;
use crate::words::{number, Words};
use crate::Subcommand;
use carolsedge::Refusal;
use std::ffi::OsString;

pub const SUBCOMMAND: Subcommand =
    Subcommand { name: "explain", summary: "say what a refusal means and what usually mends it", help: HELP, run };

const HELP: &str = "\
usage: carolsedge explain [NUMBER]

Says what the refusal with that number means and what usually mends it; without
NUMBER, of all refusals.

A refused run prints `refused NUMBER PLACE` on standard output. The place counts
bytes from 0: of 4 to 10 it is where the refusal shows (0 where 10 is about the
number of pictures of the busiest sample), of 11 and 13 how many bytes that side
has, of 15 how long the buffer has to be, of 28 it is the number of a record;
otherwise 0.

Exit status: 0 done, 2 wrong words, or standard output cannot be written.
";

/// What usually mends refusal 1, 2, 3 and so on.
const MENDS: &[&str] = &[
    "Give --size as WIDTHxHEIGHT of the pictures as they are fed; scale larger ones down before (ffmpeg -vf scale).",
    "Give --time in microseconds (40000 for 25 pictures a second), or --rate in pictures a second (5 to 100).",
    "Give --pid of the video's packets, 0 to 8191; a transport stream has no others.",
    "Cut the capture by time (editcap -F pcap -i 20 IN OUT; while capturing: tcpdump -C 250), and measure each part.",
    "Make such a file of it: editcap -F pcap IN OUT (of pcapng; also of nanoseconds and big-endian files).",
    "Capture on one Ethernet interface (tcpdump -i NAME, not -i any); the loopback interface will do too.",
    DAMAGED,
    DAMAGED,
    "Cut the capture by time (editcap -F pcap -i 20 IN OUT), and measure each part with its own pictures.",
    "Cut by time: 750 pictures are 30 seconds at 25 a second (editcap -F pcap -i 20 IN OUT, and ffmpeg -ss .. -t 20).",
    "The capture is cut short, or still being written: end tcpdump by an interrupt, and copy the file whole.",
    "Give --pid of the video's packets: carolsedge survey CAPTURE names the identifier with most packets.",
    "See that --size is the size of the pictures, that a sample has one byte (8 bits), and that the file is whole.",
    "See that the decoder gives pictures: ffmpeg -i IN -vf extractplanes=y -fps_mode passthrough OUT.y4m",
    "Lend a buffer of the length that the place names; no record is longer than 32,064 bytes.",
    "The file is no record, or was cut short: measure again, or look for another copy.",
    "The file is no record, or one of a later edition: show it with a later program.",
    "The file was altered or cut, or has bytes behind the record: look for another copy.",
    "Ask for rows from 0 up to, but without, the count in the record's header; for records, the count of the shelf.",
    "Give --edition of the rules as 1 to 4, or leave it out: the newest is taken then.",
    "See that a transport stream was captured: plain UDP over IPv4, unencrypted, all bytes of a frame (tcpdump -s 0).",
    "Give 1 to 750 units, and for each a loss of 4 bytes and then a probability of 8: 4 + 12 N bytes in all.",
    "Give probabilities from 0 to 1; what is no number, or was divided by nothing, is none.",
    "Ask for at most 15 gaps: of more, 64 bits do not hold the number of runs.",
    "Give 1 to 4,096 packets, as many as the count says, of 14 bytes each; cut a longer stream by time.",
    "Name a passage of the pictures that are whole: its start at most its end, its end at most their number.",
    "The file is no shelf, or was altered or cut: look for another copy, or make it again of at most 4,096 records.",
    "The place is that record's number, from 0: look for another copy of the shelf, or make it without that record.",
];

const DAMAGED: &str =
    "The file is damaged there, or no capture: capture again, or take the frames before that place \
                       (editcap -F pcap -r IN OUT 1-N).";

/// What is said of an empty file, in place of what usually mends its refusal.
pub const EMPTY: &str = "It is empty: nothing was written to it yet, or it was emptied. Look for another copy.";

/// What usually mends a refusal.
pub fn mends(number: u32) -> &'static str {
    let at = (number as usize).wrapping_sub(1);
    MENDS.get(at).copied().unwrap_or("This program does not know the number; a later one may.")
}

fn explained(number: u32) -> String {
    let refusal = Refusal { number, place: 0 };
    format!("{number}: {}\n    {}\n", refusal.meaning(), mends(number))
}

fn run(words: Vec<OsString>) -> Result<(), Stop> {
    let word = Words::part(words, &[], &[])?.plain(&["NUMBER"], 1)?.into_iter().flatten().next();
    let last = MENDS.len() as u32;
    let Some(word) = word else {
        return output::print(&(1..=last).map(explained).collect::<String>());
    };
    match word.to_str().and_then(number) {
        Some(number) if (1..=last).contains(&number) => output::print(&explained(number)),
        _ => Err(Stop::Usage(format!("{}: not 1 to {last}", shown(word)))),
    }
}
