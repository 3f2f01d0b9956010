//! A capture whose stream is decoded: its transport packets go to ffmpeg through a pipe, and the luma comes back as a
//! y4m stream. Both sides are fed while they come, and nothing is kept on a disk.
use super::asked::Asked;
use super::decoder::{thread, Decoder, Ended};
use super::progress::Progress;
use super::y4m::{self, First, Heading};
use super::{Measured, PIECE};
use crate::input::Input;
use crate::stop::Stop;
use crate::walk::Walk;
use carolsedge::{Opening, Sample};
use std::io::{self, ErrorKind, Read, Write};
use std::process::{ChildStdin, ChildStdout};
use std::sync::atomic::{AtomicBool, AtomicU64, Ordering::Relaxed};
use std::sync::mpsc::{sync_channel, Receiver, RecvTimeoutError, SyncSender};
use std::sync::Arc;
use std::time::Duration;

/// A capture with more bytes is refused, so there is no need to wait with more of them.
const CAPTURE_MOST: usize = 268_435_456;

/// Pieces that may wait to be fed.
const WAITING: usize = 4;

/// How long one waits for the next piece before one asks whether the decoder owes it.
const TICK: Duration = Duration::from_millis(100);

/// What two threads hand on: pieces of the capture, and their end; pieces of ffmpeg's pictures, and their end.
enum Event {
    Capture(Vec<u8>),
    Fed(Result<Walk, Stop>),
    Pictures(Vec<u8>),
    Drawn(io::Result<()>),
}

/// How ffmpeg keeps up, and whether more of the capture is wanted.
#[derive(Default)]
struct Pace {
    /// Whether ffmpeg was handed packets or their end. While the capture itself is waited for it owes nothing.
    owes: AtomicBool,
    /// Ticks since it last took or gave a byte.
    quiet: AtomicU64,
    enough: AtomicBool,
}

impl Pace {
    fn owes(&self, owes: bool) {
        self.owes.store(owes, Relaxed);
        self.moved();
    }

    fn moved(&self) {
        self.quiet.store(0, Relaxed);
    }

    /// A tick has gone by; whether they are too many. A run that was stopped meanwhile has one tick more, not many.
    fn is_over(&self, patience: Duration) -> bool {
        let quiet = self.quiet.fetch_add(1, Relaxed) + 1;
        self.owes.load(Relaxed) && u128::from(quiet) * TICK.as_millis() >= patience.as_millis()
    }
}

pub fn measure(asked: &Asked, capture: Input) -> Result<Measured, Stop> {
    let (name, progress) = (capture.name().to_string(), Progress::of(capture.length()));
    let (mut decoder, (into, from)) = Decoder::start(asked.pid)?;
    let (sender, events) = sync_channel(WAITING);
    let pace = Arc::new(Pace::default());
    let (to_us, shared) = (sender.clone(), pace.clone());
    let feeder = thread(move || {
        let fed = feed(capture, into, &to_us, &shared);
        shared.owes(true);
        let _ = to_us.send(Event::Fed(fed));
    })?;
    let drawer = thread(move || {
        let drawn = from.map_or(Ok(()), |from| draw(from, &sender));
        let _ = sender.send(Event::Drawn(drawn));
    })?;
    let (sample, waiting, drawing) = (None, Vec::new(), Drawing::Head(Vec::new()));
    let mut stream = Stream { asked, name, sample, waiting, drawing, bytes: 0, luma: 0, progress };
    let walk = stream.take(&events, &pace, &mut decoder)?;
    if matches!(stream.drawing, Drawing::Enough) {
        return stream.measured(walk, None);
    }
    let ended = decoder.ended(asked.patience)?.ok_or_else(|| stream.hangs())?;
    // Both have handed on their last; a signal that is held while the record is written must find no other thread.
    let _ = (feeder.join(), drawer.join());
    stream.measured(walk, Some(ended))
}

/// Reads the capture, hands it on, and gives its transport packets to ffmpeg as long as that takes them.
fn feed(mut capture: Input, mut into: Option<ChildStdin>, to: &SyncSender<Event>, pace: &Pace) -> Result<Walk, Stop> {
    let mut walk = Walk::new();
    let mut buffer = vec![0; PIECE];
    let mut packets = Vec::new();
    loop {
        pace.owes(false);
        let piece = capture.read(&mut buffer)?;
        let over = piece.is_empty() || to.send(Event::Capture(piece.to_vec())).is_err();
        if over || pace.enough.load(Relaxed) {
            return Ok(walk);
        }
        packets.clear();
        walk.take(piece, |packet| packets.extend(packet));
        pace.owes(true);
        if into.as_mut().is_some_and(|into| give(into, &packets, pace).is_err()) {
            into = None;
        }
    }
}

/// Gives all packets to ffmpeg; each that it takes is a sign of it.
fn give(into: &mut ChildStdin, mut packets: &[u8], pace: &Pace) -> io::Result<()> {
    while !packets.is_empty() {
        let taken = match into.write(packets) {
            Ok(0) => return Err(ErrorKind::WriteZero.into()),
            Ok(taken) => taken,
            Err(error) if error.kind() == ErrorKind::Interrupted => 0,
            Err(error) => return Err(error),
        };
        pace.moved();
        packets = packets.get(taken..).unwrap_or_default();
    }
    Ok(())
}

/// Hands on what ffmpeg gives, up to its end.
fn draw(mut from: ChildStdout, to: &SyncSender<Event>) -> io::Result<()> {
    loop {
        let mut piece = vec![0; PIECE];
        match from.read(&mut piece) {
            Ok(0) => return Ok(()),
            Ok(n) => piece.truncate(n),
            Err(error) if error.kind() == ErrorKind::Interrupted => continue,
            Err(error) => return Err(error),
        }
        if to.send(Event::Pictures(piece)).is_err() {
            return Ok(());
        }
    }
}

/// ffmpeg's pictures.
enum Drawing {
    /// What has come of their heading.
    Head(Vec<u8>),
    /// The way through them, and the bytes of one's luma.
    Pictures(y4m::Pictures, u64),
    /// They are more than are taken.
    Enough,
}

/// Both sides as they come. The sample is opened once ffmpeg says how large the pictures are; the capture's bytes wait
/// until then.
struct Stream<'a> {
    asked: &'a Asked,
    name: String,
    sample: Option<Sample>,
    waiting: Vec<u8>,
    drawing: Drawing,
    /// Bytes of both sides that have come.
    bytes: u64,
    luma: u64,
    progress: Progress,
}

impl Stream<'_> {
    /// Takes all that comes, and gives what was noticed in the capture.
    fn take(&mut self, events: &Receiver<Event>, pace: &Pace, decoder: &mut Decoder) -> Result<Walk, Stop> {
        let (mut walk, mut drawn) = (None, false);
        loop {
            match events.recv_timeout(TICK) {
                Ok(Event::Capture(piece)) => pace.enough.store(!self.capture(&piece)?, Relaxed),
                Ok(Event::Fed(fed)) => walk = Some(fed?),
                Ok(Event::Pictures(piece)) => {
                    pace.moved();
                    if !self.pictures(&piece)? {
                        decoder.end();
                        drawn = true;
                    }
                }
                Ok(Event::Drawn(done)) => {
                    done.map_err(|error| Stop::file("ffmpeg", &error))?;
                    drawn = true;
                }
                Err(RecvTimeoutError::Timeout) if pace.is_over(self.asked.patience) => return Err(self.hangs()),
                Err(RecvTimeoutError::Timeout) => {}
                Err(RecvTimeoutError::Disconnected) => return Err(self.failed("reading it failed")),
            }
            walk = match walk {
                Some(walk) if drawn => return Ok(walk),
                walk => walk,
            };
        }
    }

    fn failed(&self, why: &str) -> Stop {
        Stop::Failed(format!("{}: the stream of PID {}: {why}", self.name, self.asked.pid))
    }

    fn hangs(&self) -> Stop {
        let seconds = self.asked.patience.as_secs();
        let mends = "--decoder-timeout SECONDS waits longer";
        Stop::Failed(format!(
            "{}: ffmpeg took nothing and gave nothing for {seconds} s, and was ended; {mends}",
            self.name
        ))
    }

    /// Takes a piece of the capture; false where no more of it is wanted.
    fn capture(&mut self, piece: &[u8]) -> Result<bool, Stop> {
        self.bytes += piece.len() as u64;
        match &mut self.sample {
            Some(sample) => sample.feed_capture(piece).map(|_| true).map_err(Stop::from),
            None => {
                self.waiting.extend(piece);
                Ok(self.waiting.len() <= CAPTURE_MOST)
            }
        }
    }

    /// The sample, fed with what has waited of the capture.
    fn opened(&mut self, opening: Opening) -> Result<Sample, Stop> {
        let mut sample = Sample::open(opening)?;
        sample.feed_capture(&std::mem::take(&mut self.waiting))?;
        Ok(sample)
    }

    /// Takes a piece of the pictures; false where no more of them are wanted.
    fn pictures(&mut self, piece: &[u8]) -> Result<bool, Stop> {
        let Drawing::Head(head) = &mut self.drawing else {
            return self.feed(piece);
        };
        head.extend(piece);
        match First::of(head) {
            First::Open => Ok(true),
            First::Other => Err(self.failed("ffmpeg gave something else than a y4m stream")),
            First::Line(line, rest) => {
                let heading = Heading::read(line.trim_ascii_end()).map_err(|why| self.failed(&why))?;
                self.sample = Some(self.opened(self.asked.opening_with(&heading)?)?);
                let picture = u64::from(heading.width) * u64::from(heading.height);
                self.drawing = Drawing::Pictures(y4m::Pictures::behind(heading), picture);
                self.feed(&rest)
            }
        }
    }

    fn feed(&mut self, piece: &[u8]) -> Result<bool, Stop> {
        let (Drawing::Pictures(pictures, picture), Some(sample)) = (&mut self.drawing, &mut self.sample) else {
            return Ok(false);
        };
        let mut taken = true;
        let done = pictures.take(piece, |part| {
            self.luma += part.len() as u64;
            taken = taken && sample.feed_luma(part).is_ok();
        });
        self.progress.at(self.bytes, self.luma / *picture, Some(sample));
        if !taken {
            self.drawing = Drawing::Enough;
        }
        done.map(|()| taken).map_err(|why| self.failed(&why))
    }

    /// What was measured, seen how ffmpeg ended, where it was not ended by us. What it says of a stream without
    /// pictures is kept; a failure after the first picture means that some may be missing.
    fn measured(mut self, walk: Walk, ended: Option<Ended>) -> Result<Measured, Stop> {
        let (mut doubts, mut failed) = (Vec::new(), None);
        let ours = Ended { well: true, broken: false, why: String::new(), sizes: None };
        let Ended { well, broken, why, sizes } = ended.unwrap_or(ours);
        match sizes {
            Some(((w, h), (width, height))) => {
                let mends = "measure each part by itself (editcap -F pcap -A START -B END IN OUT)";
                let sizes = format!("its pictures change from {w}x{h} to {width}x{height}");
                return Err(self.failed(&format!("{sizes}, and one size is measured: {mends}")));
            }
            _ if self.luma == 0 && !broken => doubts.push(format!("ffmpeg decoded no picture: {why}")),
            _ if self.luma == 0 => {
                failed = Some(format!("{}: ffmpeg failed before its first picture: {why}", self.name))
            }
            _ if !well => return Err(Stop::Failed(format!("{}: ffmpeg failed: {why}", self.name))),
            _ => {}
        }
        let sample = match self.sample.take() {
            Some(sample) => sample,
            None => self.opened(self.asked.opening_without())?,
        };
        Ok(Measured { sample, walk, raw: false, doubts, failed })
    }
}
