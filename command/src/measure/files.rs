//! A capture and pictures that are read from files or standard input.
use super::asked::Asked;
use super::look::Look;
use super::progress::Progress;
use super::y4m::{self, First, Heading};
use super::{Measured, PIECE};
use crate::input::Input;
use crate::stop::Stop;
use crate::walk::Walk;
use carolsedge::{Opening, Sample};

/// What the pictures are.
enum Form {
    Raw(Look),
    Y4m(y4m::Pictures),
}

/// The pictures: where they come from, and what was read of them to see what they are.
struct Pictures {
    input: Input,
    form: Form,
    head: Vec<u8>,
}

/// How far the run is: bytes of both sides, bytes of luma, and the line that says so.
struct Far {
    bytes: u64,
    luma: u64,
    picture: u64,
    progress: Progress,
}

impl Far {
    fn on(&mut self, bytes: usize, luma: usize, sample: &Sample) {
        self.bytes += bytes as u64;
        self.luma += luma as u64;
        self.progress.at(self.bytes, self.luma / self.picture, Some(sample));
    }
}

pub fn measure(asked: &Asked, mut capture: Input, pictures: Input) -> Result<Measured, Stop> {
    let total = capture.length().zip(pictures.length()).map(|(a, b)| a + b);
    let (mut pictures, opening) = begin(asked, pictures)?;
    let mut sample = Sample::open(opening)?;
    let picture = u64::from(opening.width) * u64::from(opening.height);
    let mut far = Far { bytes: 0, luma: 0, picture, progress: Progress::of(total) };
    let mut walk = Walk::new();
    if feed_capture(&mut capture, &mut sample, &mut walk, &mut far)? {
        pictures.feed(&mut sample, &mut far)?;
    }
    let raw = matches!(pictures.form, Form::Raw(_));
    Ok(Measured { sample, walk, raw, doubts: pictures.doubts(), failed: None })
}

/// Feeds the whole capture; false where it is refused, and the pictures need not be read.
fn feed_capture(input: &mut Input, sample: &mut Sample, walk: &mut Walk, far: &mut Far) -> Result<bool, Stop> {
    let mut buffer = vec![0; PIECE];
    loop {
        let piece = input.read(&mut buffer)?;
        if piece.is_empty() {
            return Ok(true);
        }
        if sample.feed_capture(piece).is_err() {
            return Ok(false);
        }
        walk.take(piece, |_| {});
        far.on(piece.len(), 0, sample);
    }
}

/// Reads as much of the pictures as says what they are.
fn begin(asked: &Asked, mut input: Input) -> Result<(Pictures, Opening), Stop> {
    let mut head = Vec::new();
    let mut buffer = [0; y4m::LINE_MOST];
    loop {
        match First::of(&head) {
            First::Line(line, rest) => return begin_y4m(asked, input, &line, rest),
            First::Other => return begin_raw(asked, input, head),
            First::Open => {}
        }
        match input.read(&mut buffer)? {
            [] => return begin_raw(asked, input, head),
            piece => head.extend(piece),
        }
    }
}

fn begin_raw(asked: &Asked, input: Input, head: Vec<u8>) -> Result<(Pictures, Opening), Stop> {
    if input.name().ends_with(".y4m") {
        return Err(Stop::Failed(format!("{}: no y4m file: no line YUV4MPEG2 at its beginning", input.name())));
    }
    let opening = asked.opening()?;
    let form = Form::Raw(Look::new(opening.width, opening.height));
    Ok((Pictures { input, form, head }, opening))
}

fn begin_y4m(asked: &Asked, input: Input, line: &[u8], head: Vec<u8>) -> Result<(Pictures, Opening), Stop> {
    let heading = Heading::read(line).map_err(|why| Stop::Failed(format!("{}: {why}", input.name())))?;
    let opening = asked.opening_with(&heading)?;
    let form = Form::Y4m(y4m::Pictures::behind(heading));
    Ok((Pictures { input, form, head }, opening))
}

impl Pictures {
    /// Feeds all luma, or as much as it takes until that is refused.
    fn feed(&mut self, sample: &mut Sample, far: &mut Far) -> Result<(), Stop> {
        let head = std::mem::take(&mut self.head);
        let mut taken = self.take(&head, sample, far)?;
        let mut buffer = vec![0; PIECE];
        while taken {
            match self.input.read(&mut buffer)? {
                [] => return Ok(()),
                piece => taken = self.take(piece, sample, far)?,
            }
        }
        Ok(())
    }

    /// Feeds the luma of a piece; false where it is refused.
    fn take(&mut self, piece: &[u8], sample: &mut Sample, far: &mut Far) -> Result<bool, Stop> {
        let mut taken = true;
        let mut fed = 0;
        let mut feed = |luma: &[u8]| {
            fed += luma.len();
            taken = taken && sample.feed_luma(luma).is_ok();
        };
        match &mut self.form {
            Form::Raw(look) => {
                look.take(piece);
                feed(piece);
            }
            Form::Y4m(pictures) => {
                let done = pictures.take(piece, feed);
                done.map_err(|why| Stop::Failed(format!("{}: {why}", self.input.name())))?;
            }
        }
        far.on(piece.len(), fed, sample);
        Ok(taken)
    }

    fn doubts(&self) -> Vec<String> {
        match &self.form {
            Form::Raw(look) => look.doubts(),
            Form::Y4m(pictures) if pictures.cut() => {
                vec![format!("{} ends inside a picture", self.input.name())]
            }
            Form::Y4m(_) => Vec::new(),
        }
    }
}
