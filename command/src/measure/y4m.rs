//! Pictures in a y4m stream: a heading with size, rate and format, then each picture behind a line `FRAME`. Of the
//! 8-bit planar formats the luma plane is taken.
use crate::outside::shown_bytes;

/// The heading begins so, in every y4m stream.
pub const MAGIC: &[u8] = b"YUV4MPEG2 ";

/// No line of a y4m stream is longer, as far as we read one.
pub const LINE_MOST: usize = 4096;

/// What the first bytes of a stream are.
pub enum First {
    /// They may be a heading's: more are needed.
    Open,
    /// A heading's line, and what comes after its line feed.
    Line(Vec<u8>, Vec<u8>),
    /// No heading's.
    Other,
}

impl First {
    pub fn of(bytes: &[u8]) -> First {
        if !bytes.starts_with(MAGIC) && !MAGIC.starts_with(bytes) {
            return First::Other;
        }
        let mut parts = bytes.splitn(2, |&byte| byte == b'\n');
        match (parts.next(), parts.next()) {
            (Some(line), Some(rest)) => First::Line(line.to_vec(), rest.to_vec()),
            _ if bytes.len() > LINE_MOST => First::Other,
            _ => First::Open,
        }
    }
}

/// What the heading says.
#[derive(Clone, Copy)]
pub struct Heading {
    pub width: u32,
    pub height: u32,
    /// Pictures a second, where they are given: number and divisor.
    pub rate: Option<(u32, u32)>,
    /// Bytes behind a picture's luma.
    chroma: u64,
}

impl Heading {
    /// Reads a heading's line, or says why it cannot be taken.
    pub fn read(line: &[u8]) -> Result<Heading, String> {
        let mut heading = Heading { width: 0, height: 0, rate: None, chroma: 0 };
        let mut format: &[u8] = b"420jpeg";
        for field in line.split(|&byte| byte == b' ').skip(1) {
            let Some((letter, value)) = field.split_first() else { continue };
            let wrong = || format!("its heading has no number in {}", shown_bytes(field));
            match letter {
                b'W' => heading.width = number(value).ok_or_else(wrong)?,
                b'H' => heading.height = number(value).ok_or_else(wrong)?,
                b'F' => heading.rate = rate(value).ok_or_else(wrong)?,
                b'C' => format = value,
                _ => {}
            }
        }
        let chroma = chroma(format, heading.width.into(), heading.height.into());
        heading.chroma = chroma.ok_or_else(|| refused(&shown_bytes(format)))?;
        Ok(heading)
    }

    /// Bytes of a picture's luma.
    fn luma(&self) -> u64 {
        u64::from(self.width) * u64::from(self.height)
    }
}

fn number(digits: &[u8]) -> Option<u32> {
    std::str::from_utf8(digits).ok()?.parse().ok()
}

/// `N:D`; 0:0 stands for a rate that is not known.
fn rate(value: &[u8]) -> Option<Option<(u32, u32)>> {
    let (pictures, seconds) = std::str::from_utf8(value).ok()?.split_once(':')?;
    let pair: (u32, u32) = (pictures.parse().ok()?, seconds.parse().ok()?);
    Some(Some(pair).filter(|&(pictures, seconds)| pictures > 0 && seconds > 0))
}

/// Bytes behind a picture's luma, of an 8-bit planar format.
fn chroma(format: &[u8], width: u64, height: u64) -> Option<u64> {
    Some(match format {
        b"mono" => 0,
        b"420" | b"420jpeg" | b"420mpeg2" | b"420paldv" => 2 * width.div_ceil(2) * height.div_ceil(2),
        b"411" => 2 * width.div_ceil(4) * height,
        b"422" => 2 * width.div_ceil(2) * height,
        b"444" => (2 * width).saturating_mul(height),
        b"444alpha" => (3 * width).saturating_mul(height),
        _ => return None,
    })
}

fn refused(format: &str) -> String {
    let known = ["mono", "420", "411", "422", "444"].iter().any(|name| format.starts_with(name));
    if known && format.ends_with(|last: char| last.is_ascii_digit()) {
        return format!(
            "its format is {format}, deeper than 8 bits, and not measured; each sample's upper 8 bits are given by: \
             ffmpeg -i IN -vf extractplanes=y,scale=sws_dither=none,format=gray -fps_mode passthrough OUT.y4m"
        );
    }
    format!(
        "its format {format} is not known here; the luma alone is given by: \
         ffmpeg -i IN -vf extractplanes=y -fps_mode passthrough OUT.y4m"
    )
}

/// What comes next.
enum Next {
    /// The rest of a line before a picture.
    Line(Vec<u8>),
    Luma(u64),
    Chroma(u64),
}

/// The way through the pictures, in pieces of any length.
pub struct Pictures {
    heading: Heading,
    next: Next,
}

impl Pictures {
    pub fn behind(heading: Heading) -> Pictures {
        Pictures { heading, next: Next::Line(Vec::new()) }
    }

    /// Takes a piece and hands its luma on, or says what is wrong with it.
    pub fn take(&mut self, mut piece: &[u8], mut luma: impl FnMut(&[u8])) -> Result<(), String> {
        while !piece.is_empty() {
            match &mut self.next {
                Next::Line(line) => {
                    let end = piece.iter().position(|&byte| byte == b'\n');
                    let (more, rest) = piece.split_at(end.unwrap_or(piece.len()));
                    line.extend(more);
                    if line.len() > LINE_MOST || !begins_frame(line) || (end.is_some() && line.len() < 5) {
                        return Err("no line FRAME stands where a picture should begin".into());
                    }
                    let Some((_line_feed, rest)) = rest.split_first() else { return Ok(()) };
                    piece = rest;
                    self.next = Next::Luma(self.heading.luma());
                }
                Next::Luma(left) => {
                    let part = part(&mut piece, left);
                    luma(part);
                    if *left == 0 {
                        self.next = Next::Chroma(self.heading.chroma);
                    }
                }
                Next::Chroma(left) => {
                    part(&mut piece, left);
                    if *left == 0 {
                        self.next = Next::Line(Vec::new());
                    }
                }
            }
        }
        Ok(())
    }

    /// Whether the stream, where it ends here, ends inside a picture though its luma is whole.
    pub fn cut(&self) -> bool {
        match &self.next {
            Next::Line(line) => !line.is_empty(),
            Next::Luma(left) => *left == self.heading.luma(),
            Next::Chroma(left) => *left > 0,
        }
    }
}

/// Whether a line, or what has come of it, is `FRAME` alone or with parameters.
fn begins_frame(line: &[u8]) -> bool {
    match line.strip_prefix(b"FRAME") {
        Some(parameters) => matches!(parameters.first(), None | Some(b' ')),
        None => b"FRAME".starts_with(line),
    }
}

/// The front of the piece, as far as it is asked for.
fn part<'a>(piece: &mut &'a [u8], left: &mut u64) -> &'a [u8] {
    let n = usize::try_from(*left).unwrap_or(usize::MAX).min(piece.len());
    let (part, rest) = piece.split_at(n);
    *left -= n as u64;
    *piece = rest;
    part
}

#[cfg(test)]
mod tests {
    use super::*;

    /// No size that a heading can name wraps, so that the sample's opening refuses it.
    #[test]
    fn the_greatest_size() {
        for format in ["mono", "420jpeg", "411", "422", "444", "444alpha"] {
            let line = format!("YUV4MPEG2 W4294967295 H4294967295 F25:1 C{format}");
            let heading = Heading::read(line.as_bytes()).unwrap();
            assert!(format == "mono" || heading.chroma >= heading.luma() / 2, "{format}: {}", heading.chroma);
        }
    }
}
