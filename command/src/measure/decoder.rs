//! ffmpeg: how it is started, what it says, and how it ends.
use crate::outside::shown_bytes;
use crate::stop::{reason, Stop};
use crate::system;
use std::hint::black_box;
use std::io::{BufRead, BufReader, ErrorKind, Read};
use std::os::unix::process::ExitStatusExt;
use std::process::{Child, ChildStderr, ChildStdin, ChildStdout, Command, ExitStatus, Stdio};
use std::sync::{Arc, Mutex, PoisonError};
use std::thread::{self, JoinHandle};
use std::time::Duration;

/// What ffmpeg is asked for besides the identifier: its luma as it is, no picture doubled or dropped for its time, and
/// none scaled where the size changes; instead it ends. Of each picture showinfo says the size, and each line says how
/// grave it is.
const BEFORE: &str = "-nostdin -hide_banner -nostats -v level+info -max_error_rate 1 -f mpegts -i pipe:0";
const AFTER: &str = "-vf extractplanes=y,showinfo=checksum=0 -fps_mode passthrough -autoscale 0 -strict -1 \
                      -f yuv4mpegpipe pipe:1";

/// Bytes of a line of ffmpeg that are looked at together.
const LINE_MOST: u64 = 4096;

/// How often it is asked whether ffmpeg has ended.
const STEP: Duration = Duration::from_millis(1);

/// Bytes of a thread's stack, of which ours need little; and bytes that have to be free before threads are started: in
/// one that finds none to begin with, the C library aborts.
const STACK: usize = 1 << 18;
const ROOM: usize = 1 << 23;

/// Exit statuses that say nothing of the stream: ffmpeg gave up, and a shell's of what cannot be run.
const BROKEN: [i32; 3] = [69, 126, 127];

/// Width and height.
type Size = (u32, u32);

/// ffmpeg while it runs; it is ended with this value.
pub struct Decoder {
    child: Child,
    teller: Option<JoinHandle<()>>,
    said: Arc<Mutex<Said>>,
}

/// Its pipes: packets go into the one, pictures come from the other.
pub type Pipes = (Option<ChildStdin>, Option<ChildStdout>);

/// What ffmpeg said.
#[derive(Default)]
struct Said {
    /// The first error, which names the cause where later ones name what came of it.
    error: Option<String>,
    /// The first line that does not say how grave it is: of the system, about an ffmpeg that cannot be run.
    other: Option<String>,
    size: Option<Size>,
    /// The first size after it that is another.
    another: Option<Size>,
}

/// How ffmpeg ended.
pub struct Ended {
    pub well: bool,
    /// Whether it says nothing of the stream: a signal ended it, it could not be run, or it gave up.
    pub broken: bool,
    /// What it said, or its exit status.
    pub why: String,
    /// Two sizes of pictures, where there were two.
    pub sizes: Option<(Size, Size)>,
}

impl Decoder {
    /// Starts ffmpeg for the video with this identifier. To be called by the main thread, with which it ends.
    pub fn start(pid: u32) -> Result<(Decoder, Pipes), Stop> {
        drop(black_box(Vec::<u8>::with_capacity(ROOM)));
        let mut command = Command::new("ffmpeg");
        command.args(BEFORE.split(' ')).args(["-map", &format!("0:i:{pid}")]).args(AFTER.split(' '));
        command.stdin(Stdio::piped()).stdout(Stdio::piped()).stderr(Stdio::piped());
        // Its lines are read, whatever colours its user likes.
        command.env("AV_LOG_FORCE_NOCOLOR", "1");
        let mut child = system::ends_with_us(&mut command).spawn().map_err(|error| {
            match error.kind() {
            ErrorKind::NotFound => Stop::Failed(
                "ffmpeg is not installed: install it, or decode the stream elsewhere and give the pictures as a .y4m \
                 file (ffmpeg -i IN -vf extractplanes=y -fps_mode passthrough OUT.y4m)"
                    .into(),
            ),
            _ => Stop::file("ffmpeg", &error),
        }
        })?;
        let (pipes, errors) = ((child.stdin.take(), child.stdout.take()), child.stderr.take());
        let mut decoder = Decoder { child, teller: None, said: Arc::default() };
        let said = decoder.said.clone();
        decoder.teller = Some(thread(move || listen(errors, &said))?);
        Ok((decoder, pipes))
    }

    /// Ends it.
    pub fn end(&mut self) {
        let _ = self.child.kill();
    }

    /// Waits until it has ended and all that it said is known; none where that takes longer than the patience lasts.
    pub fn ended(&mut self, patience: Duration) -> Result<Option<Ended>, Stop> {
        let status = patiently(patience, || self.child.try_wait().transpose()).transpose();
        let Some(status) = status.map_err(|error| Stop::file("ffmpeg", &error))? else {
            return Ok(None);
        };
        let told = patiently(patience, || self.teller.as_ref().is_none_or(JoinHandle::is_finished).then_some(()));
        if let Some(teller) = self.teller.take_if(|_| told.is_some()) {
            let _ = teller.join();
        }
        let said = std::mem::take(&mut *self.said.lock().unwrap_or_else(PoisonError::into_inner));
        let sizes = said.size.zip(said.another);
        let broken = status.signal().is_some() || status.code().is_some_and(|code| BROKEN.contains(&code));
        Ok(told.map(|()| Ended { well: status.success(), broken, why: why(status, said), sizes }))
    }
}

impl Drop for Decoder {
    fn drop(&mut self) {
        self.end();
    }
}

/// Starts a thread, where the system has one more.
pub fn thread<T: Send + 'static>(work: impl FnOnce() -> T + Send + 'static) -> Result<JoinHandle<T>, Stop> {
    let started = thread::Builder::new().stack_size(STACK).spawn(work);
    started.map_err(|error| Stop::Failed(format!("no thread can be started: {}", reason(&error))))
}

/// Asks until there is an answer, or the patience ends. It counts steps and no clock, so that a run that was stopped
/// and goes on later is as patient as before.
fn patiently<T>(patience: Duration, mut ask: impl FnMut() -> Option<T>) -> Option<T> {
    for _ in 0..=patience.as_millis() / STEP.as_millis() {
        if let Some(answer) = ask() {
            return Some(answer);
        }
        thread::sleep(STEP);
    }
    None
}

fn why(status: ExitStatus, said: Said) -> String {
    match said.error.or(said.other) {
        Some(line) if status.signal().is_some() => format!("{line} ({status})"),
        Some(line) => line,
        None => status.to_string(),
    }
}

/// Takes each line in; reads to the end so that their writer never waits.
fn listen(from: Option<ChildStderr>, said: &Mutex<Said>) {
    let Some(mut from) = from.map(BufReader::new) else { return };
    let mut line = Vec::new();
    while from.by_ref().take(LINE_MOST).read_until(b'\n', &mut line).is_ok_and(|n| n > 0) {
        said.lock().unwrap_or_else(PoisonError::into_inner).take(line.trim_ascii_end());
        line.clear();
    }
}

impl Said {
    fn take(&mut self, line: &[u8]) {
        if line.starts_with(b"[Parsed_showinfo_") {
            return self.size(size(line));
        }
        match level(line) {
            Some(Level { grave: true, tag }) if self.error.is_none() => {
                self.error = Some(shown_bytes(line).replacen(tag, "", 1));
            }
            None if self.other.is_none() && !line.is_empty() => self.other = Some(shown_bytes(line)),
            _ => {}
        }
    }

    fn size(&mut self, size: Option<Size>) {
        match self.size {
            None => self.size = size,
            first if size.is_some() && size != first => self.another = self.another.or(size),
            _ => {}
        }
    }
}

/// The size in a line of showinfo: `.. s:1920x1080 ..`
fn size(line: &[u8]) -> Option<Size> {
    let mut fields = line.split(|&byte| byte == b' ').filter_map(|field| field.strip_prefix(b"s:"));
    let (width, height) = std::str::from_utf8(fields.next()?).ok()?.split_once('x')?;
    Some((width.parse().ok()?, height.parse().ok()?))
}

/// How grave a line is, and how that is written.
struct Level {
    grave: bool,
    tag: &'static str,
}

/// After the part of ffmpeg that a line comes from, as `[h264 @ 0x5581] `, it says how grave it is.
fn level(mut line: &[u8]) -> Option<Level> {
    let grave = ["[panic] ", "[fatal] ", "[error] "];
    let light = ["[quiet] ", "[warning] ", "[info] ", "[verbose] ", "[debug] ", "[trace] "];
    loop {
        let starts = |tag: &&&str| line.starts_with(tag.trim_end().as_bytes());
        if let Some(tag) = grave.iter().find(starts) {
            return Some(Level { grave: true, tag });
        }
        if let Some(tag) = light.iter().find(starts) {
            return Some(Level { grave: false, tag });
        }
        let from = line.starts_with(b"[").then(|| line.iter().position(|&byte| byte == b']')).flatten()?;
        line = line.get(from + 1..)?.trim_ascii_start();
    }
}

#[cfg(test)]
mod tests {
    use super::*;

    fn told(lines: &[&str]) -> Said {
        let mut said = Said::default();
        lines.iter().for_each(|line| said.take(line.as_bytes()));
        said
    }

    #[test]
    fn the_first_error_is_the_cause() {
        let lines = ["[info] Input #0", "[h264 @ 0x5] [warning] w", "[h264 @ 0x5] [error] e: [error] f", "[fatal] g"];
        assert_eq!(told(&lines).error.as_deref(), Some("[h264 @ 0x5] e: [error] f"));
        assert_eq!(told(&lines).other, None);
        assert_eq!(told(&["", "ffmpeg: no library\x1b", "and so"]).other.as_deref(), Some("ffmpeg: no library\\x1b"));
        assert_eq!(told(&["[", "[]", "[a] [b] c", "[info]"]).other.as_deref(), Some("["));
    }

    #[test]
    fn sizes() {
        let of = |size: &str| format!("[Parsed_showinfo_1 @ 0x5] [info] n:   0 sar:1/1 s:{size} i:P iskey:1 type:I ");
        let lines = ["320x240", "x", "320x240", "640x480", "16x16"].map(of);
        let said = told(&lines.each_ref().map(String::as_str));
        assert_eq!((said.size, said.another), (Some((320, 240)), Some((640, 480))));
        let other =
            told(&["[info]  service_name : [Parsed_showinfo_1 s:1x1 ", "[Parsed_showinfo_1 @ 0x5] [info] s:2x2"]);
        assert_eq!((other.size, other.another), (Some((2, 2)), None));
    }
}
