//! Writing a file: a record, a shelf or a page. It is made without a name, readable by its owner alone, and synced;
//! then it gets its name in one step, over nothing or over a regular file that is no input.
mod lock;
mod new_file;

pub use lock::Lock;

use crate::input::Identity;
use crate::outside::shown;
use crate::stop::{reason, Stop};
use crate::system;
use new_file::{nameless, some_room, NewFile, PRIVATE};
use std::ffi::OsStr;
use std::fs::{self, File, FileType, Metadata};
use std::io::{self, ErrorKind, Write};
use std::os::unix::ffi::OsStrExt;
use std::os::unix::fs::FileTypeExt;
use std::path::{Path, PathBuf};

/// The mode of a new file, before the umask.
const NEW: u32 = 0o666;
/// How often a name is looked at again that others make and remove at the same time.
const LOOKS: usize = 100;

/// What may be under the name that a file is to get.
#[derive(Clone, Copy)]
pub enum Over {
    /// Nothing, or a regular file that is no input.
    File,
    Nothing,
    /// This file and no other.
    Only(Identity),
}

/// Where a file is to go, and the inputs that it must not replace, each with its name.
pub struct Target {
    path: PathBuf,
    over: Over,
    inputs: Vec<(Identity, String)>,
    /// Whether something was there when this was made.
    replaces: bool,
    /// What the umask leaves of a new file's mode.
    mode: u32,
    /// The file itself, where the file system can make one without a name.
    nameless: Option<File>,
}

impl Target {
    /// Sees that a file may be put there, before any work is done for it.
    pub fn new(word: &OsStr, inputs: Vec<(Identity, String)>) -> Result<Target, Stop> {
        let (path, mode) = (PathBuf::from(word), NEW & !system::umask());
        let mut target = Target { path, over: Over::File, inputs, replaces: false, mode, nameless: None };
        target.replaces = target.old()?.is_some();
        if target.replaces {
            may_be_replaced(&target.path).map_err(|error| target.kept_by_system(&error))?;
        } else if !names_a_file(word) {
            return Err(Stop::Failed(format!("{}: there is no such folder", shown(&target.path))));
        }
        target.nameless = nameless(target.folder()).map_err(|error| target.failed(&error))?;
        target.with_room(0)
    }

    /// Sees that there is room for so many bytes, or for some of them where all may not be needed. Nothing is left of
    /// the attempt.
    pub fn with_room(self, most: usize) -> Result<Target, Stop> {
        let room = vec![0; most];
        let done = match &self.nameless {
            Some(file) => some_room((&*file).write_all(&room), file),
            None => system::held(|| {
                let mut file = NewFile::named(self.folder())?;
                let filled = file.room(&room);
                filled.and(file.removed())
            }),
        };
        done.map_err(|error| self.failed(&error))?;
        Ok(self)
    }

    /// Whether something is there that it would replace.
    pub fn replaces(&self) -> bool {
        self.replaces
    }

    /// The same, over this alone, and over none of these inputs.
    pub fn over(self, over: Over, inputs: Vec<(Identity, String)>) -> Result<Target, Stop> {
        let target = Target { over, inputs, ..self };
        target.old()?;
        Ok(target)
    }

    fn failed(&self, error: &io::Error) -> Stop {
        Stop::file(&shown(&self.path), error)
    }

    fn kept_by_system(&self, error: &io::Error) -> Stop {
        let why = "it may be another user's, immutable or append-only, or in an append-only folder";
        Stop::Failed(format!("{}: it cannot be replaced: {}; {why}", shown(&self.path), reason(error)))
    }

    fn folder(&self) -> &Path {
        match self.path.parent() {
            Some(folder) if folder != Path::new("") => folder,
            _ => Path::new("."),
        }
    }

    /// The regular file that is there, none where nothing is; otherwise why it is left alone.
    fn old(&self) -> Result<Option<Metadata>, Stop> {
        let about = match fs::symlink_metadata(&self.path) {
            Ok(about) => about,
            Err(error) if error.kind() == ErrorKind::NotFound && !matches!(self.over, Over::Only(_)) => {
                return Ok(None)
            }
            Err(error) => return Err(self.failed(&error)),
        };
        let left = |what: &str| {
            let name = shown(&self.path);
            Err(Stop::Failed(format!("{name}: it is {what}, and is left alone")))
        };
        if !about.is_file() {
            return left(named(about.file_type()));
        }
        match self.over {
            Over::Nothing => return left("a file that another program has made meanwhile"),
            Over::Only(old) if old != Identity::of(&about) => return left("another file than the one that was read"),
            _ => {}
        }
        match self.inputs.iter().find(|(input, _)| *input == Identity::of(&about)) {
            Some((_, name)) => left(&format!("the same file as {name}, which is read")),
            None => Ok(Some(about)),
        }
    }

    /// Writes the file. It is then whole under its name, or nothing has changed.
    pub fn write(mut self, bytes: &[u8]) -> Result<(), Stop> {
        let nameless = self.nameless.take();
        system::held(|| {
            let mut file = match nameless {
                Some(file) => NewFile::of(file, self.folder()),
                None => NewFile::named(self.folder()).map_err(|error| self.failed(&error))?,
            };
            file.fill(bytes).map_err(|error| self.failed(&error))?;
            self.put(file)
        })
    }

    fn put(&self, mut file: NewFile) -> Result<(), Stop> {
        for _ in 0..LOOKS {
            let old = self.old()?;
            file.finish(old.as_ref(), self.mode).map_err(|error| self.failed(&error))?;
            let done = match old {
                Some(_) => file.replace(&self.path),
                None => file.link(&self.path),
            };
            match done {
                // Another program made it since it was looked at.
                Err(error) if error.kind() == ErrorKind::AlreadyExists => {}
                Err(error) => return Err(self.failed(&error)),
                Ok(()) => return self.sync_folder(),
            }
        }
        Err(Stop::Failed(format!("{}: other programs make and remove it all the time", shown(&self.path))))
    }

    /// The name, too, is to outlast a power cut. A folder that cannot be opened or synced at all is no failure.
    fn sync_folder(&self) -> Result<(), Stop> {
        match File::open(self.folder()).map(|folder| folder.sync_all()) {
            Ok(Err(error)) if error.kind() != ErrorKind::InvalidInput => {
                let why = format!("it is in place, but may not outlast a power cut: {}", reason(&error));
                Err(Stop::Failed(format!("{}: {why}", shown(&self.path))))
            }
            _ => Ok(()),
        }
    }
}

/// Whether the name's last part can be a file's: not where it ends with a slash or a dot.
fn names_a_file(word: &OsStr) -> bool {
    let last = word.as_bytes().rsplit(|&byte| byte == b'/').next();
    !matches!(last, None | Some(b"" | b"." | b".."))
}

/// Whether the system lets the regular file with this name be replaced. It does not remove a file as a folder, but
/// looks first whether it may be removed at all: whose it is, whether it is immutable. If it were an empty folder by
/// now, that would be gone, and nothing with it.
fn may_be_replaced(path: &Path) -> io::Result<()> {
    match fs::remove_dir(path) {
        Err(error) if error.kind() != ErrorKind::NotADirectory => Err(error),
        _ => Ok(()),
    }
}

/// What is no regular file.
fn named(kind: FileType) -> &'static str {
    if kind.is_dir() {
        "a folder"
    } else if kind.is_symlink() {
        "a symbolic link"
    } else if kind.is_fifo() {
        "a FIFO"
    } else if kind.is_socket() {
        "a socket"
    } else {
        "a device"
    }
}

/// Why a record was not written, and where it is instead: in the folder for temporary files, for its owner alone.
pub fn kept_elsewhere(stop: Stop, record: &[u8]) -> Stop {
    let Stop::Failed(why) = stop else {
        return stop;
    };
    let kept = match keep(record) {
        Ok(path) => {
            let path = shown(&path);
            format!("The record is kept as {path}: what came through a pipe cannot be measured again.")
        }
        Err(Stop::Failed(other)) => format!("The record is lost, for it cannot be kept elsewhere either: {other}"),
        Err(other) => return other,
    };
    Stop::Failed(format!("{why}\n{kept}"))
}

/// Writes a record under the first name that is free.
fn keep(record: &[u8]) -> Result<PathBuf, Stop> {
    let mut number = 0;
    loop {
        let name = format!("carolsedge-{}-{number}.record", std::process::id());
        let path = std::env::temp_dir().join(name);
        let target =
            Target::new(path.as_os_str(), Vec::new()).and_then(|target| target.over(Over::Nothing, Vec::new()));
        match target.and_then(|target| Target { mode: PRIVATE, ..target }.write(record)) {
            Err(_) if number < LOOKS && fs::symlink_metadata(&path).is_ok() => number += 1,
            done => return done.map(|()| path),
        }
    }
}
