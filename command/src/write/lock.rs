//! A file that is read, and then replaced by what was made of it, is locked meanwhile: runs that do so wait for each
//! other. The lock is one of flock(2), on the file itself, so that none is left over.
use crate::input::{Identity, Input};
use crate::output;
use crate::outside::shown;
use crate::stop::{reason, Stop};
use crate::system::{O_NOFOLLOW, O_NONBLOCK};
use std::fs::{self, File, OpenOptions, TryLockError};
use std::io::{self, ErrorKind};
use std::os::unix::fs::OpenOptionsExt;
use std::path::Path;
use std::thread::sleep;
use std::time::{Duration, Instant};

/// How long a run waits in silence for others.
const SILENCE: Duration = Duration::from_secs(1);
const PAUSE: Duration = Duration::from_millis(2);

/// The file under a name, locked until this is dropped, and what is read from it.
pub struct Lock {
    file: File,
    name: String,
    identity: Identity,
}

impl Lock {
    /// Waits until the file under this name is locked. `who` is the run, for what it says meanwhile.
    pub fn wait(path: &Path, who: &str) -> Result<Lock, Stop> {
        let name = shown(path);
        let failed = |error: io::Error| Stop::file(&name, &error);
        let mut silence = Some(Instant::now());
        loop {
            let file = open(path).map_err(failed)?;
            while !locked(&file, &name)? {
                if silence.is_some_and(|since| since.elapsed() >= SILENCE) {
                    output::say(&format!("{who}: {name}: another program has locked it; waiting until it is free\n"));
                    silence = None;
                }
                sleep(PAUSE);
            }
            let identity = Identity::of(&file.metadata().map_err(failed)?);
            // Whoever had the lock may have put another file under the name: that one is to be locked then.
            if identity == Identity::of(&fs::symlink_metadata(path).map_err(failed)?) {
                return Ok(Lock { file, name, identity });
            }
        }
    }

    pub fn identity(&self) -> Identity {
        self.identity
    }

    /// The locked file itself, to be read: not all systems let another opening of it be read.
    pub fn input(&self) -> Result<Input, Stop> {
        Input::of(&self.file, self.name.clone())
    }
}

/// For writing too where that is allowed: NFS locks no other file.
fn open(path: &Path) -> io::Result<File> {
    let open = |write| OpenOptions::new().read(true).write(write).custom_flags(O_NOFOLLOW | O_NONBLOCK).open(path);
    match open(true) {
        Err(error) if error.kind() != ErrorKind::NotFound => open(false),
        opened => opened,
    }
}

/// Whether the file is locked now; not while somebody else has locked it.
fn locked(file: &File, name: &str) -> Result<bool, Stop> {
    match file.try_lock() {
        Ok(()) => Ok(true),
        Err(TryLockError::WouldBlock) => Ok(false),
        Err(TryLockError::Error(error)) if error.kind() == ErrorKind::Interrupted => Ok(false),
        Err(TryLockError::Error(error)) => Err(Stop::Failed(format!(
            "{name}: it cannot be locked, so that others could add to it at the same time: {}\nCopy it to a disk of \
             this machine, add to it there, and move it back.",
            reason(&error)
        ))),
    }
}
