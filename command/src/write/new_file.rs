//! A file that is being written. It has no name where the file system can make one so; then nothing is left of it,
//! even after SIGKILL. Otherwise it has a name of its own, which is removed unless it becomes the right one.
use crate::outside::shown;
use crate::system::{self, EINVAL, EISDIR, EOPNOTSUPP, EPERM, O_TMPFILE};
use std::fs::{self, File, Metadata, OpenOptions, Permissions};
use std::io::{self, ErrorKind, Seek, Write};
use std::os::unix::fs::{fchown, MetadataExt, OpenOptionsExt, PermissionsExt};
use std::path::{Path, PathBuf};

/// Mode bits of a file that is not whole yet: its owner's alone.
pub const PRIVATE: u32 = 0o600;
/// Mode bits that a file of ours may have: reading, writing, running; never setuid, setgid or sticky.
const PLAIN_BITS: u32 = 0o777;
const GROUP_BITS: u32 = 0o070;

/// A file without a name in this folder; none where the file system has no such files, or /proc is missing, through
/// which they get a name.
pub fn nameless(folder: &Path) -> io::Result<Option<File>> {
    match OpenOptions::new().write(true).mode(PRIVATE).custom_flags(O_TMPFILE).open(folder) {
        Ok(file) => Ok(system::open_name(&file).exists().then_some(file)),
        Err(error) if matches!(error.raw_os_error(), Some(EOPNOTSUPP | EISDIR | EINVAL)) => Ok(None),
        Err(error) => Err(error),
    }
}

/// A disk that is full once some bytes were written had room for some; one that takes none has none.
pub fn some_room(done: io::Result<()>, file: &File) -> io::Result<()> {
    match done {
        Err(error) if error.kind() == ErrorKind::StorageFull && file.metadata()?.len() > 0 => Ok(()),
        done => done,
    }
}

pub struct NewFile {
    file: File,
    folder: PathBuf,
    /// The name that it has for now.
    name: Option<PathBuf>,
}

impl NewFile {
    pub fn of(nameless: File, folder: &Path) -> NewFile {
        NewFile { file: nameless, folder: folder.into(), name: None }
    }

    /// A file with a name of its own. Signals are to be held as long as it has one.
    pub fn named(folder: &Path) -> io::Result<NewFile> {
        let new = OpenOptions::new().write(true).create_new(true).mode(PRIVATE).clone();
        let (file, name) = free_name(folder, |name| new.open(name))?;
        Ok(NewFile { file, folder: folder.into(), name: Some(name) })
    }

    /// Removes it again; says its name where that fails.
    pub fn removed(mut self) -> io::Result<()> {
        self.name.take().map_or(Ok(()), |name| {
            let kept = |error| io::Error::other(format!("{} cannot be removed again: {error}", shown(&name)));
            fs::remove_file(&name).map_err(kept)
        })
    }

    /// Sees that there is room for the bytes, or for some of them.
    pub fn room(&mut self, bytes: &[u8]) -> io::Result<()> {
        let done = self.file.write_all(bytes);
        some_room(done, &self.file)
    }

    /// Writes all bytes.
    pub fn fill(&mut self, bytes: &[u8]) -> io::Result<()> {
        self.file.rewind()?;
        self.file.write_all(bytes)?;
        self.file.set_len(bytes.len() as u64)
    }

    /// Makes it ready for its name. It gets its mode, that of the file that it replaces where both belong to one user,
    /// otherwise `new`; and it is synced, to outlast a power cut.
    pub fn finish(&self, old: Option<&Metadata>, new: u32) -> io::Result<()> {
        let about = self.file.metadata()?;
        let mode = match old {
            Some(old) if old.uid() == about.uid() => {
                let group = about.gid() == old.gid() || fchown(&self.file, None, Some(old.gid())).is_ok();
                // What the old group was allowed is not allowed to another one.
                old.mode() & if group { PLAIN_BITS } else { PLAIN_BITS & !GROUP_BITS }
            }
            _ => new & PLAIN_BITS,
        };
        match self.file.set_permissions(Permissions::from_mode(mode)) {
            // A file system without modes (FAT) gives the same to every file.
            Err(error) if !matches!(error.raw_os_error(), Some(EPERM | EOPNOTSUPP)) => Err(error),
            _ => self.file.sync_all(),
        }
    }

    /// Puts it under a name that is free; fails where it is not.
    pub fn link(&mut self, path: &Path) -> io::Result<()> {
        let Some(name) = &self.name else {
            return system::link(&self.file, path);
        };
        match fs::hard_link(name, path) {
            // A file system without hard links.
            Err(error) if matches!(error.raw_os_error(), Some(EPERM | EOPNOTSUPP)) => self.replace(path),
            // The name for now is removed with this.
            done => done,
        }
    }

    /// Puts it in the place of the file with this name, in one step.
    pub fn replace(&mut self, path: &Path) -> io::Result<()> {
        let name = match &self.name {
            Some(name) => name.clone(),
            None => free_name(&self.folder, |name| system::link(&self.file, name))?.1,
        };
        self.name = Some(name.clone());
        fs::rename(&name, path)?;
        self.name = None;
        Ok(())
    }
}

impl Drop for NewFile {
    fn drop(&mut self) {
        if let Some(name) = &self.name {
            let _ = fs::remove_file(name);
        }
    }
}

/// Makes something under the first name in this folder that is free.
fn free_name<T>(folder: &Path, make: impl Fn(&Path) -> io::Result<T>) -> io::Result<(T, PathBuf)> {
    let mut number = 0u64;
    loop {
        let name = folder.join(format!(".carolsedge-{}-{number}", std::process::id()));
        match make(&name) {
            Err(error) if error.kind() == ErrorKind::AlreadyExists => number += 1,
            made => return Ok((made?, name)),
        }
    }
}
