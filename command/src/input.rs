//! A file that is read, or standard input.
use crate::outside::shown;
use crate::stop::Stop;
use std::ffi::OsStr;
use std::fs::{File, Metadata};
use std::io::{self, ErrorKind, IsTerminal, Read, Seek};
use std::os::fd::AsFd;
use std::os::unix::fs::MetadataExt;

/// A file by device and number, whatever its names are.
#[derive(Clone, Copy, PartialEq)]
pub struct Identity(u64, u64);

impl Identity {
    pub fn of(file: &Metadata) -> Identity {
        Identity(file.dev(), file.ino())
    }
}

pub struct Input {
    /// As it may be printed.
    name: String,
    file: File,
    identity: Identity,
    length: Option<u64>,
    twice: bool,
}

impl Input {
    /// Standard input, for what is not typed: at a terminal it would wait in silence. `what` names the bytes.
    pub fn piped(what: &str) -> Result<Input, Stop> {
        if io::stdin().is_terminal() {
            return Err(Stop::Usage(format!("{what} come from a file or a pipe, and are not typed")));
        }
        Input::open(OsStr::new("-"))
    }

    /// Opens a file, or standard input for `-`.
    pub fn open(word: &OsStr) -> Result<Input, Stop> {
        let name = match word == "-" {
            true => "standard input".to_string(),
            false => shown(word),
        };
        let opened = opened(word).and_then(|file| Ok((file.metadata()?, file)));
        let (about, file) = opened.map_err(|error| Stop::file(&name, &error))?;
        let length = about.is_file().then_some(about.len());
        // A folder can be read not even once, and reading it says so.
        let twice = word != "-" && (about.is_file() || about.is_dir());
        Ok(Input { name, file, identity: Identity::of(&about), length, twice })
    }

    /// A file that is open already.
    pub fn of(file: &File, name: String) -> Result<Input, Stop> {
        let opened = file.try_clone().and_then(|file| Ok((file.metadata()?, file)));
        let (about, file) = opened.map_err(|error| Stop::file(&name, &error))?;
        let length = about.is_file().then_some(about.len());
        Ok(Input { name, file, identity: Identity::of(&about), length, twice: about.is_file() })
    }

    pub fn name(&self) -> &str {
        &self.name
    }

    pub fn identity(&self) -> Identity {
        self.identity
    }

    /// How many bytes it has, where that is known.
    pub fn length(&self) -> Option<u64> {
        self.length
    }

    /// Whether it can be read from the beginning again: no pipe, no device, not standard input.
    pub fn twice(&self) -> bool {
        self.twice
    }

    /// Goes back to the beginning.
    pub fn rewind(&mut self) -> Result<(), Stop> {
        self.file.rewind().map_err(|error| Stop::file(&self.name, &error))
    }

    /// Fills the front of the piece with the bytes that come next, and gives them; none at the end.
    pub fn read<'a>(&mut self, piece: &'a mut [u8]) -> Result<&'a [u8], Stop> {
        loop {
            match self.file.read(piece) {
                Ok(n) => return Ok(piece.get(..n).unwrap_or_default()),
                Err(error) if error.kind() == ErrorKind::Interrupted => {}
                Err(error) => return Err(Stop::file(&self.name, &error)),
            }
        }
    }

    /// Puts the bytes that still come behind the others, but no more than `most`.
    pub fn append(&mut self, bytes: &mut Vec<u8>, most: u64) -> Result<(), Stop> {
        let read = (&self.file).take(most).read_to_end(bytes);
        read.map(|_| ()).map_err(|error| Stop::file(&self.name, &error))
    }

    /// All bytes, but no more than `most`.
    pub fn up_to(&mut self, most: usize) -> Result<Vec<u8>, Stop> {
        let mut bytes = Vec::new();
        self.append(&mut bytes, most as u64)?;
        Ok(bytes)
    }
}

/// A little-endian number of at most 8 bytes.
pub fn little_endian(bytes: &[u8]) -> u64 {
    bytes.iter().rev().fold(0, |number, &byte| number << 8 | u64::from(byte))
}

fn opened(word: &OsStr) -> io::Result<File> {
    if word == "-" {
        return Ok(File::from(io::stdin().as_fd().try_clone_to_owned()?));
    }
    File::open(word)
}
