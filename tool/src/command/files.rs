//! Files that are read, and trouble: whatever the system says no to comes back with the name of the file.

use std::ffi::{c_int, OsStr, OsString};
use std::fmt;
use std::fs::{File, Metadata};
use std::io::{self, ErrorKind, IsTerminal, Read, Seek, Write};
use std::os::unix::ffi::OsStrExt;
use std::os::unix::fs::{FileTypeExt, MetadataExt};

use crate::arguments::Place;
use crate::report::shown;
use crate::system::descriptor;

/// What the system said no to, and why.
pub struct Trouble {
    what: String,
    cause: io::Error,
}

impl Trouble {
    /// Trouble with a file of this name.
    pub fn with(name: &OsStr) -> impl FnOnce(io::Error) -> Trouble {
        let what = shown(name);
        move |cause| Trouble { what, cause }
    }

    /// The reader of a pipe went away, as `head` does when it has enough.
    pub fn is_closed_pipe(&self) -> bool {
        self.cause.kind() == ErrorKind::BrokenPipe
    }
}

impl fmt::Display for Trouble {
    fn fmt(&self, f: &mut fmt::Formatter) -> fmt::Result {
        let cause = self.cause.to_string();
        let cause = cause.split(" (os error").next().unwrap_or_default();
        match self.cause.kind() {
            ErrorKind::OutOfMemory => f.write_str("out of memory"),
            _ => write!(f, "{}: {cause}", self.what),
        }
    }
}

/// A place's name, as it was given.
pub fn name<'a>(place: &'a Place, standard: &'a str) -> &'a OsStr {
    match place {
        Place::Standard => standard.as_ref(),
        Place::Named(path) => path.as_os_str(),
    }
}

/// The number of the descriptor that a name stands for, as /dev/stdout does for 1: what it has open is meant, where it is.
pub fn descriptor_named(place: &Place) -> Option<c_int> {
    let Place::Named(path) = place else {
        return None;
    };
    match path.as_os_str().as_bytes() {
        b"/dev/stdin" => Some(0),
        b"/dev/stdout" => Some(1),
        b"/dev/stderr" => Some(2),
        name => {
            let number = name.strip_prefix(b"/dev/fd/").or_else(|| name.strip_prefix(b"/proc/self/fd/"))?;
            std::str::from_utf8(number).ok()?.parse().ok().filter(|number| *number >= 0)
        }
    }
}

/// A file as the system knows it, whatever its names: device and inode.
#[derive(Clone, Copy, PartialEq, Eq, Debug)]
pub struct Identity(u64, u64);

impl Identity {
    pub fn of(metadata: &Metadata) -> Identity {
        Identity(metadata.dev(), metadata.ino())
    }
}

/// An input, opened.
pub struct Input {
    pub name: OsString,
    /// How many bytes were read of it.
    pub read: usize,
    file: File,
}

impl Input {
    pub fn open(place: &Place) -> Result<Input, Trouble> {
        let name = name(place, "standard input");
        let file = match (place, descriptor_named(place)) {
            (Place::Standard, _) => descriptor(0),
            (_, Some(number)) => descriptor(number),
            (Place::Named(path), None) => File::open(path),
        };
        let input = Input { file: file.map_err(Trouble::with(name))?, name: name.to_owned(), read: 0 };
        if *place == Place::Standard {
            input.say_if_someone_types();
        }
        Ok(input)
    }

    /// Someone who forgot to name INPUT sees a command that does nothing.
    fn say_if_someone_types(&self) {
        if self.file.is_terminal() && io::stderr().is_terminal() {
            let _ = writeln!(io::stderr(), "sailmortar: reading what is typed here; Ctrl-D at the start of a line ends it");
        }
    }

    /// The file, for one who reads it from any place.
    pub fn file(&self) -> &File {
        &self.file
    }

    /// Which file it is, if it is a plain file.
    pub fn identity(&self) -> Option<Identity> {
        self.file.metadata().ok().filter(Metadata::is_file).map(|metadata| Identity::of(&metadata))
    }

    /// Which pipe or terminal it is, if it is one: what one reader has read of it no other can read.
    pub fn shared(&self) -> Option<Identity> {
        let metadata = self.file.metadata().ok()?;
        let is_shared = metadata.file_type().is_fifo() || metadata.file_type().is_socket() || self.file.is_terminal();
        is_shared.then(|| Identity::of(&metadata))
    }

    /// Whether it is a plain file that is longer than `limit`: then it need not be read to be refused.
    pub fn is_over(&self, limit: usize) -> bool {
        self.bytes_left() > limit as u64
    }

    /// All of it, or one byte more than `limit`: enough for the converter to see that it is too long.
    pub fn read(&mut self, limit: usize, tick: impl FnMut(usize)) -> Result<Vec<u8>, Trouble> {
        let expected = self.bytes_left().min(limit as u64) as usize;
        let ticking = Ticking { inner: &self.file, read: 0, tick };
        let bytes = sailmortar::read_input(ticking, expected, limit).map_err(Trouble::with(&self.name))?;
        self.read = bytes.len();
        Ok(bytes)
    }

    /// How much of a plain file is still to be read; 0 of anything else, whose length is not known.
    pub fn bytes_left(&self) -> u64 {
        match self.file.metadata() {
            Ok(metadata) if metadata.is_file() => metadata.len().saturating_sub(self.position()),
            _ => 0,
        }
    }

    /// How far it has been read, by whoever had it before, too.
    pub fn position(&self) -> u64 {
        (&self.file).stream_position().unwrap_or(0)
    }
}

/// A reader that tells how far it is.
struct Ticking<R, T> {
    inner: R,
    read: usize,
    tick: T,
}

impl<R: Read, T: FnMut(usize)> Read for Ticking<R, T> {
    fn read(&mut self, bytes: &mut [u8]) -> io::Result<usize> {
        let count = self.inner.read(bytes)?;
        self.read += count;
        (self.tick)(self.read);
        Ok(count)
    }
}
