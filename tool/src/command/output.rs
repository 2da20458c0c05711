//! Files that are written: under another name beside their own, and moved into place when they are whole.

use std::ffi::{OsStr, OsString};
use std::fs::{self, File, Metadata, OpenOptions};
use std::io::{self, ErrorKind, IsTerminal, Write};
use std::os::unix::ffi::{OsStrExt, OsStringExt};
use std::os::unix::fs::{fchown, FileTypeExt, MetadataExt};
use std::path::{Path, PathBuf};
use std::time::{SystemTime, UNIX_EPOCH};

use crate::arguments::{Place, Usage};
use crate::files::{descriptor_named, name, Identity, Trouble};
use crate::report::shown;
use crate::system::{descriptor, Doomed};
use crate::End;

/// An output, opened. A plain file is written beside its name, and moved there by `finish`; dropped before that, nothing is left of it.
pub struct Output {
    pub name: OsString,
    /// How many bytes were written to it.
    pub written: u64,
    file: File,
    identity: Option<Identity>,
    moving: Option<Moving>,
}

/// A new file, and the name that it is to have.
struct Moving {
    part: PathBuf,
    target: PathBuf,
    /// Taken away when the file has its name: what stands under the other name is no longer this run's.
    doomed: Option<Doomed>,
}

impl Drop for Moving {
    fn drop(&mut self) {
        if self.doomed.is_some() {
            let _ = fs::remove_file(&self.part);
        }
    }
}

impl Output {
    pub fn open(place: &Place) -> Result<Output, Trouble> {
        let name = name(place, "standard output");
        let opened = match (place, descriptor_named(place)) {
            (Place::Standard, _) => open_descriptor(1),
            (_, Some(number)) => open_descriptor(number),
            (Place::Named(path), None) => open_named(path),
        };
        opened.map(|output| Output { name: name.to_owned(), ..output }).map_err(Trouble::with(name))
    }

    fn of(file: File, moving: Option<Moving>) -> io::Result<Output> {
        let identity = match &moving {
            Some(moving) => fs::metadata(&moving.target).ok(),
            None => Some(file.metadata()?).filter(|metadata| is_one_place(metadata) || file.is_terminal()),
        };
        let identity = identity.map(|metadata| Identity::of(&metadata));
        Ok(Output { name: OsString::new(), written: 0, file, identity, moving })
    }

    pub fn is_terminal(&self) -> bool {
        self.file.is_terminal()
    }

    /// Whether it would take the place of this file.
    pub fn replaces(&self, identity: Option<Identity>) -> bool {
        identity.is_some() && self.identity == identity
    }

    /// An output that is written as it is must be none of the files that are read: it could not be kept back at a refusal.
    pub fn keep_off(&self, inputs: &[Option<Identity>]) -> Result<(), Trouble> {
        match self.moving.is_none() && inputs.iter().any(|input| self.replaces(*input)) {
            true => Err(self.trouble(io::Error::other("it is read as well, and would be written over; give '-o FILE'"))),
            false => Ok(()),
        }
    }

    /// An output that is to be none of the files that are read, under whatever name; `what` says what it is.
    pub fn open_apart(place: &Place, inputs: &[Option<Identity>], what: &str) -> Result<Output, End> {
        let output = Output::open(place)?;
        output.keep_off(inputs)?;
        match inputs.iter().any(|input| output.replaces(*input)) {
            true => Err(Usage(format!("{what} wants a file of its own, and {} is read as well", shown(&output.name))).into()),
            false => Ok(output),
        }
    }

    /// Whether something was written that cannot be taken back.
    pub fn has_gone_out(&self) -> bool {
        self.moving.is_none() && self.written > 0
    }

    /// Whether something stands under its name that is left as it was where nothing is written.
    pub fn is_there(&self) -> bool {
        self.moving.is_some() && self.identity.is_some()
    }

    /// Whether what stands under its name has something in it.
    pub fn replaces_something(&self) -> bool {
        self.moving.as_ref().is_some_and(|moving| fs::metadata(&moving.target).is_ok_and(|old| old.len() > 0))
    }

    /// Whether both would end under one name, or in one place.
    pub fn is_same_as(&self, other: &Output) -> bool {
        let targets = self.moving.as_ref().zip(other.moving.as_ref());
        self.replaces(other.identity) || targets.is_some_and(|(one, two)| one.target == two.target)
    }

    /// The trouble with this output, from its cause.
    pub fn trouble(&self, cause: io::Error) -> Trouble {
        Trouble::with(&self.name)(cause)
    }

    /// Makes sure that all is on the disk, where it can be asked for that.
    pub fn sync(&self) -> Result<(), Trouble> {
        match self.moving {
            Some(_) => self.file.sync_all().map_err(|cause| self.trouble(cause)),
            None => Ok(()),
        }
    }

    /// Brings it to the disk and moves it into place.
    pub fn finish(&mut self) -> Result<(), Trouble> {
        self.sync()?;
        let Some(mut moving) = self.moving.take() else {
            return Ok(());
        };
        if let Err(cause) = is_still(&self.file, &moving.part) {
            // What stands there is someone else's.
            moving.doomed = None;
            return Err(self.trouble(cause));
        }
        fs::rename(&moving.part, &moving.target).map_err(|cause| self.trouble(cause))?;
        moving.doomed = None;
        sync_folder(&moving.target);
        Ok(())
    }

    /// The same under a new name beside its own, where its own must stay as it is; not that of `other`. Answers the name.
    pub fn finish_beside(&mut self, other: Option<&Output>) -> Result<OsString, Trouble> {
        self.sync()?;
        let Some(moving) = self.moving.take() else {
            return Ok(self.name.clone());
        };
        let taken = other.and_then(|other| other.moving.as_ref()).map(|moving| &*moving.target);
        let beside = link_beside(&moving, taken).map_err(|cause| self.trouble(cause))?;
        sync_folder(&beside);
        Ok(name_beside(Path::new(&self.name), beside))
    }
}

impl Write for Output {
    fn write(&mut self, bytes: &[u8]) -> io::Result<usize> {
        let count = self.file.write(bytes)?;
        self.written += count as u64;
        Ok(count)
    }

    fn flush(&mut self) -> io::Result<()> {
        Ok(())
    }
}

/// Whether what two outputs write to it would be mixed; devices such as /dev/null take anything from anyone.
fn is_one_place(metadata: &Metadata) -> bool {
    metadata.is_file() || metadata.file_type().is_fifo() || metadata.file_type().is_socket()
}

/// Someone may have removed the file, and put another in its place.
fn is_still(file: &File, path: &Path) -> io::Result<()> {
    match Identity::of(&fs::symlink_metadata(path)?) == Identity::of(&file.metadata()?) {
        true => Ok(()),
        false => Err(io::Error::other("another file has taken the place of the new one")),
    }
}

/// A move itself is on the disk once the folder is; some file systems cannot be asked for that.
fn sync_folder(path: &Path) {
    let _ = File::open(folder(path)).and_then(|folder| folder.sync_all());
}

/// A second name for the new file, the first of `.rows`, `.rows.1`, .. that is free; the file's own name goes when `moving` does. Where the
/// file system has no links the file is moved: either way it is whole under its new name, or not there.
fn link_beside(moving: &Moving, taken: Option<&Path>) -> io::Result<PathBuf> {
    for attempt in 0.. {
        let ending = if attempt == 0 { ".rows".to_string() } else { format!(".rows.{attempt}") };
        let beside = named_after(&moving.target, &ending);
        if taken == Some(&*beside) {
            continue;
        }
        match fs::hard_link(&moving.part, &beside) {
            Ok(()) => return Ok(beside),
            Err(cause) if cause.kind() == ErrorKind::AlreadyExists => {}
            Err(_) if fs::symlink_metadata(&beside).is_ok() => {}
            Err(_) => return fs::rename(&moving.part, &beside).map(|()| beside),
        }
    }
    Err(ErrorKind::AlreadyExists.into())
}

/// The name as the output's own was given, where both stand in one folder.
fn name_beside(output: &Path, beside: PathBuf) -> OsString {
    let near = output.with_file_name(beside.file_name().unwrap_or_default());
    match folder(&near).canonicalize() {
        Ok(folder) if Some(&*folder) == beside.parent() => near.into_os_string(),
        _ => beside.into_os_string(),
    }
}

fn open_descriptor(number: i32) -> io::Result<Output> {
    Output::of(descriptor(number)?, None)
}

/// A device or a pipe is written to as it is: moving a file over it would take it away.
fn open_named(path: &Path) -> io::Result<Output> {
    let old = match fs::metadata(path) {
        Ok(old) => old,
        Err(cause) if cause.kind() == ErrorKind::NotFound => return open_new(&followed(path)?),
        Err(cause) => return Err(cause),
    };
    if let Some(output) = standard_descriptor(&old) {
        return Ok(output);
    }
    let file = OpenOptions::new().write(true).open(path)?;
    if !old.is_file() {
        return Output::of(file, None);
    }
    let output = open_new(&path.canonicalize()?)?;
    keep(&output.file, &old)?;
    Ok(output)
}

/// A file that is written anew keeps its permissions, as it would if it were written in place; and its owner and group, where that is
/// allowed.
fn keep(file: &File, old: &Metadata) -> io::Result<()> {
    let new = file.metadata()?;
    if (new.uid(), new.gid()) != (old.uid(), old.gid()) {
        let _ = fchown(file, None, Some(old.gid()));
        let _ = fchown(file, Some(old.uid()), None);
    }
    file.set_permissions(old.permissions())
}

/// Standard output or standard error where the file is theirs: what they hold must not be replaced under them.
fn standard_descriptor(old: &Metadata) -> Option<Output> {
    let is_old = |output: &Output| output.file.metadata().is_ok_and(|metadata| Identity::of(&metadata) == Identity::of(old));
    [1, 2].into_iter().filter_map(|number| open_descriptor(number).ok()).find(is_old)
}

fn open_new(path: &Path) -> io::Result<Output> {
    if names_a_folder(path) {
        return Err(io::Error::from_raw_os_error(NO_SUCH_FILE));
    }
    let target = folder(path).canonicalize()?.join(path.file_name().unwrap_or_default());
    let (file, moving) = create_beside(target)?;
    Output::of(file, Some(moving))
}

/// `new/`, `new/.` and `new/..` are no names for a file.
fn names_a_folder(path: &Path) -> bool {
    let bytes = path.as_os_str().as_bytes();
    path.file_name().is_none() || bytes.ends_with(b"/") || bytes.ends_with(b"/.")
}

/// Where a link leads whose end is not there yet, through as many links as the system itself would follow.
fn followed(path: &Path) -> io::Result<PathBuf> {
    let mut path = path.to_path_buf();
    for _ in 0..40 {
        match fs::read_link(&path) {
            Ok(next) => path = folder(&path).join(next),
            Err(_) => return Ok(path),
        }
    }
    Err(io::Error::other("too many links"))
}

fn folder(path: &Path) -> &Path {
    match path.parent() {
        Some(folder) if !folder.as_os_str().is_empty() => folder,
        _ => Path::new("."),
    }
}

/// A new file in the folder of `target`, named after it, so that moving it is one step. Processes of two systems that share a folder may
/// have one number, and a killed run may have left its file: the time is in the name, too.
fn create_beside(target: PathBuf) -> io::Result<(File, Moving)> {
    loop {
        let time = SystemTime::now().duration_since(UNIX_EPOCH).unwrap_or_default().as_nanos() as u64;
        let part = named_after(&target, &format!(".{}.{time:x}.part", std::process::id()));
        let doomed = Doomed::new(&part)?;
        match OpenOptions::new().write(true).create_new(true).open(&part) {
            Ok(file) => return Ok((file, Moving { part, target, doomed: Some(doomed) })),
            Err(cause) if cause.kind() == ErrorKind::AlreadyExists => {}
            Err(cause) => return Err(in_folder(cause)),
        }
    }
}

/// The file itself may well be writable: it is the folder that takes no new one.
fn in_folder(cause: io::Error) -> io::Error {
    match cause.kind() {
        ErrorKind::PermissionDenied => io::Error::new(cause.kind(), "its folder takes no new file: Permission denied"),
        _ => cause,
    }
}

/// What the system says of a name that is not there.
const NO_SUCH_FILE: i32 = 2;

/// The longest name that a file has.
const NAME_LIMIT: usize = 255;

/// The path with this ending, its name cut where it would be too long.
fn named_after(path: &Path, ending: &str) -> PathBuf {
    let name: &OsStr = path.file_name().unwrap_or_default();
    let kept = name.len().min(NAME_LIMIT - ending.len());
    path.with_file_name(OsString::from_vec([&name.as_bytes()[..kept], ending.as_bytes()].concat()))
}
