//! Rows on their way to the converter: of a plain file as they are read, and with `--long` of anything; else all of them are read first,
//! since the length is judged before any row.

use std::fs::File;
use std::hint::black_box;
use std::io::{self, ErrorKind, Read, Write};
use std::num::NonZeroUsize;
use std::os::unix::fs::FileExt;
use std::thread::available_parallelism;

use sailmortar::{Done, Error, Piece, Plan, Refused, Rows, LONGEST_ROW};

use crate::arguments::{Table, Working};
use crate::base64::read_rows;
use crate::files::{Input, Trouble};
use crate::output::Output;
use crate::progress::Progress;
use crate::report;
use crate::text::count;
use crate::window::Window;
use crate::End;

/// Bytes that are kept of the start of an input that is not kept whole. Hints look at fewer, behind white space.
const START: usize = 1 << 20;

/// Bytes of address space that a thread is to find: the heap that the system's library sets aside for it is half of that, and is hardly used.
const FOR_A_THREAD: usize = 128 << 20;

/// Bytes of a file that are read at a time where they are not converted.
const CHUNK: usize = 1 << 16;

/// The rows of an input.
pub struct Source<'a> {
    pub input: &'a Input,
    from: Rows,
    is_long: bool,
    plan: Plan,
    kept: Kept<'a>,
}

/// What is kept of the rows.
enum Kept<'a> {
    All(Vec<u8>),
    /// What was read and not converted.
    Left(Reader<'a>, Vec<u8>),
}

impl<'a> Source<'a> {
    /// The rows are read here where they are not to be read as they are converted.
    pub fn open(input: &'a mut Input, table: &Table, working: Working) -> Result<Source<'a>, End> {
        // A file of the system's own may say that it has no bytes, and have some.
        let (length, from, is_long) = (input.bytes_left(), table.from, working.long);
        if !is_long && (table.base64_in || length == 0) {
            let rows = read_rows(input, table.base64_in)?;
            return Ok(Source { input, from, is_long, plan: plan(working), kept: Kept::All(rows) });
        }
        let reader = Reader::new(input, from).map_err(Trouble::with(&input.name))?;
        let plan = if is_long { plan(working).long() } else { plan(working).length(length) };
        Ok(Source { input, from, is_long, plan, kept: Kept::Left(reader, Vec::new()) })
    }

    /// Converts the rows; `done` is the word for that where it is told how far things are.
    pub fn convert(&mut self, decls: &[u8], to: Rows, done: &str, mut sink: impl FnMut(Piece) -> io::Result<()>) -> Result<Done, Error> {
        let (length, mut progress) = (self.length(), Progress::new());
        let sink = |piece: Piece| {
            progress.tick(|| how_far(&piece, length, done));
            sink(piece)
        };
        match &mut self.kept {
            Kept::All(rows) => self.plan.convert_slice(decls, self.from, to, rows, sink),
            Kept::Left(reader, left) => self.plan.convert_pieces(decls, self.from, to, reader, left, sink),
        }
    }

    /// How many bytes there are, if that is known.
    fn length(&self) -> Option<u64> {
        match &self.kept {
            Kept::All(rows) => Some(rows.len() as u64),
            Kept::Left(..) => Some(self.input.bytes_left()).filter(|bytes| *bytes > 0),
        }
    }

    /// How many bytes were read of the input.
    pub fn read(&self) -> u64 {
        match &self.kept {
            Kept::All(_) => self.input.read as u64,
            Kept::Left(reader, _) => reader.read,
        }
    }

    /// What is said of rows that are over their size (6).
    pub fn too_long(&self) -> End {
        let mut report = report::too_long(&self.input.name, "");
        report.hint(Some("--long takes an input of any length, and goes through it as it is read"));
        End::Refused(report)
    }

    /// The trouble with an output, or with the input where that is what failed.
    pub fn trouble(&self, cause: io::Error, output: &Output) -> Trouble {
        match &self.kept {
            Kept::Left(Reader { failed: true, .. }, _) => Trouble::with(&self.input.name)(cause),
            _ => output.trouble(cause),
        }
    }

    /// Writes everything from the refused row on, as it stands in the input.
    pub fn write_rest(&mut self, refused: &Refused, rest: &mut Output) -> Result<(), Trouble> {
        let (bytes, behind) = match &self.kept {
            Kept::All(rows) => (&rows[refused.offset..], None),
            Kept::Left(reader, left) => (&left[..], Some(reader.file)),
        };
        rest.write_all(bytes).map_err(|cause| rest.trouble(cause))?;
        behind.map_or(Ok(()), |file| copy(file, self.input, rest))
    }

    /// What messages see of the rows from the refused one on: all that was read, and so all that the row was judged by.
    pub fn window(&self, refused: &Refused) -> Window<'_> {
        match &self.kept {
            Kept::All(rows) => Window::whole(rows),
            Kept::Left(reader, left) => {
                let line_feeds = reader.line_feeds_before(refused.offset, left);
                let bytes = if self.is_long { &left[..left.len().min(LONGEST_ROW)] } else { left };
                let goes_on = self.is_long && (bytes.len() < left.len() || !reader.ended);
                Window { start: &reader.start, bytes, place: refused.offset, line_feeds, goes_on }
            }
        }
    }
}

/// On as many threads as were asked for, or on all cores, as long as there is room for them: the system's library ends a program of which a
/// thread finds no memory at its start, and no one is told why.
fn plan(working: Working) -> Plan {
    let wanted = working.threads.or_else(|| available_parallelism().ok()).map_or(1, NonZeroUsize::get);
    let mut threads = wanted;
    while threads > 1 && !is_room(threads.saturating_mul(FOR_A_THREAD)) {
        threads /= 2;
    }
    match working.threads.is_none() && threads == wanted {
        true => Plan::new(),
        false => Plan::new().threads(threads),
    }
}

/// Whether the system has so many bytes; they are not used.
fn is_room(bytes: usize) -> bool {
    let mut room: Vec<u8> = Vec::new();
    let is_there = room.try_reserve_exact(bytes).is_ok();
    is_there && black_box(room).capacity() >= bytes
}

fn how_far(piece: &Piece, length: Option<u64>, done: &str) -> String {
    let read = piece.read as u64;
    match length {
        Some(length) => format!("{}% {done}, {} rows", read * 100 / length.max(1), piece.rows),
        None => format!("{} MB {done}, {} rows", read / 1_000_000, piece.rows),
    }
}

/// Copies what a file still has behind what was read of it.
fn copy(mut file: &File, input: &Input, rest: &mut Output) -> Result<(), Trouble> {
    let mut chunk = [0; CHUNK];
    loop {
        match file.read(&mut chunk) {
            Ok(0) => return Ok(()),
            Ok(count) => rest.write_all(&chunk[..count]).map_err(|cause| rest.trouble(cause))?,
            Err(cause) if cause.kind() == ErrorKind::Interrupted => {}
            Err(cause) => return Err(Trouble::with(&input.name)(cause)),
        }
    }
}

/// A reader that notes what messages need to know of bytes that are not kept.
struct Reader<'a> {
    file: &'a File,
    /// How many bytes were read.
    read: u64,
    /// Whether there was no more to read, and whether the system said no to it.
    ended: bool,
    failed: bool,
    /// The first bytes.
    start: Vec<u8>,
    line_feeds: LineFeeds,
}

/// How the line feeds are known that stand before a row.
enum LineFeeds {
    /// A plain file is read again from this place on.
    ReadAgain(u64),
    /// Of a pipe they are counted as they are read.
    Counted(u64),
    /// BINARY and BINARY2 have no lines.
    Nothing,
}

impl<'a> Reader<'a> {
    fn new(input: &'a Input, from: Rows) -> io::Result<Reader<'a>> {
        let line_feeds = match (from, input.identity()) {
            (Rows::TableData, Some(_)) => LineFeeds::ReadAgain(input.position()),
            (Rows::TableData, None) => LineFeeds::Counted(0),
            _ => LineFeeds::Nothing,
        };
        let mut start = Vec::new();
        start.try_reserve_exact(START)?;
        Ok(Reader { file: input.file(), read: 0, ended: false, failed: false, start, line_feeds })
    }

    /// How many line feeds stand before a place of the input, from which on `left` was read and is kept; none where they are not known.
    fn line_feeds_before(&self, place: usize, left: &[u8]) -> Option<u64> {
        match self.line_feeds {
            LineFeeds::ReadAgain(begin) => line_feeds_in(self.file, begin, place as u64).ok(),
            LineFeeds::Counted(all) => Some(all - line_feeds(left)),
            LineFeeds::Nothing => None,
        }
    }
}

fn line_feeds(bytes: &[u8]) -> u64 {
    count(bytes, |byte| byte == b'\n')
}

/// How many line feeds are among so many bytes of a plain file, from a place on.
fn line_feeds_in(file: &File, begin: u64, length: u64) -> io::Result<u64> {
    let (mut chunk, mut at, mut found) = ([0; CHUNK], 0, 0);
    while at < length {
        let wanted = (length - at).min(CHUNK as u64) as usize;
        file.read_exact_at(&mut chunk[..wanted], begin + at)?;
        found += line_feeds(&chunk[..wanted]);
        at += wanted as u64;
    }
    Ok(found)
}

impl Read for Reader<'_> {
    fn read(&mut self, bytes: &mut [u8]) -> io::Result<usize> {
        let read = self.file.read(bytes);
        self.failed = read.is_err();
        let count = read?;
        let bytes = &bytes[..count];
        self.read += count as u64;
        self.ended = bytes.is_empty();
        self.start.extend_from_slice(&bytes[..count.min(START - self.start.len())]);
        if let LineFeeds::Counted(all) = &mut self.line_feeds {
            *all += line_feeds(bytes);
        }
        Ok(count)
    }
}
