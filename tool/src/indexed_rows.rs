//! Rows out of a stream in a file, by its index in another file. Of both only what a row needs is read.

use std::io::{Read, Seek, SeekFrom};

use crate::index::growing;
use crate::index_file::{Misfit, HEADER, START};
use crate::numbers::INPUT_OVER_SIZE;
use crate::proved::{fetch, fetch_behind, index};
use crate::{declare, Done, Error, Indexed, Refused, Rows, INPUT_LIMIT, ROWS_PER_START};

/// A stream and its index, each in a file or whatever else can be read from any place.
///
/// ```
/// # fn main() -> Result<(), sailmortar::Error> {
/// use std::io::Cursor;
/// use sailmortar::{Index, IndexedRows, Rows};
///
/// let (fields, night) = (b"<FIELD datatype='short'/>", [0, 7, 0, 8, 0, 9]);
/// let mut file = Vec::new();
/// Index::build(fields, Rows::Binary, &night)?.write(&mut file)?;
///
/// let (mut rows, mut line) = (IndexedRows::open(fields, Rows::Binary, Cursor::new(night), Cursor::new(file))?, Vec::new());
/// rows.fetch(1, &mut line)?;
/// assert_eq!(line, b"<TR><TD>8</TD></TR>\n");
/// # Ok(())
/// # }
/// ```
#[derive(Debug)]
pub struct IndexedRows<'a, S, I> {
    decls: &'a [u8],
    of: Indexed,
    stream: S,
    index: I,
    part: Option<Part>,
    /// As long as the stream, and zeros but for the part: what is fetched from it depends on no other byte. It is made once, since to make it
    /// again for each part may take as long as to clear all of it.
    bytes: Vec<u8>,
    /// As many as the index has, and zeros but for the part's.
    starts: Vec<u32>,
    read: u64,
}

/// The part of the stream that was read last, from one start to the next.
#[derive(Clone, Copy, Debug)]
struct Part {
    place: u64,
    start: usize,
    next: usize,
}

impl<'a, S: Read + Seek, I: Read + Seek> IndexedRows<'a, S, I> {
    /// Reads the front of the index, and answers whether it is the index of such a stream. Declarations and the stream's size are judged first.
    pub fn open(decls: &'a [u8], from: Rows, mut stream: S, mut index: I) -> Result<IndexedRows<'a, S, I>, Error> {
        declare(decls)?;
        let length = stream.seek(SeekFrom::End(0))?;
        if length > INPUT_LIMIT as u64 {
            return Err(Refused { number: INPUT_OVER_SIZE, row: 0, column: 0, rows: 0, bytes: 0, offset: 0 }.into());
        }
        let found = index.seek(SeekFrom::End(0))?;
        index.rewind()?;
        let mut header = Vec::new();
        index.by_ref().take(HEADER as u64).read_to_end(&mut header)?;
        let of = Indexed::of_header(&header)?;
        if found != of.file_size() {
            return Err(Misfit::OtherSize { wanted: of.file_size(), found }.into());
        }
        of.fits(decls, from, length)?;
        Ok(IndexedRows { decls, of, stream, index, part: None, bytes: Vec::new(), starts: Vec::new(), read: 0 })
    }

    /// What the index says that it is the index of.
    pub fn of(&self) -> &Indexed {
        &self.of
    }

    /// How many bytes of the stream were read.
    pub fn read(&self) -> u64 {
        self.read
    }

    /// A row as a line of TABLEDATA, to the end of `out`. A refusal stands at the row asked for: 20 where the stream has no such row, else why
    /// the row has no form in TABLEDATA. Where the stream is no longer the one that was indexed, that is nearly always found out, and is a
    /// [`Misfit`].
    pub fn fetch(&mut self, row: u64, out: &mut Vec<u8>) -> Result<Done, Error> {
        let Indexed { from, rows, .. } = self.of;
        if row >= rows {
            // The proved function judges it before it looks at a byte or at a start.
            return Ok(fetch(self.decls, from, &[], &[], rows, row, &mut [])?);
        }
        let place = row / ROWS_PER_START;
        if self.part.is_none_or(|part| part.place != place) {
            self.go_to(place)?;
        }
        let (decls, bytes, starts) = (self.decls, &self.bytes, &self.starts);
        growing(out, |out| fetch_behind(decls, from, bytes, starts, rows, row, out))
    }

    /// The stream as far as it is in memory, from the start before the row that was fetched last to the start behind it; and where that start is.
    /// Every other byte is 0.
    pub fn part(&self) -> Option<(&[u8], usize)> {
        self.part.map(|part| (&self.bytes[..], part.start))
    }

    /// Has the part of this place, and nothing where it cannot be had.
    fn go_to(&mut self, place: u64) -> Result<(), Error> {
        self.let_go();
        let part = self.part_of(place)?;
        if self.bytes.is_empty() {
            (self.bytes, self.starts) = (zeros(self.of.length as usize)?, zeros(self.of.starts() as usize)?);
        }
        self.part = Some(part);
        let read = self.read_part(part);
        if read.is_err() {
            self.let_go();
        }
        read
    }

    fn let_go(&mut self) {
        if let Some(part) = self.part.take() {
            self.bytes[part.start..part.next].fill(0);
            self.starts[part.place as usize] = 0;
        }
    }

    fn read_part(&mut self, Part { place, start, next }: Part) -> Result<(), Error> {
        let bytes = &mut self.bytes[start..next];
        self.stream.seek(SeekFrom::Start(start as u64))?;
        self.stream.read_exact(bytes)?;
        self.starts[place as usize] = start as u32;
        self.read += bytes.len() as u64;
        // As a stream of its own it has to be so many rows: a stream that is not the one that was indexed hardly ever is. And where they read, no
        // byte behind them counts.
        match index(self.decls, self.of.from, bytes, &mut [0]) {
            Ok(done) if done.rows == self.of.rows_of(place) => Ok(()),
            _ => Err(Misfit::OtherRows { row: place * ROWS_PER_START }.into()),
        }
    }

    /// Where the rows from this place's start to the next begin and end, as the index has it.
    fn part_of(&mut self, place: u64) -> Result<Part, Error> {
        let mut starts = Vec::new();
        self.index.seek(SeekFrom::Start(HEADER as u64 + place * START as u64))?;
        self.index.by_ref().take(2 * START as u64).read_to_end(&mut starts)?;
        let mut starts = starts.as_chunks().0.iter().map(|bytes| u64::from(u32::from_le_bytes(*bytes)));
        match (starts.next(), starts.next().unwrap_or(self.of.end)) {
            (Some(start), next) if self.of.can_be_part(place, start, next) => {
                Ok(Part { place, start: start as usize, next: next as usize })
            }
            _ => Err(Misfit::Damaged.into()),
        }
    }
}

/// So many zeros, which take no memory until something else is written there. Whether the system gives so much is tried first: it ends a
/// program that takes it untried.
pub(crate) fn zeros<Z: Copy + Default>(count: usize) -> Result<Vec<Z>, Error> {
    Vec::<Z>::new().try_reserve_exact(count)?;
    Ok(vec![Z::default(); count])
}
