//! An index of a stream of BINARY or BINARY2: where every 64th row begins, and how many rows there are, so that one row is found without
//! those before it.

use std::fmt;

use crate::index_file::{fingerprint, Misfit};
use crate::numbers::NO_ROOM;
use crate::proved::{fetch, fetch_behind, index_behind};
use crate::{convert_pieces, Done, Error, Refused, Rows, INPUT_LIMIT};

/// How many rows stand from one start in an index to the next.
pub const ROWS_PER_START: u64 = 64;

/// Room for the rows behind the last start, which are converted only to learn where a refused row begins.
const ROOM_TO_LOCATE: usize = 1 << 16;

/// What an index is the index of.
#[derive(Clone, Copy, Debug, PartialEq, Eq)]
#[non_exhaustive]
pub struct Indexed {
    /// The kind of the rows.
    pub from: Rows,
    /// The bytes of the stream.
    pub length: u64,
    /// Where the rows end: the stream's length, or where the first row begins that does not read.
    pub end: u64,
    /// The rows that can be fetched.
    pub rows: u64,
    /// A number that other declarations nearly always have another of.
    pub declarations: u64,
}

impl Indexed {
    /// How many starts the index has.
    pub fn starts(&self) -> u64 {
        self.rows.div_ceil(ROWS_PER_START)
    }

    /// Whether these declarations, this kind and a stream of this length are those that the index was built from.
    pub fn fits(&self, decls: &[u8], from: Rows, length: u64) -> Result<(), Misfit> {
        if self.from != from {
            return Err(Misfit::OtherKind { indexed: self.from, asked: from });
        }
        if self.length != length {
            return Err(Misfit::OtherLength { indexed: self.length, found: length });
        }
        match self.declarations == fingerprint(decls) {
            true => Ok(()),
            false => Err(Misfit::OtherDeclarations),
        }
    }
}

/// An index of a stream, and what it is the index of.
///
/// ```
/// # fn main() -> Result<(), sailmortar::Error> {
/// use sailmortar::{Index, Rows};
///
/// let (fields, night) = (b"<FIELD datatype='short'/>", [0, 7, 0, 8, 0, 9]);
/// let index = Index::build(fields, Rows::Binary, &night)?;
/// assert_eq!(index.of().rows, 3);
/// let mut line = Vec::new();
/// index.fetch(fields, &night, 2, &mut line)?;
/// assert_eq!(line, b"<TR><TD>9</TD></TR>\n");
///
/// // The last row is cut: the rows before it can be fetched all the same.
/// let stopped = Index::build(fields, Rows::Binary, &night[..5]).unwrap_err();
/// assert_eq!(stopped.error.refused().map(|refused| (refused.number, refused.row)), Some((8, 2)));
/// assert_eq!(stopped.index.of().rows, 2);
/// # Ok(())
/// # }
/// ```
#[derive(Clone, Debug, PartialEq, Eq)]
pub struct Index {
    pub(crate) of: Indexed,
    pub(crate) starts: Vec<u32>,
}

impl Index {
    /// Reads a stream of BINARY or BINARY2, and notes where its rows begin. A stream that is refused is refused as in
    /// [`convert`](crate::convert); with the refusal comes the index of the rows before it.
    pub fn build(decls: &[u8], from: Rows, input: &[u8]) -> Result<Index, Stopped> {
        let of = Indexed { from, length: input.len() as u64, end: 0, rows: 0, declarations: fingerprint(decls) };
        let mut index = Index { of, starts: Vec::new() };
        match index.fill(decls, input) {
            Ok(()) => Ok(index),
            Err(error) => Err(Stopped { index, error }),
        }
    }

    fn fill(&mut self, decls: &[u8], input: &[u8]) -> Result<(), Error> {
        // A row takes a byte at least: there is a place for every start, and 17 does not arise.
        self.starts.try_reserve_exact(input.len().min(INPUT_LIMIT).div_ceil(ROWS_PER_START as usize))?;
        let answer = index_behind(decls, self.of.from, input, &mut self.starts);
        self.starts.shrink_to_fit();
        let (rows, end, stopped) = match answer {
            Ok(done) => (done.rows, input.len(), Ok(())),
            Err(refused) => match self.offset_of(decls, input, &refused) {
                Ok(offset) => (refused.rows, offset, Err(Refused { offset, ..refused }.into())),
                Err(error) => {
                    self.starts.clear();
                    (0, 0, Err(error))
                }
            },
        };
        (self.of.rows, self.of.end) = (rows, end as u64);
        stopped
    }

    /// Where the refused row begins: converting from the last start on is refused there, too, and tells.
    fn offset_of(&self, decls: &[u8], input: &[u8], refused: &Refused) -> Result<usize, Error> {
        if !refused.is_of_a_row() {
            return Ok(0);
        }
        let start = self.starts.last().map_or(0, |start| *start as usize);
        match convert_pieces(decls, self.of.from, Rows::Binary2, &input[start..], ROOM_TO_LOCATE, |_| Ok(())) {
            Err(Error::Refused(there)) => Ok(start + there.offset),
            Err(other) => Err(other),
            Ok(_) => Ok(start),
        }
    }

    /// What it is the index of.
    pub fn of(&self) -> &Indexed {
        &self.of
    }

    /// The starts of rows 0, 64, 128, .. in the stream.
    pub fn starts(&self) -> &[u32] {
        &self.starts
    }

    /// A row of the stream as a line of TABLEDATA, to the end of `out`. `decls` and `input` are those that the index was built from;
    /// [`Indexed::fits`] says whether they can be. A refusal stands at the row asked for: 20 where there is no such row.
    pub fn fetch(&self, decls: &[u8], input: &[u8], row: u64, out: &mut Vec<u8>) -> Result<Done, Error> {
        growing(out, |out| fetch_behind(decls, self.of.from, input, &self.starts, self.of.rows, row, out))
    }

    /// The same into room that is lent: 17 where it is too little, and a refusal leaves every byte as it was.
    pub fn fetch_into(&self, decls: &[u8], input: &[u8], row: u64, out: &mut [u8]) -> Result<Done, Refused> {
        fetch(decls, self.of.from, input, &self.starts, self.of.rows, row, out)
    }
}

/// Calls with more and more room behind `out`, until there is enough.
pub(crate) fn growing(out: &mut Vec<u8>, mut call: impl FnMut(&mut Vec<u8>) -> Result<Done, Refused>) -> Result<Done, Error> {
    loop {
        match call(out) {
            Err(refused) if refused.number == NO_ROOM => out.try_reserve(2 * (out.capacity() - out.len()) + 4096)?,
            answer => return Ok(answer?),
        }
    }
}

/// Why a stream was not indexed to its end, and the index of the rows before that, which can be fetched by it.
#[derive(Debug)]
#[non_exhaustive]
pub struct Stopped {
    pub index: Index,
    pub error: Error,
}

impl fmt::Display for Stopped {
    fn fmt(&self, f: &mut fmt::Formatter) -> fmt::Result {
        self.error.fmt(f)
    }
}

impl std::error::Error for Stopped {
    fn source(&self) -> Option<&(dyn std::error::Error + 'static)> {
        self.error.source()
    }
}

impl From<Stopped> for Error {
    fn from(stopped: Stopped) -> Error {
        stopped.error
    }
}
