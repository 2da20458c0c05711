//! An index in a file: what it is the index of, in a header of a fixed size, and then each start as a number of 32 bits, lowest byte first, so
//! that one of them can be read by its place.
//!
//! | bytes | what |
//! |---|---|
//! | 16 | `sailmortar-index` |
//! | 4 | the version of this format, 1 |
//! | 4 | the kind of rows: 1 BINARY, 2 BINARY2 |
//! | 8 | the length of the stream |
//! | 8 | where its rows end |
//! | 8 | the count of rows |
//! | 8 | the fingerprint of the declarations |
//! | 8 | the count of starts |
//! | 8 | the fingerprint of the bytes before |
//! | 4 each | the starts |
//!
//! Fingerprints are FNV-1a of 64 bits: the same on every machine, and good against accidents, not against a forger.

use std::fmt;
use std::io::{self, Read, Write};

use crate::{Error, Index, Indexed, Rows, INPUT_LIMIT, ROWS_PER_START};

const MAGIC: &[u8; 16] = b"sailmortar-index";
const FORMAT: u32 = 1;

/// The bytes before the first start.
pub(crate) const HEADER: usize = 72;

/// The bytes of the header that its own fingerprint is over.
const SIGNED: usize = HEADER - 8;

/// The bytes of a start.
pub(crate) const START: usize = 4;

/// Starts that are written or read at once.
const AT_ONCE: usize = 1 << 14;

/// Why an index is not used: it is none, or not of this stream under these declarations.
#[derive(Clone, Copy, Debug, PartialEq, Eq)]
#[non_exhaustive]
pub enum Misfit {
    /// The file is no index.
    NoIndex,
    /// It is in another version of the format.
    OtherFormat { format: u32 },
    /// It was cut, or something stands behind it.
    OtherSize { wanted: u64, found: u64 },
    /// What it says cannot be.
    Damaged,
    /// It is of rows of another kind.
    OtherKind { indexed: Rows, asked: Rows },
    /// It is of a stream of another length.
    OtherLength { indexed: u64, found: u64 },
    /// It was built under other declarations.
    OtherDeclarations,
    /// The rows from this one on, up to the next start, are no longer where it says.
    OtherRows { row: u64 },
}

impl fmt::Display for Misfit {
    fn fmt(&self, f: &mut fmt::Formatter) -> fmt::Result {
        match self {
            Misfit::NoIndex => f.write_str("this file is no index of a stream"),
            Misfit::OtherFormat { format } => write!(f, "this index has format {format}, and format {FORMAT} is wanted"),
            Misfit::OtherSize { wanted, found } if found < wanted => {
                write!(f, "this index is cut short: it has {found} bytes of {wanted}")
            }
            Misfit::OtherSize { wanted, found } => write!(f, "this index is too long: it has {found} bytes, and {wanted} are its own"),
            Misfit::Damaged => f.write_str("this index is damaged: what it says cannot be"),
            Misfit::OtherKind { indexed, asked } => write!(f, "this index is of {indexed} rows, and {asked} rows are asked for"),
            Misfit::OtherLength { indexed, found } => {
                write!(f, "this index is of a stream of {indexed} bytes, and the stream has {found}")
            }
            Misfit::OtherDeclarations => f.write_str("this index was built with other FIELD elements"),
            Misfit::OtherRows { row } => {
                write!(f, "the stream has changed since this index was built: the rows from {row} on are no longer where it says")
            }
        }
    }
}

impl std::error::Error for Misfit {}

/// FNV-1a.
pub(crate) fn fingerprint(bytes: &[u8]) -> u64 {
    bytes.iter().fold(0xCBF2_9CE4_8422_2325, |sum, byte| (sum ^ u64::from(*byte)).wrapping_mul(0x0000_0100_0000_01B3))
}

impl Indexed {
    /// The bytes of the file of such an index.
    pub(crate) fn file_size(&self) -> u64 {
        HEADER as u64 + self.starts() * START as u64
    }

    fn header(&self) -> Vec<u8> {
        let mut bytes = [MAGIC, &FORMAT.to_le_bytes()[..], &self.from.number().to_le_bytes()].concat();
        let numbers = [self.length, self.end, self.rows, self.declarations, self.starts()];
        bytes.extend(numbers.into_iter().flat_map(u64::to_le_bytes));
        let signature = fingerprint(&bytes);
        bytes.extend(signature.to_le_bytes());
        bytes
    }

    /// What the header at the front of these bytes says; they may be fewer than a header has.
    pub(crate) fn of_header(bytes: &[u8]) -> Result<Indexed, Misfit> {
        if bytes.is_empty() || !bytes.starts_with(&MAGIC[..MAGIC.len().min(bytes.len())]) {
            return Err(Misfit::NoIndex);
        }
        let four = |place| bytes.get(place..).and_then(<[u8]>::first_chunk).map(|bytes| u32::from_le_bytes(*bytes));
        if let Some(format) = four(MAGIC.len()).filter(|format| *format != FORMAT) {
            return Err(Misfit::OtherFormat { format });
        }
        let Some(header) = bytes.first_chunk::<HEADER>() else {
            return Err(Misfit::OtherSize { wanted: HEADER as u64, found: bytes.len() as u64 });
        };
        Indexed::of_whole_header(header).ok_or(Misfit::Damaged)
    }

    fn of_whole_header(header: &[u8; HEADER]) -> Option<Indexed> {
        let (signed, signature) = header.split_at(SIGNED);
        let numbers: Vec<u64> = signed[24..].as_chunks().0.iter().map(|bytes| u64::from_le_bytes(*bytes)).collect();
        let &[length, end, rows, declarations, starts] = &numbers[..] else {
            return None;
        };
        let from = Rows::numbered(u32::from_le_bytes(*signed[20..].first_chunk()?))?;
        let of = Indexed { from, length, end, rows, declarations };
        let can_be = rows <= end && end <= length && length <= INPUT_LIMIT as u64 && starts == of.starts();
        (can_be && from != Rows::TableData && signature == fingerprint(signed).to_le_bytes()).then_some(of)
    }

    /// Whether these can be all its starts.
    fn are_starts(&self, starts: &[u32]) -> bool {
        starts.iter().enumerate().all(|(place, start)| {
            let next = starts.get(place + 1).map_or(self.end, |next| u64::from(*next));
            self.can_be_part(place as u64, u64::from(*start), next)
        })
    }

    /// Whether the rows from this place's start on can stand between these two bytes: row 0 alone begins at 0, and each takes a byte at least.
    pub(crate) fn can_be_part(&self, place: u64, start: u64, next: u64) -> bool {
        (start == 0) == (place == 0) && next <= self.end && start + self.rows_of(place) <= next
    }

    /// How many rows stand from this place's start to the next.
    pub(crate) fn rows_of(&self, place: u64) -> u64 {
        (self.rows - place * ROWS_PER_START).min(ROWS_PER_START)
    }
}

impl Index {
    /// Writes it as a file has it.
    pub fn write(&self, mut output: impl Write) -> io::Result<()> {
        output.write_all(&self.of.header())?;
        for starts in self.starts.chunks(AT_ONCE) {
            output.write_all(&starts.iter().flat_map(|start| start.to_le_bytes()).collect::<Vec<u8>>())?;
        }
        output.flush()
    }

    /// An index as [`write`](Index::write) wrote it, all of it. Whether it fits a stream [`Indexed::fits`] says.
    pub fn read(mut input: impl Read) -> Result<Index, Error> {
        let mut header = Vec::new();
        input.by_ref().take(HEADER as u64).read_to_end(&mut header)?;
        let of = Indexed::of_header(&header)?;
        let (wanted, mut bytes) = (of.file_size() - HEADER as u64, Vec::new());
        bytes.try_reserve_exact(wanted as usize + 1)?;
        input.take(wanted + 1).read_to_end(&mut bytes)?;
        if bytes.len() as u64 != wanted {
            return Err(Misfit::OtherSize { wanted: of.file_size(), found: (HEADER + bytes.len()) as u64 }.into());
        }
        let starts: Vec<u32> = bytes.as_chunks().0.iter().map(|bytes| u32::from_le_bytes(*bytes)).collect();
        match of.are_starts(&starts) {
            true => Ok(Index { of, starts }),
            false => Err(Misfit::Damaged.into()),
        }
    }
}
