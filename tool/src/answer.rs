//! What comes back: kinds of rows, what was done, and refusals with what they mean.

use std::collections::TryReserveError;
use std::fmt;
use std::io;

use crate::numbers::meaning;
use crate::{Misfit, RefusedInput};

/// A kind of rows.
#[derive(Clone, Copy, Debug, PartialEq, Eq)]
#[non_exhaustive]
pub enum Rows {
    /// Text: TR and TD elements.
    TableData,
    /// Bytes, with no sign for null but a declared value.
    Binary,
    /// Bytes, with a flag for each null.
    Binary2,
}

impl Rows {
    /// All of them, in the order of their numbers.
    pub const ALL: &'static [Rows] = &[Rows::TableData, Rows::Binary, Rows::Binary2];

    pub(crate) fn number(self) -> u32 {
        match self {
            Rows::TableData => 0,
            Rows::Binary => 1,
            Rows::Binary2 => 2,
        }
    }

    pub(crate) fn numbered(number: u32) -> Option<Rows> {
        Rows::ALL.iter().copied().find(|rows| rows.number() == number)
    }

    /// The kind of this name (`tabledata`, `binary` or `binary2`, in any capitals).
    pub fn named(name: &str) -> Option<Rows> {
        Rows::ALL.iter().copied().find(|rows| rows.name().eq_ignore_ascii_case(name))
    }

    /// The name as VOTable writes it.
    pub fn name(self) -> &'static str {
        match self {
            Rows::TableData => "TABLEDATA",
            Rows::Binary => "BINARY",
            Rows::Binary2 => "BINARY2",
        }
    }
}

impl fmt::Display for Rows {
    fn fmt(&self, f: &mut fmt::Formatter) -> fmt::Result {
        f.write_str(self.name())
    }
}

/// All that was given is accepted and written.
#[derive(Clone, Copy, Debug, PartialEq, Eq, Default)]
#[non_exhaustive]
pub struct Done {
    /// How many rows were read and written, or read for an index; 0 for a base64 step.
    pub rows: u64,
    /// How many bytes were written, none for an index; every byte of a lent buffer after them is as it was.
    pub bytes: u64,
}

/// Why and where a call stopped, and what stands before that.
#[derive(Clone, Copy, Debug, PartialEq, Eq)]
#[non_exhaustive]
pub struct Refused {
    /// The refusal's number; [`NUMBERS`](crate::NUMBERS) has them all.
    pub number: u64,
    /// The refused row, from 0.
    pub row: u64,
    /// The refused column, from 0; for refusals 1 to 5 the number of whole FIELDs before the refused element.
    pub column: u64,
    /// How many rows before the refused one are written whole, or read for an index; 0 where one row was asked for, or two inputs were
    /// compared.
    pub rows: u64,
    /// How many bytes they take; every byte of a lent buffer after them is as it was.
    pub bytes: u64,
    /// Where in the input those rows end and the refused row begins. White space before a row of TABLEDATA belongs to that row. It is 0 where
    /// no row was read (1 to 7), where one row was asked for, and where two inputs were compared.
    pub offset: usize,
}

impl Refused {
    /// Whether a row is refused, and not declarations, a size, base64 or a kind, which are judged before any row.
    pub(crate) fn is_of_a_row(&self) -> bool {
        !matches!(self.number, 1..=7 | 255)
    }

    /// What the number means, in a line.
    pub fn meaning(&self) -> &'static str {
        meaning(self.number).unwrap_or("no refusal of this number is known")
    }
}

impl fmt::Display for Refused {
    fn fmt(&self, f: &mut fmt::Formatter) -> fmt::Result {
        let Refused { number, row, column, .. } = self;
        match number {
            1..=5 => {
                let whole = if *column == 1 { "FIELD" } else { "FIELDs" };
                write!(f, "refusal {number} in the declarations, at the element after {column} whole {whole}: {}", self.meaning())
            }
            6 | 7 | 255 => write!(f, "refusal {number}: {}", self.meaning()),
            _ => write!(f, "refusal {number} at row {row}, column {column}: {}", self.meaning()),
        }
    }
}

impl std::error::Error for Refused {}

/// Why a call that makes its own room, or reads and writes by itself, did not end well.
#[derive(Debug)]
#[non_exhaustive]
pub enum Error {
    /// The input is refused; the rows before the refused one stand in the output.
    Refused(Refused),
    /// One of two inputs is refused, and they are not compared.
    RefusedInput(RefusedInput),
    /// The system said no: there is no memory, or a reader or a writer failed.
    System(io::Error),
    /// An index is none, or not of this stream under these declarations, and is not used.
    Misfit(Misfit),
}

impl Error {
    /// The refusal, if it is one.
    pub fn refused(&self) -> Option<&Refused> {
        match self {
            Error::Refused(refused) => Some(refused),
            Error::RefusedInput(refused) => Some(&refused.refused),
            Error::System(_) | Error::Misfit(_) => None,
        }
    }
}

impl fmt::Display for Error {
    fn fmt(&self, f: &mut fmt::Formatter) -> fmt::Result {
        match self {
            Error::Refused(refused) => refused.fmt(f),
            Error::RefusedInput(refused) => refused.fmt(f),
            Error::System(cause) => cause.fmt(f),
            Error::Misfit(misfit) => misfit.fmt(f),
        }
    }
}

impl std::error::Error for Error {
    /// What is shown is the refusal, or the system's error, itself: its source is that one's own.
    fn source(&self) -> Option<&(dyn std::error::Error + 'static)> {
        match self {
            Error::Refused(refused) => refused.source(),
            Error::RefusedInput(refused) => refused.source(),
            Error::System(cause) => cause.source(),
            Error::Misfit(misfit) => misfit.source(),
        }
    }
}

impl From<Refused> for Error {
    fn from(refused: Refused) -> Error {
        Error::Refused(refused)
    }
}

impl From<RefusedInput> for Error {
    fn from(refused: RefusedInput) -> Error {
        Error::RefusedInput(refused)
    }
}

impl From<Misfit> for Error {
    fn from(misfit: Misfit) -> Error {
        Error::Misfit(misfit)
    }
}

impl From<io::Error> for Error {
    fn from(cause: io::Error) -> Error {
        Error::System(cause)
    }
}

impl From<TryReserveError> for Error {
    fn from(cause: TryReserveError) -> Error {
        Error::System(cause.into())
    }
}
