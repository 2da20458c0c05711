//! Where two inputs of rows differ: how many cells, which of them, and how many rows one has beyond the other.

use std::fmt;

use crate::proved::compare_behind;
use crate::{Error, Refused, Rows};

/// Places for which there is room before it is known how many there are: most nights that differ differ in few cells.
const FEW: usize = 1024;

/// How two inputs compare, whether they show the same or not.
#[derive(Clone, Copy, Debug, PartialEq, Eq, Default)]
#[non_exhaustive]
pub struct Comparison {
    /// How many cells show differently, in the rows that both inputs have; all of them, however many places there was room for.
    pub differing: u64,
    /// How many rows the first input has beyond the second.
    pub first_beyond: u64,
    /// How many rows the second input has beyond the first.
    pub second_beyond: u64,
    /// How many places were filled: the first ones that differ.
    pub places: usize,
}

impl Comparison {
    /// Whether both inputs have the same rows, showing the same cells.
    pub fn is_same(&self) -> bool {
        self.differing == 0 && self.first_beyond == 0 && self.second_beyond == 0
    }
}

/// Where a cell stands, row and column from 0.
// Two numbers, one behind the other, are how the proved function fills a place.
#[repr(C)]
#[derive(Clone, Copy, Debug, PartialEq, Eq, PartialOrd, Ord, Hash, Default)]
pub struct Place {
    pub row: u32,
    pub column: u32,
}

/// Which part of what is compared is refused.
#[derive(Clone, Copy, Debug, PartialEq, Eq)]
pub enum Input {
    /// The declarations, which both inputs share.
    Declarations,
    First,
    Second,
}

/// A refusal, and which input it is of. The first input is judged whole before the second.
#[derive(Clone, Copy, Debug, PartialEq, Eq)]
#[non_exhaustive]
pub struct RefusedInput {
    pub input: Input,
    /// Its rows, bytes and offset are 0; [`convert`](crate::convert) of that input to BINARY2 is refused there, too, and tells them.
    pub refused: Refused,
}

impl fmt::Display for RefusedInput {
    fn fmt(&self, f: &mut fmt::Formatter) -> fmt::Result {
        match self.input {
            Input::Declarations => self.refused.fmt(f),
            Input::First => write!(f, "the first input: {}", self.refused),
            Input::Second => write!(f, "the second input: {}", self.refused),
        }
    }
}

impl std::error::Error for RefusedInput {}

/// [`compare`](crate::compare) with as much room as it takes: every place that differs goes to the end of `places`.
///
/// ```
/// # fn main() -> Result<(), sailmortar::Error> {
/// use sailmortar::{compare_to_vec, Place, Rows};
///
/// let fields = b"<FIELD datatype='short'/><FIELD datatype='char' arraysize='4'/>";
/// let text = b"<TR><TD>+7</TD><TD>dusk</TD></TR><TR><TD>8</TD><TD>dawn</TD></TR>";
/// let mut places = Vec::new();
/// let compared = compare_to_vec(fields, Rows::TableData, text, Rows::Binary, b"\0\x07dawn", &mut places)?;
/// assert_eq!(places, [Place { row: 0, column: 1 }]);
/// assert_eq!((compared.differing, compared.first_beyond, compared.second_beyond), (1, 1, 0));
/// # Ok(())
/// # }
/// ```
///
/// Where it does not end well, `places` is as it was. Where more than a thousand places differ, and there was no room behind `places`, both
/// inputs are read a second time.
pub fn compare_to_vec(
    decls: &[u8],
    from_first: Rows,
    first: &[u8],
    from_second: Rows,
    second: &[u8],
    places: &mut Vec<Place>,
) -> Result<Comparison, Error> {
    let before = places.len();
    places.try_reserve(FEW)?;
    let compared = compare_behind(decls, from_first, first, from_second, second, places)?;
    if compared.places as u64 == compared.differing {
        return Ok(compared);
    }
    places.truncate(before);
    places.try_reserve_exact(compared.differing as usize)?;
    Ok(compare_behind(decls, from_first, first, from_second, second, places)?)
}
