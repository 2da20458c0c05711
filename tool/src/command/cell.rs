//! What stands where a row is refused: the cell, or what should be one, found by a walk over the cells before it. The proved converter has
//! judged the row; this layer only shows.

use sailmortar::{Column, Kind, Length, Refused, Rows};

use crate::probe::Count;
use crate::report::Stream;
use crate::shown::{counted, number, ordinal};
use crate::{binary, tabledata};

/// The part of a row that a refusal is about.
#[derive(Clone, Copy, Debug, PartialEq, Eq)]
pub enum Place {
    /// Where the row should begin, and does not.
    Start,
    /// The flags of a row of BINARY2.
    Flags,
    /// A cell, or where it should begin.
    Cell,
    /// Behind the last cell.
    End,
}

impl Place {
    pub fn name(self) -> &'static str {
        match self {
            Place::Start => "start",
            Place::Flags => "flags",
            Place::Cell => "cell",
            Place::End => "end",
        }
    }
}

/// What stands at the place of a refusal.
pub struct Standing<'a> {
    pub place: Place,
    /// Where that place begins in the input.
    pub byte: usize,
    /// What is there, in words: the column's kind, what the cell holds, and what was wanted.
    pub words: String,
    /// What is there, for a program: text as it stands, or hexadigits.
    pub shown: String,
    /// The input from the fault on, where that is the tags' or references' fault.
    pub fault: Option<&'a [u8]>,
}

/// What stands where a row is refused; none where that cannot be found.
pub fn standing<'a>(stream: &Stream<'a>, refused: &Refused) -> Option<Standing<'a>> {
    match (refused.number, stream.from) {
        (8..=16 | 18, Rows::TableData) => tabledata::standing(stream, refused),
        (8..=16, _) => binary::standing(stream, refused),
        _ => None,
    }
}

/// A column's kind, with its length as the FIELD has it where that is not one element.
pub fn label(column: &Column) -> String {
    match column.length {
        Length::Fixed(1) => column.kind.name().to_string(),
        length => format!("{} {length}", column.kind.name()),
    }
}

/// The name of a column's elements, for one and for many.
pub fn noun(kind: Kind) -> (&'static str, &'static str) {
    match kind {
        Kind::Char => ("character", "characters"),
        Kind::Bit => ("bit", "bits"),
        _ => ("element", "elements"),
    }
}

/// Which element is at fault, as words that follow the cell.
pub fn element_is(kind: Kind, place: usize, shown: &str) -> String {
    format!(", its {} {} is {shown}", ordinal(place as u64 + 1), noun(kind).0)
}

/// From where to where the integers of a kind go, as words that follow the cell; none for a kind of other values.
pub fn range_is(kind: Kind) -> String {
    let (integer, least, greatest) = match kind {
        Kind::UnsignedByte => ("an unsignedByte", i64::from(u8::MIN), i64::from(u8::MAX)),
        Kind::Short => ("a short", i64::from(i16::MIN), i64::from(i16::MAX)),
        Kind::Int => ("an int", i64::from(i32::MIN), i64::from(i32::MAX)),
        Kind::Long => ("a long", i64::MIN, i64::MAX),
        _ => return String::new(),
    };
    format!(" where {integer} goes from {least} to {greatest}")
}

/// How many elements there are and how many a column takes, as words that follow the cell.
pub fn elements_are(column: &Column, count: Count) -> String {
    let (one, many) = noun(column.kind);
    let there = match count {
        Count::Is(elements) => counted(elements, one, many),
        Count::Over(elements) => format!("more than {}", counted(elements, one, many)),
    };
    let is_exact = column.kind != Kind::Char && matches!(column.length, Length::Fixed(_));
    let most = if is_exact { "" } else { "at most " };
    format!(", {there} where the column takes {most}{}", number(column.length.bound() as u64))
}

/// What a cell shows and where it goes, as words that follow the column's kind, for a cell that the target has no form for.
pub fn shows(column: &Column, number: u64, to: Rows) -> String {
    let what = match (number, column.kind) {
        (14, Kind::Char) => "an empty text",
        (14, _) => "no element",
        _ => "null",
    };
    format!(", shows {what} and goes to {to}")
}
