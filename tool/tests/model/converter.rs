//! The converter: declarations, then the size of the input, then row after row.

use super::text::is_white_space;
use super::{binary, declarations, refused, tabledata};
use super::{Answer, Cell, Column, Refused, Written, MOST_INPUT};

#[derive(Clone, Copy, Debug, PartialEq, Eq)]
pub enum Rows {
    TableData,
    Binary,
    Binary2,
}

pub const EVERY_KIND_OF_ROWS: [Rows; 3] = [Rows::TableData, Rows::Binary, Rows::Binary2];

impl Rows {
    pub fn number(self) -> u32 {
        match self {
            Rows::TableData => 0,
            Rows::Binary => 1,
            Rows::Binary2 => 2,
        }
    }
}

/// A conversion, and the place in its input where the rows done end: where the refused row begins, the white space
/// before a row of TABLEDATA belonging to that row; the length of the input where all is accepted; 0 where the refusal
/// stands before any row.
#[derive(Clone, Debug, PartialEq, Eq)]
pub struct Piece {
    pub written: Written,
    pub place: usize,
}

impl Piece {
    fn before_any_row(answer: Answer) -> Piece {
        Piece { written: Written::nothing(answer), place: 0 }
    }

    /// The five numbers of the answer, and sixth the place.
    pub fn six(&self) -> [u64; 6] {
        let [number, row, column, rows, bytes] = self.written.answer;
        [number, row, column, rows, bytes, self.place as u64]
    }
}

/// Converts into room for so many bytes.
pub fn convert(declarations: &[u8], from: Rows, to: Rows, input: &[u8], room: usize) -> Written {
    convert_piece(declarations, from, to, input, room).written
}

/// The same between kinds of rows by their numbers: one that is no kind's is 255, before anything else is judged.
pub fn convert_numbered(declarations: &[u8], from: u32, to: u32, input: &[u8], room: usize) -> Piece {
    let of = |number| EVERY_KIND_OF_ROWS.into_iter().find(|rows| rows.number() == number);
    match (of(from), of(to)) {
        (Some(from), Some(to)) => convert_piece(declarations, from, to, input, room),
        _ => Piece::before_any_row([255, 0, 0, 0, 0]),
    }
}

pub fn convert_piece(declarations: &[u8], from: Rows, to: Rows, input: &[u8], room: usize) -> Piece {
    let columns = match declarations::read(declarations) {
        Ok(columns) => columns,
        Err((number, place)) => return Piece::before_any_row([number, 0, place as u64, 0, 0]),
    };
    if input.len() > MOST_INPUT {
        return Piece::before_any_row([6, 0, 0, 0, 0]);
    }
    let (mut rows, mut at, mut bytes) = (0, 0, Vec::new());
    let (number, row, column, place) = loop {
        match convert_row(&columns, from, to, input, at, room - bytes.len()) {
            Ok(Some((written, end))) => {
                bytes.extend(written);
                at = end;
                rows += 1;
            }
            Ok(None) => break (0, 0, 0, input.len()),
            Err(Refused { number, column }) => break (number, rows, column as u64, at),
        }
    };
    Piece { written: Written { answer: [number, row, column, rows, bytes.len() as u64], bytes }, place }
}

/// Number, 0, place, columns, 0.
pub fn declare(declarations: &[u8]) -> Answer {
    match declarations::read(declarations) {
        Ok(columns) => [0, 0, 0, columns.len() as u64, 0],
        Err((number, place)) => [number, 0, place as u64, 0, 0],
    }
}

/// Reads one row whole and then writes it whole: its bytes and the end of the row read, or nothing at the end of
/// the input.
fn convert_row(
    columns: &[Column],
    from: Rows,
    to: Rows,
    input: &[u8],
    at: usize,
    room: usize,
) -> Result<Option<(Vec<u8>, usize)>, Refused> {
    let Some((cells, end)) = read_row(columns, from, input, at)? else {
        return Ok(None);
    };
    let row = write_row(columns, to, &cells)?;
    if row.len() > room {
        return refused(17, 0);
    }
    Ok(Some((row, end)))
}

/// The cells of the next row and where it ends, or nothing at the end of the input.
pub fn read_row(columns: &[Column], from: Rows, input: &[u8], mut at: usize) -> Result<Option<(Vec<Cell>, usize)>, Refused> {
    if from == Rows::TableData {
        while input.get(at).is_some_and(|byte| is_white_space(*byte)) {
            at += 1;
        }
    }
    if at == input.len() {
        return Ok(None);
    }
    match from {
        Rows::TableData => tabledata::read_row(columns, input, at),
        Rows::Binary => binary::read_row(columns, false, input, at),
        Rows::Binary2 => binary::read_row(columns, true, input, at),
    }
    .map(Some)
}

pub fn write_row(columns: &[Column], to: Rows, cells: &[Cell]) -> Result<Vec<u8>, Refused> {
    match to {
        Rows::TableData => tabledata::write_row(columns, cells),
        Rows::Binary => binary::write_row(columns, false, cells),
        Rows::Binary2 => binary::write_row(columns, true, cells),
    }
}
