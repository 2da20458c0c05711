//! The cells of two inputs that differ, from the first to the last, in memory that does not grow with them. Both inputs become BINARY2 a
//! piece at a time, so that every cell has its place in bytes; which cells of a piece differ the proved archive says.

use sailmortar::{compare_to_vec, convert, convert_to_vec, Column, Error, Kind, Length, Place, Rows};

use crate::binary::{after_cell, after_row, flag_bytes};
use crate::report::{Stream, Value};

/// Room for a piece of either input.
const PIECE: usize = 1 << 20;

/// The bytes of a count.
const COUNT: usize = 4;

const EMPTY_HAS_NO_FORM: u64 = 14;
const CHARACTER_HAS_NO_FORM: u64 = 16;
const NO_ROOM: u64 = 17;

/// What a cell shows.
pub enum Shown {
    Null,
    Empty,
    /// As TABLEDATA writes it; a character that has no form there stands as itself.
    Text(Vec<u8>),
}

impl Shown {
    pub fn value(&self) -> Value {
        match self {
            Shown::Null => Value::Null,
            Shown::Empty => Value::Text(String::new()),
            Shown::Text(text) => Value::Text(String::from_utf8_lossy(text).into_owned()),
        }
    }
}

/// A cell that shows differently in two inputs.
pub struct Difference<'a> {
    pub row: u64,
    /// The column's place, from 0.
    pub place: usize,
    pub column: &'a Column,
    pub first: Shown,
    pub second: Shown,
}

/// How far the two inputs have been gone through.
pub struct Differing<'a> {
    decls: &'a [u8],
    columns: &'a [Column],
    first: Side<'a>,
    second: Side<'a>,
    /// How many rows stand before those that are looked at.
    before: u64,
    /// How many rows are looked at.
    rows: u64,
    /// Which cells of these differ.
    places: Vec<Place>,
}

impl<'a> Differing<'a> {
    /// At the start of both inputs, which are seen whole, and whose rows were all read well before.
    pub fn new(decls: &'a [u8], streams: [&Stream<'a>; 2]) -> Differing<'a> {
        let [first, second] = streams.map(|stream| Side::new(decls, stream));
        Differing { decls, columns: streams[0].columns, first, second, before: 0, rows: 0, places: Vec::new() }
    }

    /// Goes on to the next rows that both inputs have; false where there are none.
    pub fn next_rows(&mut self) -> Result<bool, Error> {
        self.before += self.rows;
        for side in [&mut self.first, &mut self.second] {
            side.leave_behind(self.rows);
            side.fill()?;
        }
        self.rows = self.first.rows.min(self.second.rows);
        let [first, second] = [&mut self.first, &mut self.second].map(|side| side.look_at(self.columns, self.rows));
        self.places.clear();
        compare_to_vec(self.decls, Rows::Binary2, first, Rows::Binary2, second, &mut self.places)?;
        Ok(self.rows > 0)
    }

    /// The places that differ among these rows, the first of which is row 0.
    pub fn places(&self) -> &[Place] {
        &self.places
    }

    /// What both inputs show at one of the places; asked for in their order.
    pub fn show(&mut self, place: usize) -> Result<Difference<'a>, Error> {
        let Place { row, column: place, .. } = self.places[place];
        let (columns, place) = (self.columns, place as usize);
        let column = &columns[place];
        let first = shown(column, self.first.cell(columns, row, place))?;
        let second = shown(column, self.second.cell(columns, row, place))?;
        Ok(Difference { row: self.before + u64::from(row), place, column, first, second })
    }
}

/// One of the two inputs, as rows of BINARY2.
struct Side<'a> {
    decls: &'a [u8],
    from: Rows,
    /// What of the input is still to be converted.
    rest: &'a [u8],
    room: Vec<u8>,
    /// How many rows stand in the room, and where they begin and end.
    rows: u64,
    start: usize,
    end: usize,
    /// Where the rows end that are looked at; a row among them, and where it begins.
    looked_at: usize,
    row: u32,
    row_start: usize,
}

impl<'a> Side<'a> {
    fn new(decls: &'a [u8], stream: &Stream<'a>) -> Side<'a> {
        let (from, rest) = (stream.from, stream.window.bytes);
        Side { decls, from, rest, room: Vec::new(), rows: 0, start: 0, end: 0, looked_at: 0, row: 0, row_start: 0 }
    }

    /// Lets go of the rows that were looked at, which are so many.
    fn leave_behind(&mut self, rows: u64) {
        self.rows -= rows;
        self.start = self.looked_at;
    }

    /// Converts the next piece, where no row is left of the one before.
    fn fill(&mut self) -> Result<(), Error> {
        (self.row, self.row_start) = (0, self.start);
        while self.rows == 0 && !self.rest.is_empty() {
            self.grow()?;
            let (rows, bytes, read) = match convert(self.decls, self.from, Rows::Binary2, self.rest, &mut self.room) {
                Ok(done) => (done.rows, done.bytes, self.rest.len()),
                Err(refused) if refused.number == NO_ROOM => (refused.rows, refused.bytes, refused.offset),
                Err(refused) => return Err(refused.into()),
            };
            (self.rows, self.start, self.end, self.row_start) = (rows, 0, bytes as usize, 0);
            self.rest = &self.rest[read..];
        }
        Ok(())
    }

    /// Makes room for a piece, and more each time that no row fits.
    fn grow(&mut self) -> Result<(), Error> {
        let room = if self.room.is_empty() || self.end > 0 { PIECE.max(self.room.len()) } else { 2 * self.room.len() };
        self.room.try_reserve_exact(room - self.room.len())?;
        self.room.resize(room, 0);
        self.end = 0;
        Ok(())
    }

    /// The bytes of the next rows, so many of those that are there.
    fn look_at(&mut self, columns: &[Column], rows: u64) -> &[u8] {
        let there = &self.room[self.start..self.end];
        self.looked_at = match rows == self.rows {
            true => self.end,
            false => self.end - (0..rows).fold(there, |rest, _| after_row(columns, Rows::Binary2, rest).unwrap_or_default()).len(),
        };
        &self.room[self.start..self.looked_at]
    }

    /// A cell of the rows that are looked at, or none where it is null. The row is none before the one that was asked for last.
    fn cell(&mut self, columns: &[Column], row: u32, place: usize) -> Option<&[u8]> {
        while self.row < row {
            let rest = after_row(columns, Rows::Binary2, &self.room[self.row_start..self.end])?;
            (self.row, self.row_start) = (self.row + 1, self.end - rest.len());
        }
        let bytes = &self.room[self.row_start..self.end];
        let is_null = bytes[place / 8] & (0x80 >> (place % 8)) != 0;
        let cells = columns[..place].iter().try_fold(&bytes[flag_bytes(columns, Rows::Binary2)..], after_cell)?;
        let cell = &cells[..cells.len() - after_cell(cells, &columns[place])?.len()];
        (!is_null).then_some(cell)
    }
}

/// What a cell of BINARY2 shows, asked of the converter as a table of one cell. What is null has its flag there, so that a declared null
/// need not be known.
fn shown(column: &Column, cell: Option<&[u8]>) -> Result<Shown, Error> {
    let Some(cell) = cell else {
        return Ok(Shown::Null);
    };
    let field = format!("<FIELD datatype='{}' arraysize='{}'/>", column.kind.name(), column.length);
    match text(field.as_bytes(), cell) {
        Ok(text) => Ok(Shown::Text(text)),
        Err(Error::Refused(refused)) if refused.number == EMPTY_HAS_NO_FORM => Ok(Shown::Empty),
        Err(Error::Refused(refused)) if refused.number == CHARACTER_HAS_NO_FORM => Ok(Shown::Text(characters(column, cell)?)),
        Err(error) => Err(error),
    }
}

/// The text that TABLEDATA has for a cell that is not null.
fn text(field: &[u8], cell: &[u8]) -> Result<Vec<u8>, Error> {
    let (mut line, unflagged) = (Vec::new(), [0]);
    convert_to_vec(field, Rows::Binary2, Rows::TableData, &[&unflagged, cell].concat(), &mut line)?;
    let text = line.strip_prefix(b"<TR><TD>").and_then(|line| line.strip_suffix(b"</TD></TR>\n"));
    Ok(text.unwrap_or_default().to_vec())
}

/// The same for a text of which some characters have no form: character by character.
fn characters(column: &Column, cell: &[u8]) -> Result<Vec<u8>, Error> {
    let content = if matches!(column.length, Length::Fixed(_)) { cell } else { &cell[COUNT..] };
    let field = format!("<FIELD datatype='{}'/>", Kind::Char.name());
    let mut shown = Vec::new();
    for character in content.iter().take_while(|byte| **byte != 0) {
        match text(field.as_bytes(), &[*character]) {
            Err(Error::Refused(_)) => shown.push(*character),
            text => shown.extend(text?),
        }
    }
    Ok(shown)
}
