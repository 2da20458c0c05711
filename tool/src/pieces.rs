//! Conversion that makes its own room: to the end of a Vec, or in pieces, so that memory holds the input and one piece of the output.
//!
//! The proved converter stops with refusal 17 where the room is full, with the rows before it written whole, and says where they end. It is
//! then called again on the input behind them, and the calls are joined (joined.rs).

use std::io;

use crate::joined::Joined;
use crate::way::Way;
use crate::{convert, Done, Error, Refused, Rows, INPUT_LIMIT};

/// A piece of the output, and how far the conversion has come with it.
#[derive(Clone, Copy, Debug)]
#[non_exhaustive]
pub struct Piece<'a> {
    /// Whole rows.
    pub bytes: &'a [u8],
    /// The rows done, those of this piece among them.
    pub rows: u64,
    /// The bytes of the input that those rows were read from.
    pub read: usize,
}

/// Converts rows and hands the output to `sink` in pieces of about `room` bytes, whole rows each. An error of `sink` ends the conversion.
pub fn convert_pieces(
    decls: &[u8],
    from: Rows,
    to: Rows,
    input: &[u8],
    room: usize,
    mut sink: impl FnMut(Piece) -> io::Result<()>,
) -> Result<Done, Error> {
    let mut course = Course::new(Way { decls, from, to }, input)?;
    let mut out = Vec::new();
    out.try_reserve_exact(room.max(1))?;
    loop {
        let outcome = course.go_on(&mut out);
        if !out.is_empty() {
            sink(Piece { bytes: &out, rows: course.joined.rows(), read: course.joined.place() as usize })?;
        }
        match outcome {
            Some(outcome) => return Ok(outcome?),
            None if out.is_empty() => out.try_reserve_exact(2 * out.capacity())?,
            None => out.clear(),
        }
    }
}

/// [`convert`](crate::convert) to the end of `out`, with as much room as it takes. Accepted or refused, the rows done stand there.
pub fn convert_to_vec(decls: &[u8], from: Rows, to: Rows, input: &[u8], out: &mut Vec<u8>) -> Result<Done, Error> {
    let mut course = Course::new(Way { decls, from, to }, input)?;
    out.try_reserve(input.len() + 4096)?;
    loop {
        match course.go_on(out) {
            Some(outcome) => return Ok(outcome?),
            None => out.try_reserve(2 * (out.capacity() - out.len()) + 4096)?,
        }
    }
}

/// How far a conversion has come.
struct Course<'a> {
    way: Way<'a>,
    input: &'a [u8],
    joined: Joined,
}

impl<'a> Course<'a> {
    fn new(way: Way<'a>, input: &'a [u8]) -> Result<Course<'a>, Refused> {
        if input.len() > INPUT_LIMIT {
            // It is refused before any row, and there is nothing to join.
            convert(way.decls, way.from, way.to, input, &mut [])?;
        }
        Ok(Course { way, input, joined: Joined::default() })
    }

    /// Converts what is left of the input into the room behind `out`; the outcome of the whole where that is its end, or nothing where the room is
    /// full.
    fn go_on(&mut self, out: &mut Vec<u8>) -> Option<Result<Done, Refused>> {
        let start = self.joined.place();
        let call = self.way.call(start, &self.input[start as usize..], out);
        self.joined.join(Some(self.input.len() as u64), &[call]);
        self.joined.outcome()
    }
}
