//! An index of a stream: where every 64th row begins. And a row fetched by it.

use super::converter::{read_row, write_row, Rows};
use super::{declarations, refused, Answer, Column, Refused, Written, MOST_INPUT};

/// The rows from one start to the next.
pub const ROWS_PER_START: u64 = 64;

/// What indexing answers, and the starts that it puts at the front of the places; every other place stays as it was.
#[derive(Clone, Debug, PartialEq, Eq)]
pub struct Indexed {
    pub answer: Answer,
    pub starts: Vec<u32>,
}

impl Indexed {
    pub fn rows(&self) -> u64 {
        self.answer[3]
    }
}

/// Indexes into so many places. The kind of rows is one by its number: only BINARY and BINARY2 have an index.
pub fn index(declarations: &[u8], from: u32, input: &[u8], places: usize) -> Indexed {
    let (columns, from) = match front(declarations, from, input) {
        Ok(front) => front,
        Err(answer) => return Indexed { answer, starts: Vec::new() },
    };
    let (mut at, mut rows, mut starts) = (0, 0, Vec::new());
    let (number, row, column) = loop {
        let end = match read_row(&columns, from, input, at) {
            Ok(Some((_, end))) => end,
            Ok(None) => break (0, 0, 0),
            Err(Refused { number, column }) => break (number, rows, column as u64),
        };
        if rows % ROWS_PER_START == 0 {
            if starts.len() == places {
                break (17, rows, 0);
            }
            starts.push(at as u32);
        }
        at = end;
        rows += 1;
    };
    Indexed { answer: [number, row, column, rows, 0], starts }
}

/// Fetches into room for so many bytes, by any index and count of rows.
pub fn fetch(declarations: &[u8], from: u32, input: &[u8], starts: &[u32], rows: u64, row: u64, room: usize) -> Written {
    let (columns, from) = match front(declarations, from, input) {
        Ok(front) => front,
        Err(answer) => return Written::nothing(answer),
    };
    let start = usize::try_from(row / ROWS_PER_START).ok().and_then(|place| starts.get(place));
    let Some(start) = start.filter(|_| row < rows) else {
        return Written::nothing([20, row, 0, 0, 0]);
    };
    match line(&columns, from, input, *start as usize, row % ROWS_PER_START, room) {
        Ok(bytes) => Written { answer: [0, 0, 0, 1, bytes.len() as u64], bytes },
        Err(Refused { number, column }) => Written::nothing([number, row, column as u64, 0, 0]),
    }
}

/// The row behind so many others from a byte on, written as TABLEDATA.
fn line(columns: &[Column], from: Rows, input: &[u8], start: usize, others: u64, room: usize) -> Result<Vec<u8>, Refused> {
    let mut at = start.min(input.len());
    for others_left in (0..=others).rev() {
        // Where nothing is left there is no row, and a row is asked for.
        let Some((cells, end)) = read_row(columns, from, input, at)? else {
            return refused(8, 0);
        };
        if others_left == 0 {
            let line = write_row(columns, Rows::TableData, &cells)?;
            return if line.len() > room { refused(17, 0) } else { Ok(line) };
        }
        at = end;
    }
    unreachable!("the last turn has the row")
}

/// What is judged before any row: the kind, the declarations, the size.
fn front(declarations: &[u8], from: u32, input: &[u8]) -> Result<(Vec<Column>, Rows), Answer> {
    let from = [Rows::Binary, Rows::Binary2].into_iter().find(|rows| rows.number() == from).ok_or([255, 0, 0, 0, 0])?;
    let columns = declarations::read(declarations).map_err(|(number, place)| [number, 0, place as u64, 0, 0])?;
    match input.len() > MOST_INPUT {
        true => Err([6, 0, 0, 0, 0]),
        false => Ok((columns, from)),
    }
}
