//! Two inputs compared: each read whole, the first before the second, then cell beside cell.

use super::converter::{read_row, Rows, EVERY_KIND_OF_ROWS};
use super::{declarations, Cell, Column, Refused, MOST_INPUT};

/// What comparing answers, and the numbers that it puts at the front of the buffer; every other number stays as it was.
#[derive(Clone, Debug, PartialEq, Eq)]
pub struct Compared {
    /// Number, row, column, which input, cells that differ, rows of the first beyond, rows of the second beyond, places filled.
    pub answer: [u64; 8],
    pub numbers: Vec<u32>,
}

impl Compared {
    fn refused(number: u64, row: u64, column: u64, input: u64) -> Compared {
        Compared { answer: [number, row, column, input, 0, 0, 0, 0], numbers: Vec::new() }
    }
}

/// Compares with a buffer of so many numbers. The kinds of rows are some by their numbers: one that is no kind's is 255.
pub fn compare(declarations: &[u8], from: [u32; 2], inputs: [&[u8]; 2], length: usize) -> Compared {
    let of = |number| EVERY_KIND_OF_ROWS.into_iter().find(|rows| rows.number() == number);
    let [Some(from_first), Some(from_second)] = from.map(of) else {
        return Compared::refused(255, 0, 0, 0);
    };
    let columns = match declarations::read(declarations) {
        Ok(columns) => columns,
        Err((number, place)) => return Compared::refused(number, 0, place as u64, 0),
    };
    let first = match read_whole(&columns, from_first, inputs[0]) {
        Ok(rows) => rows,
        Err((number, row, column)) => return Compared::refused(number, row, column, 0),
    };
    let second = match read_whole(&columns, from_second, inputs[1]) {
        Ok(rows) => rows,
        Err((number, row, column)) => return Compared::refused(number, row, column, 1),
    };
    let places = differing(&first, &second);
    let filled = places.len().min(length / 2);
    let beyond = |one: &[Vec<Cell>], other: &[Vec<Cell>]| one.len().saturating_sub(other.len()) as u64;
    let counts = [places.len() as u64, beyond(&first, &second), beyond(&second, &first), filled as u64];
    let [cells, first_beyond, second_beyond, filled_places] = counts;
    Compared {
        answer: [0, 0, 0, 0, cells, first_beyond, second_beyond, filled_places],
        numbers: places[..filled].iter().flat_map(|(row, column)| [*row as u32, *column as u32]).collect(),
    }
}

/// Every row of an input, or its refusal: number, row, column.
fn read_whole(columns: &[Column], from: Rows, input: &[u8]) -> Result<Vec<Vec<Cell>>, (u64, u64, u64)> {
    if input.len() > MOST_INPUT {
        return Err((6, 0, 0));
    }
    let (mut rows, mut at) = (Vec::new(), 0);
    loop {
        match read_row(columns, from, input, at) {
            Ok(Some((cells, end))) => {
                rows.push(cells);
                at = end;
            }
            Ok(None) => return Ok(rows),
            Err(Refused { number, column }) => return Err((number, rows.len() as u64, column as u64)),
        }
    }
}

/// The places of all cells that show differently in rows that both have, row after row and in each from left to right.
fn differing(first: &[Vec<Cell>], second: &[Vec<Cell>]) -> Vec<(usize, usize)> {
    let mut places = Vec::new();
    for (row, (cells, others)) in first.iter().zip(second).enumerate() {
        for (column, (cell, other)) in cells.iter().zip(others).enumerate() {
            if cell != other {
                places.push((row, column));
            }
        }
    }
    places
}
