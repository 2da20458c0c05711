//! Questions to the proved converter about parts of a refused cell, so that nothing is judged a second time here.

use sailmortar::{convert, Kind, Rows};

use crate::binary::content_bytes;

/// The most parts of a cell that are asked about, and the most bytes of a text that is counted: a message is not worth more.
const MOST_PARTS: usize = 4096;
const MOST_TEXT: usize = 1 << 20;

/// Bytes of a part that are looked at. No word, character or reference has as many, so that a longer one is refused for its start.
const MOST_OF_A_PART: usize = 1024;

/// The bytes of a count.
const COUNT: usize = 4;

/// A refusal to look for: its number, in cells of one element of this kind, between these kinds of rows.
#[derive(Clone, Copy)]
pub struct Probe {
    pub number: u64,
    pub kind: Kind,
    pub from: Rows,
    pub to: Rows,
}

impl Probe {
    /// The first part that is refused so where it is a cell by itself, and how many parts stand before it.
    pub fn first<'a>(self, parts: impl Iterator<Item = &'a [u8]>) -> Option<(usize, &'a [u8])> {
        let field = format!("<FIELD datatype='{}'/>", self.kind.name());
        let is_refused = |part: &[u8]| {
            let row = self.row(&part[..part.len().min(MOST_OF_A_PART)]);
            let answer = convert(field.as_bytes(), self.from, self.to, &row, &mut [0; 64]);
            answer.is_err_and(|refused| refused.number == self.number)
        };
        parts.take(MOST_PARTS).enumerate().find(|(_, part)| is_refused(part))
    }

    fn row(self, part: &[u8]) -> Vec<u8> {
        match self.from {
            Rows::TableData => row_of(part),
            _ => part.to_vec(),
        }
    }
}

fn row_of(text: &[u8]) -> Vec<u8> {
    [b"<TR><TD>", text, b"</TD></TR>"].concat()
}

/// How many elements a cell has.
pub enum Count {
    Is(u64),
    /// More than any cell may have.
    Over(u64),
}

const MOST_ELEMENTS: usize = 4096;

/// How many elements stand in the text of a cell: the count that the converter writes of it where a column is free.
pub fn elements(kind: Kind, text: &[u8]) -> Option<Count> {
    if text.len() > MOST_TEXT {
        return None;
    }
    let field = format!("<FIELD datatype='{}' arraysize='*'/>", kind.name());
    let mut out = vec![0; COUNT + content_bytes(kind, MOST_ELEMENTS)];
    match convert(field.as_bytes(), Rows::TableData, Rows::Binary, &row_of(text), &mut out) {
        Ok(_) => out.first_chunk::<COUNT>().map(|count| Count::Is(u64::from(u32::from_be_bytes(*count)))),
        Err(refused) if refused.number == 12 => Some(Count::Over(MOST_ELEMENTS as u64)),
        Err(_) => None,
    }
}
