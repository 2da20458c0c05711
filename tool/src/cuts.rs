//! Where an input is cut into parts. A cut is a guess that nothing relies on: a wrong one costs time and changes no answer.

use crate::{columns, Column, Kind, Length, Refused, Rows};

/// The bytes before the first counted cell of a row of BINARY or BINARY2, or between two of them; and that cell.
#[derive(Debug)]
struct Counted {
    bytes_before: usize,
    bound: usize,
    bits_of_element: usize,
}

#[derive(Debug)]
enum Shape {
    Text,
    Bytes { counted: Vec<Counted>, bytes_behind: usize },
}

/// How the rows of an input are told apart, and where it was said to be cut.
#[derive(Debug)]
pub struct Cuts<'a> {
    /// About how many bytes a part has.
    pub part: usize,
    /// Ascending; behind the last of them cuts are guessed.
    places: &'a [u64],
    shape: Shape,
}

impl<'a> Cuts<'a> {
    pub fn new(decls: &[u8], from: Rows, part: usize, places: &'a [u64]) -> Result<Cuts<'a>, Refused> {
        let columns = columns(decls)?;
        let shape = match from {
            Rows::TableData => Shape::Text,
            Rows::Binary => shape_of_bytes(&columns, 0),
            Rows::Binary2 => shape_of_bytes(&columns, columns.len().div_ceil(8)),
        };
        Ok(Cuts { part, places, shape })
    }

    /// How many of these bytes, which begin at `start`, are to be a part; none where there have to be more of them to tell.
    pub fn cut(&self, start: u64, bytes: &[u8]) -> Option<usize> {
        let next = self.places.partition_point(|place| *place <= start);
        let length = match &self.places[next..] {
            [] => self.guess(bytes)?,
            behind => {
                let reached = behind.partition_point(|place| *place - start <= bytes.len() as u64);
                // As many bytes as a part is to have, or, where no cut was given in so many, up to the first one.
                let last = if bytes.len() <= self.part { reached } else { reached.min(1) };
                (behind[last.checked_sub(1)?] - start) as usize
            }
        };
        Some(self.without_space_behind(&bytes[..length])).filter(|length| *length > 0)
    }

    /// White space before a row of TABLEDATA belongs to that row, and so to its part: a refusal tells where the row begins.
    fn without_space_behind(&self, bytes: &[u8]) -> usize {
        match self.shape {
            Shape::Text => bytes.iter().rposition(|byte| !matches!(byte, 9 | 10 | 13 | 32)).map_or(0, |last| last + 1),
            Shape::Bytes { .. } => bytes.len(),
        }
    }

    /// Where the last row in these bytes ends that is whole, if they are rows at all.
    fn guess(&self, bytes: &[u8]) -> Option<usize> {
        match &self.shape {
            Shape::Text => bytes.windows(3).rposition(|letters| letters == b"<TR"),
            Shape::Bytes { counted, bytes_behind } if counted.is_empty() => Some(bytes.len() - bytes.len() % bytes_behind),
            Shape::Bytes { counted, bytes_behind } => Some(whole_rows(counted, *bytes_behind, bytes)),
        }
    }
}

fn shape_of_bytes(columns: &[Column], flags: usize) -> Shape {
    let (mut counted, mut bytes_before) = (Vec::new(), flags);
    for column in columns {
        let (bound, bits_of_element) = (column.length.bound(), bits_of_element(column.kind));
        if let Length::Fixed(elements) = column.length {
            bytes_before += (elements * bits_of_element).div_ceil(8);
        } else {
            counted.push(Counted { bytes_before, bound, bits_of_element });
            bytes_before = 0;
        }
    }
    Shape::Bytes { counted, bytes_behind: bytes_before }
}

fn bits_of_element(kind: Kind) -> usize {
    match kind {
        Kind::Bit => 1,
        Kind::Boolean | Kind::UnsignedByte | Kind::Char => 8,
        Kind::Short => 16,
        Kind::Int => 32,
        Kind::Long => 64,
    }
}

/// How many bytes the whole rows take. A count over its bound is refused by the converter, so that it does not matter where the part ends.
fn whole_rows(counted: &[Counted], bytes_behind: usize, bytes: &[u8]) -> usize {
    let mut end = 0;
    loop {
        let mut at = end;
        for Counted { bytes_before, bound, bits_of_element } in counted {
            at += bytes_before;
            let Some(count) = bytes.get(at..).and_then(|rest| rest.first_chunk()) else { return end };
            let count = u32::from_be_bytes(*count) as usize;
            if count > *bound {
                return bytes.len();
            }
            at += 4 + (count * bits_of_element).div_ceil(8);
        }
        at += bytes_behind;
        if at > bytes.len() {
            return end;
        }
        end = at;
    }
}
