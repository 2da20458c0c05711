//! Rows of BINARY and BINARY2.

use super::{refused, Cell, Column, Kind, Length, Refused, FALSE, TRUE, UNKNOWN};

/// Reads the row that begins at `start`: its cells and where it ends.
pub fn read_row(columns: &[Column], flagged: bool, input: &[u8], start: usize) -> Result<(Vec<Cell>, usize), Refused> {
    let mut stream = Stream { input, at: start };
    let flags = if flagged { stream.flags(columns.len())? } else { vec![false; columns.len()] };
    let mut cells = Vec::new();
    for (place, column) in columns.iter().enumerate() {
        let cell = stream.cell(column, flagged, flags[place]);
        cells.push(cell.map_err(|number| Refused { number, column: place })?);
    }
    Ok((cells, stream.at))
}

struct Stream<'a> {
    input: &'a [u8],
    at: usize,
}

impl<'a> Stream<'a> {
    fn take(&mut self, size: usize) -> Result<&'a [u8], u64> {
        let rest = &self.input[self.at..];
        if rest.len() < size {
            return Err(8);
        }
        self.at += size;
        Ok(&rest[..size])
    }

    /// The first column in the highest bit; the bits behind the last column must be 0.
    fn flags(&mut self, columns: usize) -> Result<Vec<bool>, Refused> {
        let bytes = self.take(columns.div_ceil(8)).map_err(|number| Refused { number, column: 0 })?;
        let mut flags = bits(bytes);
        let spare = flags.split_off(columns);
        if spare.contains(&true) {
            return refused(13, 0);
        }
        Ok(flags)
    }

    fn cell(&mut self, column: &Column, flagged_kind: bool, flag: bool) -> Result<Cell, u64> {
        let count = match column.length {
            Length::Fixed(elements) => elements,
            Length::Bounded(_) | Length::Free => self.count(column.bound())?,
        };
        let content = self.take(column.content_size(count))?;
        if flag {
            return Ok(Cell::Null);
        }
        let elements = elements(column.kind, count, content)?;
        if elements.is_empty() && !flagged_kind {
            return Ok(Cell::Null);
        }
        Ok(column.shown(elements))
    }

    fn count(&mut self, bound: usize) -> Result<usize, u64> {
        let count = big_endian(self.take(4)?);
        if count > bound as u64 {
            return Err(9);
        }
        Ok(count as usize)
    }
}

fn big_endian(bytes: &[u8]) -> u64 {
    bytes.iter().fold(0, |value, byte| value << 8 | u64::from(*byte))
}

fn bits(bytes: &[u8]) -> Vec<bool> {
    bytes.iter().flat_map(|byte| (0..8).map(move |place| byte & (0x80 >> place) != 0)).collect()
}

fn elements(kind: Kind, count: usize, content: &[u8]) -> Result<Vec<i64>, u64> {
    match kind {
        Kind::Bit => {
            let bits = bits(content);
            if bits[count..].contains(&true) {
                return Err(13);
            }
            Ok(bits[..count].iter().map(|bit| i64::from(*bit)).collect())
        }
        Kind::Boolean => content.iter().map(|byte| boolean(*byte)).collect(),
        Kind::Char => {
            let shown = content.split(|byte| *byte == 0).next().unwrap_or(&[]);
            if shown.iter().any(|byte| *byte >= 128) {
                return Err(11);
            }
            Ok(shown.iter().map(|byte| i64::from(*byte)).collect())
        }
        _ => Ok(content.chunks(kind.width()).map(|bytes| integer(kind, bytes)).collect()),
    }
}

fn boolean(byte: u8) -> Result<i64, u64> {
    match byte {
        b'T' | b't' | b'1' => Ok(TRUE),
        b'F' | b'f' | b'0' => Ok(FALSE),
        0x00 | 0x20 | 0x3F => Ok(UNKNOWN),
        _ => Err(11),
    }
}

fn integer(kind: Kind, bytes: &[u8]) -> i64 {
    let value = big_endian(bytes);
    match kind {
        Kind::Short => i64::from(value as u16 as i16),
        Kind::Int => i64::from(value as u32 as i32),
        _ => value as i64,
    }
}

/// The bytes of a row of BINARY (`flagged` false) or BINARY2 (`flagged` true).
pub fn write_row(columns: &[Column], flagged: bool, cells: &[Cell]) -> Result<Vec<u8>, Refused> {
    let mut row = vec![0; if flagged { columns.len().div_ceil(8) } else { 0 }];
    for (place, (column, cell)) in columns.iter().zip(cells).enumerate() {
        match cell {
            Cell::Null if flagged => {
                row[place / 8] |= 0x80 >> (place % 8);
                match column.length {
                    Length::Fixed(elements) => row.resize(row.len() + column.content_size(elements), 0),
                    Length::Bounded(_) | Length::Free => row.extend([0; 4]),
                }
            }
            Cell::Null => match null_in_binary(column) {
                Some(bytes) => row.extend(bytes),
                None => return refused(15, place),
            },
            Cell::Shown(elements) if elements.is_empty() && !flagged => return refused(14, place),
            Cell::Shown(elements) => write_elements(column, elements, &mut row),
        }
    }
    Ok(row)
}

fn null_in_binary(column: &Column) -> Option<Vec<u8>> {
    match (column.length, column.kind) {
        (Length::Bounded(_) | Length::Free, _) => Some(vec![0; 4]),
        (Length::Fixed(elements), Kind::Char) => Some(vec![0; elements]),
        (Length::Fixed(1), Kind::Boolean) => Some(vec![b'?']),
        _ => column.null.map(|null| integer_bytes(column.kind, null)),
    }
}

fn integer_bytes(kind: Kind, value: i64) -> Vec<u8> {
    value.to_be_bytes()[8 - kind.width()..].to_vec()
}

fn write_elements(column: &Column, elements: &[i64], row: &mut Vec<u8>) {
    if !matches!(column.length, Length::Fixed(_)) {
        row.extend((elements.len() as u32).to_be_bytes());
    }
    let start = row.len();
    match column.kind {
        Kind::Bit => {
            row.resize(start + column.content_size(elements.len()), 0);
            for (place, bit) in elements.iter().enumerate() {
                if *bit == 1 {
                    row[start + place / 8] |= 0x80 >> (place % 8);
                }
            }
        }
        Kind::Boolean => row.extend(elements.iter().map(|element| match *element {
            TRUE => b'T',
            FALSE => b'F',
            _ => b'?',
        })),
        Kind::Char => {
            row.extend(elements.iter().map(|element| *element as u8));
            if let Length::Fixed(size) = column.length {
                row.resize(start + size, 0);
            }
        }
        kind => row.extend(elements.iter().flat_map(|element| integer_bytes(kind, *element))),
    }
}
