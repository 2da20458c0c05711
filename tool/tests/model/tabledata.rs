//! Rows of TABLEDATA.

use super::integer::{self, Fault};
use super::text::{is_white_space, Text};
use super::{refused, Cell, Column, Kind, Length, Refused, FALSE, TRUE, UNKNOWN};

/// Reads the row that begins at `start`: its cells and where it ends.
pub fn read_row(columns: &[Column], input: &[u8], start: usize) -> Result<(Vec<Cell>, usize), Refused> {
    let mut text = Text::new(input, start);
    if !tag(&mut text, b"<TR") {
        return refused(10, 0);
    }
    let mut cells = Vec::new();
    for (place, column) in columns.iter().enumerate() {
        let cell = read_cell(column, &mut text);
        cells.push(cell.map_err(|number| Refused { number, column: place })?);
    }
    text.skip_white_space();
    if !tag(&mut text, b"</TR") {
        return refused(10, columns.len());
    }
    Ok((cells, text.at()))
}

/// A tag without attributes, white space before its `>`.
fn tag(text: &mut Text, opening: &[u8]) -> bool {
    if !text.take(opening) {
        return false;
    }
    text.skip_white_space();
    text.take(b">")
}

/// The whole cell is judged for its tags and references before any of its elements, and those before their number.
fn read_cell(column: &Column, text: &mut Text) -> Result<Cell, u64> {
    let codes = cell_codes(text).ok_or(10u64)?;
    let elements = match column.kind.is_integer() {
        true => integers(column.kind, &codes)?,
        false => characters(&codes).and_then(|characters| elements(column.kind, &characters)).ok_or(11u64)?,
    };
    if elements.is_empty() {
        return Ok(Cell::Null);
    }
    let fits = match column.length {
        Length::Fixed(size) if column.kind != Kind::Char => elements.len() == size,
        _ => elements.len() <= column.bound(),
    };
    if !fits {
        return Err(12);
    }
    Ok(column.shown(elements))
}

/// The codes between the tags of a cell, references expanded; `None` where tags or references are broken.
fn cell_codes(text: &mut Text) -> Option<Vec<u32>> {
    text.skip_white_space();
    if !text.take(b"<TD") {
        return None;
    }
    text.skip_white_space();
    if text.take(b"/>") {
        return Some(Vec::new());
    }
    if !text.take(b">") {
        return None;
    }
    let mut codes = Vec::new();
    loop {
        match text.peek()? {
            b'<' => return tag(text, b"</TD").then_some(codes),
            b'&' => codes.push(reference(text)?),
            _ => codes.push(u32::from(literal(text)?)),
        }
    }
}

/// The next byte as it is meant: XML 1.0, section 2.11, hands on a literal 13 10, or a 13 alone, as one 10, before references are
/// looked at.
fn literal(text: &mut Text) -> Option<u8> {
    match text.next()? {
        13 => {
            text.take(b"\n");
            Some(10)
        }
        byte => Some(byte),
    }
}

fn reference(text: &mut Text) -> Option<u32> {
    let named = [(&b"&amp;"[..], b'&'), (b"&lt;", b'<'), (b"&gt;", b'>'), (b"&quot;", b'"'), (b"&apos;", b'\'')];
    for (name, character) in named {
        if text.take(name) {
            return Some(u32::from(character));
        }
    }
    let radix = if text.take(b"&#x") {
        16
    } else if text.take(b"&#") {
        10
    } else {
        return None;
    };
    let digits = text.take_while(|byte| (byte as char).is_digit(radix));
    if digits.is_empty() || digits.len() > 8 || !text.take(b";") {
        return None;
    }
    let value =
        digits.iter().fold(0u64, |value, digit| value * u64::from(radix) + u64::from((*digit as char).to_digit(radix).unwrap_or(0)));
    // Eight hexadigits fit in 32 bits, eight decimal ones too.
    Some(value as u32)
}

/// The characters of these codes; `None` where one is of no character that a cell may hold.
fn characters(codes: &[u32]) -> Option<Vec<u8>> {
    codes.iter().map(|code| matches!(code, 9 | 10 | 13 | 32..=127).then_some(*code as u8)).collect()
}

/// The elements of an integer cell, or the number of the first bad one. What no cell may hold is part of an element.
fn integers(kind: Kind, codes: &[u32]) -> Result<Vec<i64>, u64> {
    let words = codes.split(|code| u8::try_from(*code).is_ok_and(is_white_space)).filter(|word| !word.is_empty());
    words.map(|word| integer(kind, word)).collect()
}

fn integer(kind: Kind, word: &[u32]) -> Result<i64, u64> {
    let word = characters(word).ok_or(11u64)?;
    integer::read(kind, &word).map_err(|fault| match fault {
        Fault::NotWritten => 11,
        Fault::OutOfRange => 18,
    })
}

/// The elements of a cell of any other kind.
fn elements(kind: Kind, characters: &[u8]) -> Option<Vec<i64>> {
    match kind {
        Kind::Char => Some(characters.iter().map(|byte| i64::from(*byte)).collect()),
        Kind::Bit => trimmed(characters).iter().map(|byte| bit(*byte)).collect(),
        _ => characters.split(|byte| is_white_space(*byte)).filter(|word| !word.is_empty()).map(boolean).collect(),
    }
}

fn trimmed(mut characters: &[u8]) -> &[u8] {
    while let [first, rest @ ..] = characters {
        if !is_white_space(*first) {
            break;
        }
        characters = rest;
    }
    while let [rest @ .., last] = characters {
        if !is_white_space(*last) {
            break;
        }
        characters = rest;
    }
    characters
}

fn bit(byte: u8) -> Option<i64> {
    match byte {
        b'0' => Some(0),
        b'1' => Some(1),
        _ => None,
    }
}

fn boolean(word: &[u8]) -> Option<i64> {
    match word.to_ascii_lowercase().as_slice() {
        b"t" | b"1" | b"true" => Some(TRUE),
        b"f" | b"0" | b"false" => Some(FALSE),
        b"?" => Some(UNKNOWN),
        _ => None,
    }
}

/// The line of a row.
pub fn write_row(columns: &[Column], cells: &[Cell]) -> Result<Vec<u8>, Refused> {
    let mut row = b"<TR>".to_vec();
    for (place, (column, cell)) in columns.iter().zip(cells).enumerate() {
        match cell {
            Cell::Null => row.extend(b"<TD/>"),
            Cell::Shown(elements) if elements.is_empty() => return refused(14, place),
            Cell::Shown(elements) => {
                row.extend(b"<TD>");
                write_elements(column.kind, elements, &mut row).map_err(|number| Refused { number, column: place })?;
                row.extend(b"</TD>");
            }
        }
    }
    row.extend(b"</TR>\n");
    Ok(row)
}

fn write_elements(kind: Kind, elements: &[i64], row: &mut Vec<u8>) -> Result<(), u64> {
    for (place, element) in elements.iter().enumerate() {
        if place > 0 && kind != Kind::Bit && kind != Kind::Char {
            row.push(b' ');
        }
        match kind {
            Kind::Char => write_character(*element as u8, row)?,
            Kind::Boolean => row.push(match *element {
                TRUE => b'T',
                FALSE => b'F',
                _ => b'?',
            }),
            _ => row.extend(element.to_string().as_bytes()),
        }
    }
    Ok(())
}

fn write_character(code: u8, row: &mut Vec<u8>) -> Result<(), u64> {
    match code {
        b'&' => row.extend(b"&amp;"),
        b'<' => row.extend(b"&lt;"),
        b'>' => row.extend(b"&gt;"),
        13 => row.extend(b"&#xD;"),
        9 | 10 | 32..=127 => row.push(code),
        _ => return Err(16),
    }
    Ok(())
}
