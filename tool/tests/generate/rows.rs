//! Rows of each kind that show given cells, in any spelling and with any bytes where nobody looks.

use super::cells::{boolean_word, integer_word};
use super::Random;
use crate::model::converter::Rows;
use crate::model::{Cell, Column, Kind, Length, FALSE, TRUE};

/// A row as its cells were chosen, for a table of any kind.
pub type Table = Vec<Vec<Cell>>;

pub fn table(random: &mut Random, columns: &[Column], rows: Rows, count: usize) -> Table {
    (0..count).map(|_| columns.iter().map(|column| super::cells::cell(random, column, rows)).collect()).collect()
}

pub fn spelled(random: &mut Random, columns: &[Column], rows: Rows, table: &Table) -> Vec<u8> {
    let mut stream = Vec::new();
    for cells in table {
        match rows {
            Rows::TableData => {
                stream.extend(random.white_space(3));
                stream.extend(text_row(random, columns, cells));
            }
            Rows::Binary => stream.extend(binary_row(random, columns, cells)),
            Rows::Binary2 => stream.extend(binary2_row(random, columns, cells)),
        }
    }
    if rows == Rows::TableData {
        stream.extend(random.white_space(3));
    }
    stream
}

fn text_row(random: &mut Random, columns: &[Column], cells: &[Cell]) -> Vec<u8> {
    let mut row = tag(random, b"<TR", b">");
    for (column, cell) in columns.iter().zip(cells) {
        row.extend(random.white_space(2));
        row.extend(text_cell(random, column, cell));
    }
    row.extend(random.white_space(2));
    row.extend(tag(random, b"</TR", b">"));
    row
}

fn tag(random: &mut Random, opening: &[u8], closing: &[u8]) -> Vec<u8> {
    [opening, &random.white_space(2), closing].concat()
}

fn text_cell(random: &mut Random, column: &Column, cell: &Cell) -> Vec<u8> {
    let characters = match cell {
        Cell::Null if random.one_in(2) => return tag(random, b"<TD", b"/>"),
        Cell::Null => null_characters(random, column),
        Cell::Shown(elements) => shown_characters(random, column.kind, elements),
    };
    let mut text = tag(random, b"<TD", b">");
    let references = random.pick(&[0, 0, 20, 2]);
    for character in characters {
        let spelled = match character {
            _ if random.one_in_or_never(references) => reference(random, character),
            b'&' | b'<' => reference(random, character),
            // Literal it would be a line end. Where white space is only skipped that is as good.
            13 if column.kind == Kind::Char => reference(random, character),
            10 => line_end(random, text.last() == Some(&13)),
            _ => vec![character],
        };
        text.extend(spelled);
    }
    text.extend(tag(random, b"</TD", b">"));
    text
}

/// A character 10 as a literal line end, such as Windows and old machines have. Behind a literal 13, which is a line end by itself, a 10
/// would be no second one.
fn line_end(random: &mut Random, is_behind_13: bool) -> Vec<u8> {
    let ends: [&[u8]; 4] = [b"\n", b"\n", b"\r\n", b"\r"];
    random.pick(&ends[if is_behind_13 { 2 } else { 0 }..]).to_vec()
}

/// Nothing, white space alone where it is trimmed, or a value that is null.
fn null_characters(random: &mut Random, column: &Column) -> Vec<u8> {
    match column.null {
        _ if column.kind == Kind::Char => Vec::new(),
        Some(null) if random.one_in(2) => shown_characters(random, column.kind, &[null]),
        _ if null_by_value(column) && column.null.is_none() && random.one_in(2) => b" ? ".to_vec(),
        _ => random.white_space(4),
    }
}

fn shown_characters(random: &mut Random, kind: Kind, elements: &[i64]) -> Vec<u8> {
    if kind == Kind::Char {
        return elements.iter().map(|element| *element as u8).collect();
    }
    let mut characters = random.white_space(3);
    for (place, element) in elements.iter().enumerate() {
        if kind != Kind::Bit && place > 0 {
            characters.push(random.pick(b"\t\n\r    "));
            characters.extend(random.white_space(2));
        }
        match kind {
            Kind::Bit => characters.push(b'0' + *element as u8),
            Kind::Boolean => characters.extend(boolean_word(random, *element)),
            _ => characters.extend(integer_word(random, kind, *element)),
        }
    }
    characters.extend(random.white_space(3));
    characters
}

/// A reference to a character, by a name that it has or by its number.
fn reference(random: &mut Random, character: u8) -> Vec<u8> {
    let named = match character {
        b'&' => Some("&amp;"),
        b'<' => Some("&lt;"),
        b'>' => Some("&gt;"),
        b'"' => Some("&quot;"),
        b'\'' => Some("&apos;"),
        _ => None,
    };
    let (opening, digits) = match (random.below(4), named) {
        (0..=1, Some(name)) => return name.as_bytes().to_vec(),
        (0 | 2, _) => ("&#", character.to_string()),
        (1, _) => ("&#x", format!("{character:X}")),
        _ => ("&#x", format!("{character:x}")),
    };
    let zeros = if random.one_in(3) { random.below(9 - digits.len()) } else { 0 };
    format!("{opening}{}{digits};", "0".repeat(zeros)).into_bytes()
}

fn binary_row(random: &mut Random, columns: &[Column], cells: &[Cell]) -> Vec<u8> {
    let mut row = Vec::new();
    for (column, cell) in columns.iter().zip(cells) {
        match cell {
            Cell::Null => row.extend(null_by_content(random, column)),
            Cell::Shown(elements) => row.extend(binary_cell(random, column, elements)),
        }
    }
    row
}

fn binary2_row(random: &mut Random, columns: &[Column], cells: &[Cell]) -> Vec<u8> {
    let mut row = vec![0; columns.len().div_ceil(8)];
    for (place, (column, cell)) in columns.iter().zip(cells).enumerate() {
        match cell {
            Cell::Null if null_by_value(column) && random.one_in(3) => row.extend(null_by_content(random, column)),
            Cell::Null => {
                row[place / 8] |= 0x80 >> (place % 8);
                row.extend(unread_cell(random, column));
            }
            Cell::Shown(elements) => row.extend(binary_cell(random, column, elements)),
        }
    }
    row
}

fn null_by_value(column: &Column) -> bool {
    column.null.is_some() || (column.is_scalar() && column.kind == Kind::Boolean)
}

/// A cell under a set flag: a count that is kept, and any content.
fn unread_cell(random: &mut Random, column: &Column) -> Vec<u8> {
    let (mut cell, count) = match column.length {
        Length::Fixed(size) => (Vec::new(), size),
        _ => {
            let count = random.pick(&[0, 0, 1, 2, 9]).min(column.bound());
            (count_bytes(count), count)
        }
    };
    let size = column.content_size(count);
    cell.extend(if random.one_in(2) { vec![0; size] } else { random.bytes(size) });
    cell
}

fn count_bytes(count: usize) -> Vec<u8> {
    (count as u32).to_be_bytes().to_vec()
}

/// Null without a flag: by its value, or empty as BINARY has it.
fn null_by_content(random: &mut Random, column: &Column) -> Vec<u8> {
    match (column.length, column.kind) {
        (_, Kind::Char) => binary_cell(random, column, &[]),
        (Length::Bounded(_) | Length::Free, _) => count_bytes(0),
        (_, Kind::Boolean) => vec![random.pick(&[0, b' ', b'?'])],
        (_, kind) => integer_bytes(kind, column.null.expect("a null that has a form")),
    }
}

fn integer_bytes(kind: Kind, value: i64) -> Vec<u8> {
    value.to_be_bytes()[8 - kind.width()..].to_vec()
}

fn binary_cell(random: &mut Random, column: &Column, elements: &[i64]) -> Vec<u8> {
    let mut content = Vec::new();
    let mut count = elements.len();
    match column.kind {
        Kind::Char => {
            content = char_content(random, column, elements);
            count = content.len();
        }
        Kind::Bit => {
            content.resize(count.div_ceil(8), 0);
            for (place, bit) in elements.iter().enumerate() {
                content[place / 8] |= (*bit as u8) << (7 - place % 8);
            }
        }
        Kind::Boolean => content.extend(elements.iter().map(|element| match *element {
            TRUE => random.pick(b"Tt1"),
            FALSE => random.pick(b"Ff0"),
            _ => random.pick(b"\x00 ?"),
        })),
        kind => content.extend(elements.iter().flat_map(|element| integer_bytes(kind, *element))),
    }
    match column.length {
        Length::Fixed(_) => content,
        _ => [count_bytes(count), content].concat(),
    }
}

/// Characters, and where there is place for it a NUL and any bytes behind it.
fn char_content(random: &mut Random, column: &Column, elements: &[i64]) -> Vec<u8> {
    let mut content: Vec<u8> = elements.iter().map(|element| *element as u8).collect();
    let most = column.bound() - content.len();
    let unseen = match column.length {
        Length::Fixed(_) => most,
        _ if random.one_in(3) => random.below(most.min(9) + 1),
        _ => 0,
    };
    if unseen > 0 {
        content.push(0);
        content.extend(if random.one_in(2) { vec![0; unseen - 1] } else { random.bytes(unseen - 1) });
    }
    content
}
