//! Columns, and the declarations that say them.

use super::Random;
use crate::model::integer;
use crate::model::{Column, Kind, Length};

pub const EVERY_KIND: [Kind; 7] = [Kind::Boolean, Kind::Bit, Kind::UnsignedByte, Kind::Short, Kind::Int, Kind::Long, Kind::Char];

pub fn datatype(kind: Kind) -> &'static str {
    match kind {
        Kind::Boolean => "boolean",
        Kind::Bit => "bit",
        Kind::UnsignedByte => "unsignedByte",
        Kind::Short => "short",
        Kind::Int => "int",
        Kind::Long => "long",
        Kind::Char => "char",
    }
}

/// One column without a declared null.
pub fn column(kind: Kind, length: Length) -> Column {
    Column { kind, length, null: None }
}

/// Any column; its cells are short, but for one in forty.
pub fn any(random: &mut Random) -> Column {
    let elements = match random.below(40) {
        0 => random.pick(&[4_095, 4_096, 1_000, 256]),
        1..=10 => random.pick(&[7, 8, 9, 15, 16, 17]),
        _ => random.between(1, 5),
    };
    let length = match random.below(8) {
        0..=2 => Length::Fixed(1),
        3..=4 => Length::Fixed(elements),
        5..=6 => Length::Bounded(elements),
        _ => Length::Free,
    };
    let mut column = column(random.pick(&EVERY_KIND), length);
    if column.kind.is_integer() && column.is_scalar() && !random.one_in(3) {
        column.null = Some(super::cells::integer(random, column.kind));
    }
    column
}

pub fn some(random: &mut Random, least: usize, greatest: usize) -> Vec<Column> {
    (0..random.between(least, greatest)).map(|_| any(random)).collect()
}

/// The declarations in one plain spelling.
pub fn declarations(columns: &[Column]) -> Vec<u8> {
    let mut text = String::new();
    for column in columns {
        text += &format!("<FIELD datatype=\"{}\"", datatype(column.kind));
        text += &match column.length {
            Length::Fixed(1) => String::new(),
            Length::Fixed(elements) => format!(" arraysize=\"{elements}\""),
            Length::Bounded(elements) => format!(" arraysize=\"{elements}*\""),
            Length::Free => " arraysize=\"*\"".to_string(),
        };
        text += &match column.null {
            Some(null) => format!("><VALUES null=\"{null}\"/></FIELD>\n"),
            None => "/>\n".to_string(),
        };
    }
    text.into_bytes()
}

/// The declarations in any spelling that means the same.
pub fn spelled_declarations(random: &mut Random, columns: &[Column]) -> Vec<u8> {
    let mut text = random.white_space(3);
    for column in columns {
        text.extend(field(random, column));
        text.extend(random.white_space(3));
    }
    text
}

fn field(random: &mut Random, column: &Column) -> Vec<u8> {
    let mut attributes = vec![attribute(random, "datatype", datatype(column.kind).as_bytes())];
    let arraysize = match column.length {
        Length::Fixed(1) if random.one_in(2) => None,
        Length::Fixed(elements) => Some(elements.to_string()),
        Length::Bounded(elements) => Some(format!("{elements}*")),
        Length::Free => Some("*".to_string()),
    };
    attributes.extend(arraysize.map(|value| attribute(random, "arraysize", value.as_bytes())));
    while random.one_in(3) {
        // `null` and the like count in VALUES alone.
        let name = random.pick(&["name", "unit", "null", "Datatype", "x-y_z:1.2", "0", "ID"]);
        attributes.push(skipped_attribute(random, name));
    }
    let mut text = b"<FIELD".to_vec();
    text.extend(shuffled(random, attributes));
    text.extend(random.white_space(2));
    if column.null.is_none() && random.one_in(2) {
        text.extend(b"/>");
        return text;
    }
    text.push(b'>');
    text.extend(random.white_space(2));
    if column.null.is_some() || random.one_in(2) {
        text.extend(values(random, column));
        text.extend(random.white_space(2));
    }
    text.extend(b"</FIELD");
    text.extend(random.white_space(2));
    text.push(b'>');
    text
}

fn values(random: &mut Random, column: &Column) -> Vec<u8> {
    let mut attributes = Vec::new();
    if let Some(null) = column.null {
        let mut value = random.white_space(2);
        value.extend(super::cells::integer_word(random, column.kind, null));
        value.extend(random.white_space(2));
        attributes.push(attribute(random, "null", &value));
    } else if !(column.kind.is_integer() && column.is_scalar()) && random.one_in(2) {
        attributes.push(skipped_attribute(random, "null"));
    }
    while random.one_in(3) {
        let name = random.pick(&["type", "datatype", "arraysize", "NULL", "ref"]);
        attributes.push(skipped_attribute(random, name));
    }
    let mut text = b"<VALUES".to_vec();
    text.extend(shuffled(random, attributes));
    text.extend(random.white_space(2));
    text.extend(b"/>");
    text
}

fn skipped_attribute(random: &mut Random, name: &str) -> Vec<u8> {
    let value = match random.below(5) {
        0 => b"".to_vec(),
        1 => b"a > b />&amp; & ]]>".to_vec(),
        2 => vec![0, 1, 127, 128, 255, b'\n'],
        3 => b"int".to_vec(),
        _ => b"-99".to_vec(),
    };
    attribute(random, name, &value)
}

/// An attribute with the white space before it, its value in a quote that it does not hold.
fn attribute(random: &mut Random, name: &str, value: &[u8]) -> Vec<u8> {
    let quote = random.pick(b"\"'");
    let other = if quote == b'"' { b'\'' } else { b'"' };
    let mut text = vec![random.pick(b"\t\n\r ")];
    text.extend(random.white_space(2));
    text.extend(name.as_bytes());
    text.extend(random.white_space(1));
    text.push(b'=');
    text.extend(random.white_space(1));
    text.push(quote);
    text.extend(value);
    if name == "name" {
        text.push(other);
    }
    text.push(quote);
    text
}

fn shuffled(random: &mut Random, mut parts: Vec<Vec<u8>>) -> Vec<u8> {
    for last in (1..parts.len()).rev() {
        parts.swap(last, random.below(last + 1));
    }
    parts.concat()
}

/// The least and the greatest value of an integer kind, as a column's values can be.
pub fn limits(kind: Kind) -> (i64, i64) {
    let (least, greatest) = integer::range(kind);
    (least as i64, greatest as i64)
}
