//! Cells that a column can show, and their elements as words.

use super::columns::limits;
use super::Random;
use crate::model::converter::Rows;
use crate::model::{Cell, Column, Kind, Length, FALSE, TRUE, UNKNOWN};

/// A cell that the rows of this kind can hold in this column.
pub fn cell(random: &mut Random, column: &Column, rows: Rows) -> Cell {
    let is_variable = !matches!(column.length, Length::Fixed(_));
    if random.one_in(5) && (rows != Rows::Binary || null_has_a_form_in_binary(column)) {
        return Cell::Null;
    }
    if random.one_in(8) && rows == Rows::Binary2 && (is_variable || column.kind == Kind::Char) {
        return Cell::Shown(Vec::new());
    }
    let size = match column.length {
        Length::Fixed(size) if column.kind != Kind::Char => size,
        _ if random.one_in(4) && column.bound() < 4_096 => column.bound(),
        _ if random.one_in(60) => column.bound(),
        _ => random.between(1, column.bound().min(12)),
    };
    let elements = (0..size).map(|_| element(random, column, rows)).collect();
    column.shown(elements)
}

pub fn null_has_a_form_in_binary(column: &Column) -> bool {
    match column.length {
        Length::Fixed(1) => matches!(column.kind, Kind::Boolean | Kind::Char) || column.null.is_some(),
        Length::Fixed(_) => column.kind == Kind::Char,
        _ => true,
    }
}

fn element(random: &mut Random, column: &Column, rows: Rows) -> i64 {
    match column.kind {
        Kind::Boolean => random.pick(&[FALSE, TRUE, UNKNOWN]),
        Kind::Bit => random.pick(&[0, 1]),
        Kind::Char => character(random, rows),
        kind => match column.null {
            Some(null) if random.one_in(6) => null,
            _ => integer(random, kind),
        },
    }
}

/// A character; in rows of text one that may stand there, elsewhere now and then one that may not.
fn character(random: &mut Random, rows: Rows) -> i64 {
    match random.below(200) {
        0 if rows != Rows::TableData => random.between(1, 127) as i64,
        1..=40 => i64::from(random.pick(b"\t\n\r &<>\"'];x#\x7f")),
        // Often enough for two of them side by side.
        41..=56 => i64::from(random.pick(b"\n\n\r")),
        _ => random.between(32, 127) as i64,
    }
}

/// Any value of an integer kind, often one near an end or near zero.
pub fn integer(random: &mut Random, kind: Kind) -> i64 {
    let (least, greatest) = limits(kind);
    match random.below(8) {
        0 => least + random.below(3) as i64,
        1 => greatest - random.below(3) as i64,
        2..=3 => (random.below(7) as i64 - 3).clamp(least, greatest),
        4 => (1i64 << random.below(63)).clamp(least, greatest),
        _ if kind == Kind::Long => random.next() as i64,
        _ => least + random.below((greatest - least + 1) as usize) as i64,
    }
}

/// A word that is read as this value.
pub fn integer_word(random: &mut Random, kind: Kind, value: i64) -> Vec<u8> {
    let is_signed = kind != Kind::UnsignedByte;
    if random.one_in(4) {
        return hexadecimal_word(random, kind, value);
    }
    let mut digits = value.unsigned_abs().to_string();
    if random.one_in(6) {
        let zeros = random.below(21 - digits.len());
        digits = "0".repeat(zeros) + &digits;
    }
    let sign = match value {
        ..0 => "-",
        0 if is_signed => random.pick(&["", "", "+", "-"]),
        _ if is_signed => random.pick(&["", "", "+"]),
        _ => "",
    };
    (sign.to_string() + &digits).into_bytes()
}

fn hexadecimal_word(random: &mut Random, kind: Kind, value: i64) -> Vec<u8> {
    let width = 2 * kind.width();
    let bits = value as u64 & (u64::MAX >> (64 - 8 * kind.width()));
    let shortest = format!("{bits:x}");
    let size = if random.one_in(2) { width } else { random.between(shortest.len(), width) };
    let mut word = "0x".to_string() + &"0".repeat(size - shortest.len()) + &shortest;
    if random.one_in(2) {
        word = word.to_uppercase().replacen('X', "x", 1);
    }
    word.into_bytes()
}

pub fn boolean_word(random: &mut Random, value: i64) -> Vec<u8> {
    let words: &[&str] = match value {
        TRUE => &["T", "t", "1", "true", "TRUE", "tRuE"],
        FALSE => &["F", "f", "0", "false", "FALSE", "FalsE"],
        _ => &["?"],
    };
    random.pick(words).as_bytes().to_vec()
}
