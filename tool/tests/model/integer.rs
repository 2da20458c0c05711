//! Integers as words of text.

use super::Kind;

/// The least and the greatest value of an integer kind.
pub fn range(kind: Kind) -> (i128, i128) {
    if kind == Kind::UnsignedByte {
        return (0, 255);
    }
    let half = 1i128 << (8 * kind.width() - 1);
    (-half, half - 1)
}

/// Why a word is no value of its kind.
#[derive(Clone, Copy, Debug, PartialEq, Eq)]
pub enum Fault {
    /// It is not written as an integer of this kind: more digits than are read, and a sign that the kind does not have, are among this.
    NotWritten,
    /// It is written as one, and lies outside the kind's range.
    OutOfRange,
}

/// The value of a word.
pub fn read(kind: Kind, word: &[u8]) -> Result<i64, Fault> {
    let written = match word.strip_prefix(b"0x") {
        Some(digits) => hexadecimal(kind, digits),
        None => decimal(kind, word),
    };
    let value = written.ok_or(Fault::NotWritten)?;
    let (least, greatest) = range(kind);
    if value < least || greatest < value {
        return Err(Fault::OutOfRange);
    }
    Ok(value as i64)
}

/// The number that is written, whether the kind has it or not.
fn decimal(kind: Kind, word: &[u8]) -> Option<i128> {
    let signed = kind != Kind::UnsignedByte;
    let (sign, digits) = match word {
        [b'-', rest @ ..] if signed => (-1, rest),
        [b'+', rest @ ..] if signed => (1, rest),
        _ => (1, word),
    };
    if digits.is_empty() || digits.len() > 20 || !digits.iter().all(u8::is_ascii_digit) {
        return None;
    }
    Some(digits.iter().fold(0, |value, digit| value * 10 + sign * i128::from(digit - b'0')))
}

/// Hexadigits are read as the two's complement of the kind's width, and so are never out of its range.
fn hexadecimal(kind: Kind, digits: &[u8]) -> Option<i128> {
    if digits.is_empty() || digits.len() > 2 * kind.width() {
        return None;
    }
    let mut value = 0i128;
    for digit in digits {
        value = value * 16 + i128::from((*digit as char).to_digit(16)?);
    }
    let (_, greatest) = range(kind);
    if value > greatest {
        value -= 1i128 << (8 * kind.width());
    }
    Some(value)
}
