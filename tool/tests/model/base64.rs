//! Base64, both ways.

use super::text::is_white_space;
use super::{Written, MOST_INPUT};

const ALPHABET: &[u8; 64] = b"ABCDEFGHIJKLMNOPQRSTUVWXYZabcdefghijklmnopqrstuvwxyz0123456789+/";

/// Decodes into room for so many bytes.
pub fn decode(input: &[u8], room: usize) -> Written {
    if input.len() > MOST_INPUT {
        return refusal(6);
    }
    match decoded(input) {
        None => refusal(7),
        Some(bytes) if bytes.len() > room => refusal(17),
        Some(bytes) => accepted(bytes),
    }
}

/// Encodes into room for so many bytes.
pub fn encode(input: &[u8], room: usize) -> Written {
    if input.len() > MOST_INPUT {
        return refusal(6);
    }
    if input.len().div_ceil(3) * 4 > room {
        return refusal(17);
    }
    accepted(encoded(input))
}

/// A base64 step that is refused has written nothing, and has no row or column.
fn refusal(number: u64) -> Written {
    Written::nothing([number, 0, 0, 0, 0])
}

fn accepted(bytes: Vec<u8>) -> Written {
    Written { answer: [0, 0, 0, 0, bytes.len() as u64], bytes }
}

fn decoded(input: &[u8]) -> Option<Vec<u8>> {
    let mut letters: Vec<u8> = input.iter().copied().filter(|byte| !is_white_space(*byte)).collect();
    if !letters.len().is_multiple_of(4) {
        return None;
    }
    let mut padding = 0;
    while padding < 2 && letters.last() == Some(&b'=') {
        letters.pop();
        padding += 1;
    }
    let values = letters.into_iter().map(value).collect::<Option<Vec<u32>>>()?;
    let mut bytes = Vec::new();
    for group in values.chunks(4) {
        // A group that lacks letters is filled up with zero bits; those that fall behind the last byte must be 0.
        let bits = (0..4).fold(0, |bits, place| bits << 6 | group.get(place).copied().unwrap_or(0));
        let known = group.len() - 1;
        if bits & (0xff_ffff >> (8 * known)) != 0 {
            return None;
        }
        bytes.extend(&bits.to_be_bytes()[1..1 + known]);
    }
    Some(bytes)
}

fn value(letter: u8) -> Option<u32> {
    ALPHABET.iter().position(|known| *known == letter).map(|place| place as u32)
}

fn encoded(input: &[u8]) -> Vec<u8> {
    let mut letters = Vec::new();
    for group in input.chunks(3) {
        let bits = (0..3).fold(0usize, |bits, place| bits << 8 | usize::from(group.get(place).copied().unwrap_or(0)));
        for place in 0..4 {
            let letter = ALPHABET[bits >> (18 - 6 * place) & 63];
            letters.push(if place <= group.len() { letter } else { b'=' });
        }
    }
    letters
}
