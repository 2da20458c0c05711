//! How messages show what stands in other people's files: nothing that a terminal would act on, and no more than a line has room for.

use std::ffi::OsStr;
use std::os::unix::ffi::OsStrExt;

/// The most characters that are shown of what stands in a file.
const MOST: usize = 40;

/// The most characters that are shown of a column's name.
const MOST_OF_A_NAME: usize = 60;

/// A file's name, whole: it is what the reader has to look for.
pub fn file(name: &OsStr) -> String {
    whole(name.as_bytes())
}

/// A text of any length.
pub fn whole(text: &[u8]) -> String {
    escaped(text, usize::MAX)
}

/// A column's name.
pub fn name(name: &str) -> String {
    escaped(name.as_bytes(), MOST_OF_A_NAME)
}

/// Text between quotes.
pub fn quoted(text: &[u8]) -> String {
    format!("'{}'", escaped(text, MOST))
}

/// As much text as `quoted` shows, as it stands in the file.
pub fn plain(text: &[u8]) -> String {
    let start = start(text, MOST);
    format!("{}{}", String::from_utf8_lossy(&text[..start]), ending(start, text))
}

/// Bytes as pairs of hexadigits.
pub fn hexadigits(bytes: &[u8]) -> String {
    let start = &bytes[..bytes.len().min((MOST + 1) / 3)];
    let mut pairs: Vec<String> = start.iter().map(|byte| format!("{byte:02X}")).collect();
    if start.len() < bytes.len() {
        pairs.push("..".to_string());
    }
    pairs.join(" ")
}

/// The first character of a text, or its first byte where that is part of none.
pub fn character(text: &[u8]) -> &[u8] {
    let near = &text[..text.len().min(4)];
    &text[..pieces(near).next().map_or(0, |(length, _)| length)]
}

/// So many of something: `1 byte`, `4,096 bytes`.
pub fn counted(count: u64, one: &str, many: &str) -> String {
    format!("{} {}", number(count), if count == 1 { one } else { many })
}

/// A count or a size, a comma before every three digits.
pub fn number(number: u64) -> String {
    let digits = number.to_string();
    let comma = |place: usize| place > 0 && (digits.len() - place).is_multiple_of(3);
    digits.chars().enumerate().flat_map(|(place, digit)| comma(place).then_some(',').into_iter().chain([digit])).collect()
}

/// A place that counts from 1: `1st`, `2nd`, `11th`.
pub fn ordinal(place: u64) -> String {
    let ending = match (place % 10, place % 100) {
        (_, 11..=13) => "th",
        (1, _) => "st",
        (2, _) => "nd",
        (3, _) => "rd",
        _ => "th",
    };
    format!("{}{ending}", number(place))
}

fn escaped(bytes: &[u8], most: usize) -> String {
    let start = start(bytes, most);
    let shown: String = pieces(&bytes[..start]).map(|(_, piece)| piece).collect();
    shown + ending(start, bytes)
}

fn ending(start: usize, bytes: &[u8]) -> &'static str {
    if start < bytes.len() {
        ".."
    } else {
        ""
    }
}

/// How many bytes are shown by at most `most` characters. A character has four bytes at most, so that no more of a long text is looked at.
fn start(bytes: &[u8], most: usize) -> usize {
    let mut room = most;
    let near = &bytes[..bytes.len().min(most.saturating_mul(4))];
    let fitting = pieces(near).map_while(|(length, piece)| {
        room = room.checked_sub(piece.chars().count())?;
        Some(length)
    });
    fitting.sum()
}

/// Each character, and each byte that is part of none: how many bytes it has, and how it is shown.
fn pieces(bytes: &[u8]) -> impl Iterator<Item = (usize, String)> + '_ {
    bytes.utf8_chunks().flat_map(|chunk| {
        let characters = chunk.valid().chars().map(|character| (character.len_utf8(), spelt(character)));
        characters.chain(chunk.invalid().iter().map(|byte| (1, format!("\\x{byte:02X}"))))
    })
}

/// Quotes do nothing to a terminal, and tags are easier to read with them as they stand.
fn spelt(character: char) -> String {
    match character {
        '\'' | '"' => character.to_string(),
        _ => character.escape_debug().to_string(),
    }
}
