//! Hints: what an input most likely is, told by how it begins. Only where that is nearly sure.

use sailmortar::{Kind, Refused, Rows};

use crate::report::Stream;
use crate::text::{is_space, without_space};

/// Rows that count as the first ones: base64 that is taken for bytes is refused among them.
const FIRST_ROWS: u64 = 10;

/// Bytes by which an input is told.
const START: usize = 64;

/// A tag or a reference that is cut has fewer bytes.
const CUT: usize = 16;

const LONG_ROW: &str = "with --long a row of TABLEDATA is judged by its first 64 MiB, and this one goes on behind them";
const ROWS_ALONE: &str = "the rows alone are wanted: take out the tags around them";

/// Tags that stand where a row or a cell should, and what to do about them.
const TAGS: &[(&str, &str)] = &[
    ("<?xml", "this is a whole document: the rows alone are wanted, without the tags around them"),
    ("<VOTABLE", "this is a whole document: the rows alone are wanted, without the tags around them"),
    ("<TABLE", ROWS_ALONE),
    ("</TABLE", ROWS_ALONE),
    ("<DATA", ROWS_ALONE),
    ("</DATA", ROWS_ALONE),
    ("<FIELD", "FIELD elements belong into the file that --fields names"),
    ("<!--", "comments are not carried: take them out"),
    ("<![CDATA[", "CDATA is not carried: write the text itself, with &amp; and &lt;"),
];

/// A hint for a refused row; `fault` is what stands where a tag or a reference of TABLEDATA should.
pub fn of_row(stream: &Stream, refused: &Refused, fault: Option<&[u8]>) -> Option<String> {
    let hint = match (stream.from, fault) {
        (Rows::TableData, Some(fault)) if stream.window.goes_on && fault.len() < CUT => Some(LONG_ROW),
        (Rows::TableData, Some(fault)) => instead_of_a_tag(stream, fault),
        (Rows::TableData, None) => None,
        _ => of_bytes(stream, refused),
    };
    hint.map(|hint| if stream.is_second { for_a_second(hint) } else { hint.to_string() })
}

/// A hint by the names that the options of a second input have.
fn for_a_second(hint: &str) -> String {
    hint.replace("--from", "--and").replace("--base64-in", "--base64-and")
}

fn instead_of_a_tag(stream: &Stream, fault: &[u8]) -> Option<&'static str> {
    let is_first = stream.window.place == 0 && without_space(stream.window.bytes).len() == fault.len();
    match fault {
        [b'<', ..] => of_a_tag(fault),
        _ if is_first => of_text(fault).or_else(|| of_other_rows(fault)),
        _ => None,
    }
}

fn of_a_tag(fault: &[u8]) -> Option<&'static str> {
    let known = TAGS.iter().find(|(tag, _)| fault.starts_with(tag.as_bytes())).map(|(_, hint)| *hint);
    let name = fault.strip_prefix(b"</").or(fault.strip_prefix(b"<")).unwrap_or_default();
    match name {
        [b'T', b'R' | b'D', rest @ ..] if has_attribute(rest) => Some("<TR> and <TD> are carried without attributes"),
        [b'T', b'R' | b'D', ..] => None,
        [b't' | b'T', b'r' | b'R' | b'd' | b'D', b'>' | b'/' | b' ', ..] => Some("tags are wanted in capitals: <TR> and <TD>"),
        _ => known,
    }
}

fn has_attribute(tag: &[u8]) -> bool {
    let name = without_space(tag);
    name.len() < tag.len() && name.first().is_some_and(u8::is_ascii_alphabetic)
}

/// A hint for the start of what should be a text.
fn of_text(text: &[u8]) -> Option<&'static str> {
    match text {
        [0xEF, 0xBB, 0xBF, ..] => Some("a byte order mark (EF BB BF) stands before the text: take it out"),
        [0xFE, 0xFF, ..] | [0xFF, 0xFE, ..] => Some("this looks like UTF-16: ASCII is wanted"),
        _ => of_packed(text),
    }
}

fn of_packed(bytes: &[u8]) -> Option<&'static str> {
    bytes.starts_with(&[0x1F, 0x8B, 0x08]).then_some("this is a gzip file: unpack it first, with gunzip")
}

/// A hint for rows of bytes, or their base64, where text was said.
fn of_other_rows(text: &[u8]) -> Option<&'static str> {
    match text {
        _ if is_bytes(text) => Some("these are bytes and no text: are the rows BINARY or BINARY2 (--from)?"),
        _ if is_base64(text) => Some("is this the base64 of BINARY or BINARY2 rows (--base64-in, and another --from)?"),
        _ => None,
    }
}

/// Whether a control character, which no text has, is among the first bytes.
fn is_bytes(text: &[u8]) -> bool {
    text.iter().take(START).any(|byte| matches!(byte, 0..=8 | 14..=31))
}

/// Whether the first bytes are letters of base64 in lines; no space stands between two of its letters.
fn is_base64(text: &[u8]) -> bool {
    let start = &text[..text.len().min(START)];
    let mut lines = start.split(|byte| *byte == b'\n').map(<[u8]>::trim_ascii);
    let letters = start.iter().filter(|byte| !is_space(**byte)).count();
    let is_letter = |byte: &u8| byte.is_ascii_alphanumeric() || matches!(byte, b'+' | b'/' | b'=');
    letters >= 8 && lines.all(|line| line.iter().all(is_letter))
}

/// A hint for rows of bytes that cannot be read.
fn of_bytes(stream: &Stream, refused: &Refused) -> Option<&'static str> {
    let text = without_space(stream.window.start);
    let starts = |tag: &str| text.starts_with(tag.as_bytes());
    match refused.number {
        14.. => None,
        _ if starts("<?xml") || starts("<VOTABLE") => Some("this is a whole document: the bytes of its stream alone are wanted"),
        _ if starts("<TR>") || starts("<tr>") || starts("<TABLEDATA>") => Some("this looks like TABLEDATA: is --from right?"),
        _ if is_base64_of(stream, refused) => Some("this looks like base64: is --base64-in missing?"),
        _ => of_packed(stream.window.start),
    }
}

/// Columns of text alone may well look like base64, unless a count does, too.
fn is_base64_of(stream: &Stream, refused: &Refused) -> bool {
    let is_text = stream.columns.iter().all(|column| column.kind == Kind::Char);
    let is_told = refused.row < FIRST_ROWS && (!is_text || refused.number == 9);
    is_told && !stream.decoded && is_base64(stream.window.start)
}

/// A hint for a text that is no base64.
pub fn of_letters(text: &[u8], byte: usize) -> Option<&'static str> {
    let start = without_space(text);
    let around = text.get(byte.saturating_sub(1)..=byte + 1);
    match start {
        [b'<', ..] => Some("tags stand around the text, or this is TABLEDATA: the base64 alone is wanted"),
        _ if of_text(start).is_some() => of_text(start),
        _ if is_bytes(start) => Some("these are bytes and no letters: is it base64 at all?"),
        _ => around.filter(|around| is_other_alphabet(around)).map(|_| "this is the alphabet with - and _: put + for - and / for _"),
    }
}

/// A `-` or a `_` between two letters.
fn is_other_alphabet(around: &[u8]) -> bool {
    matches!(around, [before, b'-' | b'_', after] if before.is_ascii_alphanumeric() && after.is_ascii_alphanumeric())
}

/// A hint for declarations that are no FIELD elements.
pub fn of_declarations(decls: &[u8]) -> Option<&'static str> {
    let text = without_space(decls);
    let starts = |tag: &str| text.starts_with(tag.as_bytes());
    match text {
        _ if starts("<?xml") || starts("<VOTABLE") || starts("<TABLE") => {
            Some("the FIELD elements alone are wanted, without a tag around them")
        }
        _ if starts("<TR>") => Some("these are rows: are the file of the fields and INPUT exchanged?"),
        _ => of_text(text),
    }
}
