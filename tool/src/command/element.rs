//! What stands where declarations are refused: the element, the value that is not carried, or the rule that it breaks.

use sailmortar::{element, Element, Refused};

use crate::shown::{self, ordinal, plain, quoted};
use crate::text::{after_tag, line, tag_or_text, without_space};

/// What stands at the place of a refusal.
pub struct Standing<'a> {
    /// The element; none where the declarations end.
    pub element: Option<Element<'a>>,
    /// Where it stands, in words.
    pub place: String,
    /// What is wrong there, in words.
    pub words: String,
    /// What is wrong there, for a program: a value, or the element's tag.
    pub shown: String,
}

/// What stands where declarations are refused.
pub fn standing<'a>(decls: &'a [u8], refused: &Refused) -> Standing<'a> {
    let Some(found) = element(decls, refused.column).filter(|found| !found.text.is_empty()) else {
        return Standing { element: None, place: String::new(), words: "there is no FIELD".to_string(), shown: String::new() };
    };
    let datatype = valued("datatype", found.attribute("datatype"));
    let null = valued("null", found.null());
    let (words, shown) = match refused.number {
        1 => (format!("{} {}", quoted(tag(found.text)), broken(found.text)), tag(found.text)),
        2 => datatype,
        3 => valued("arraysize", found.attribute("arraysize")),
        4 => (format!("{}, {}", datatype.0, null.0), null.1),
        _ => (quoted(tag(found.text)), tag(found.text)),
    };
    let place = format!(" in line {}, {}", line(decls, found.start), place(&found, refused.column));
    Standing { element: Some(found), place, words, shown: plain(shown) }
}

fn valued<'a>(attribute: &str, value: Option<&'a [u8]>) -> (String, &'a [u8]) {
    let value = value.unwrap_or_default();
    (format!("{attribute} {}", quoted(value)), value)
}

/// Which FIELD it is, or should be.
fn place(found: &Element, place: u64) -> String {
    let which = ordinal(place.saturating_add(1));
    match (tag_name(found.text), found.name()) {
        (b"FIELD", Some(name)) => format!("the {which} FIELD ({})", shown::name(&name)),
        (b"FIELD", None) => format!("the {which} FIELD"),
        _ => format!("where the {which} FIELD should stand"),
    }
}

/// The first tag of a text, which is how much of it is shown; a `>` in a value does not end it.
pub fn tag(text: &[u8]) -> &[u8] {
    let (_, rest) = attributes(text.get(1 + tag_name(text).len()..).unwrap_or_default());
    let behind = text.len() - rest.len();
    match rest {
        [b'>', ..] => &text[..behind + 1],
        [b'/', b'>', ..] => &text[..behind + 2],
        _ => tag_or_text(text),
    }
}

/// The name of the tag at the start of a text.
fn tag_name(text: &[u8]) -> &[u8] {
    let name = text.strip_prefix(b"<").unwrap_or_default();
    &name[..name.iter().take_while(|byte| is_name(**byte)).count()]
}

fn is_name(byte: u8) -> bool {
    byte.is_ascii_alphanumeric() || matches!(byte, b'-' | b'_' | b':' | b'.')
}

/// The rule that an element breaks, as words that follow it.
fn broken(text: &[u8]) -> String {
    match tag_name(text) {
        b"FIELD" => broken_field(&text[b"<FIELD".len()..]),
        b"" if text.starts_with(b"<!--") => "is a comment and no FIELD".to_string(),
        b"" if text.starts_with(b"</") => "is an end tag with no FIELD before it".to_string(),
        b"" => "is no FIELD".to_string(),
        name => format!("is {} and not FIELD", shown::name(&String::from_utf8_lossy(name))),
    }
}

fn broken_field(text: &[u8]) -> String {
    let (names, rest) = attributes(text);
    let times = |wanted: &str| names.iter().filter(|name| **name == wanted.as_bytes()).count();
    match (rest, times("datatype"), times("arraysize")) {
        ([], ..) => "is not ended".to_string(),
        _ if !rest.starts_with(b">") && !rest.starts_with(b"/>") => instead(rest, "an attribute or the end of the tag"),
        (_, 0, _) => "has no datatype".to_string(),
        (_, 2.., _) => "has datatype twice".to_string(),
        (_, _, 2..) => "has arraysize twice".to_string(),
        ([b'>', inside @ ..], ..) => broken_inside(without_space(inside)),
        _ => "is not carried".to_string(),
    }
}

/// What is wrong between the start tag and the end tag.
fn broken_inside(text: &[u8]) -> String {
    if tag_name(text) != b"VALUES" {
        return not_ended(text);
    }
    let (names, rest) = attributes(&text[b"<VALUES".len()..]);
    match rest.strip_prefix(b"/>") {
        _ if names.iter().filter(|name| **name == b"null").count() > 1 => "has null twice in its VALUES".to_string(),
        Some(after) => not_ended(without_space(after)),
        None if rest.is_empty() => "is not ended".to_string(),
        None => instead(rest, "the /> of VALUES"),
    }
}

fn not_ended(text: &[u8]) -> String {
    match after_tag(text, "</FIELD", ">") {
        _ if text.is_empty() => "is not ended".to_string(),
        None => instead(text, "</FIELD>"),
        Some(_) => "is not carried".to_string(),
    }
}

fn instead(text: &[u8], wanted: &str) -> String {
    format!("has {} where {wanted} should stand", quoted(tag(text)))
}

/// The names of a tag's attributes, and what stands behind them: the end of the tag, or what is no attribute.
fn attributes(text: &[u8]) -> (Vec<&[u8]>, &[u8]) {
    let (mut names, mut rest) = (Vec::new(), text);
    while let Some((name, after)) = attribute(rest) {
        names.push(name);
        rest = after;
    }
    (names, without_space(rest))
}

/// An attribute's name and what stands behind its value, with the white space that must be before it.
fn attribute(text: &[u8]) -> Option<(&[u8], &[u8])> {
    let start = without_space(text);
    let length = start.iter().take_while(|byte| is_name(**byte)).count();
    if length == 0 || start.len() == text.len() {
        return None;
    }
    let (name, after) = start.split_at(length);
    let value = without_space(without_space(after).strip_prefix(b"=")?);
    let (quote, value) = value.split_first().filter(|(quote, _)| matches!(quote, b'"' | b'\''))?;
    let end = value.iter().position(|byte| byte == quote || *byte == b'<')?;
    (value[end] == *quote).then(|| (name, &value[end + 1..]))
}
