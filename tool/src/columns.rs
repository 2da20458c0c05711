//! The columns as declarations name them: kinds, lengths, names and nulls, read off once the proved `declare` has accepted the text; and
//! the element that it refused, for messages.

use crate::{declare, Refused};

/// The datatype of a column.
#[derive(Clone, Copy, Debug, PartialEq, Eq)]
#[non_exhaustive]
pub enum Kind {
    Boolean,
    Bit,
    UnsignedByte,
    Short,
    Int,
    Long,
    Char,
}

impl Kind {
    const ALL: [Kind; 7] = [Kind::Boolean, Kind::Bit, Kind::UnsignedByte, Kind::Short, Kind::Int, Kind::Long, Kind::Char];

    /// The datatype as VOTable writes it.
    pub fn name(self) -> &'static str {
        match self {
            Kind::Boolean => "boolean",
            Kind::Bit => "bit",
            Kind::UnsignedByte => "unsignedByte",
            Kind::Short => "short",
            Kind::Int => "int",
            Kind::Long => "long",
            Kind::Char => "char",
        }
    }

    fn of(datatype: &[u8]) -> Option<Kind> {
        Kind::ALL.into_iter().find(|kind| kind.name().as_bytes() == datatype)
    }

    /// An integer of this kind from its text, which the converter has accepted as one.
    fn integer(self, text: &[u8]) -> Option<i64> {
        let text = std::str::from_utf8(text).ok()?.trim_matches([' ', '\t', '\n', '\r']);
        match (self, text.strip_prefix("0x")) {
            (Kind::UnsignedByte | Kind::Short | Kind::Int | Kind::Long, None) => text.parse().ok(),
            (Kind::UnsignedByte, Some(digits)) => u8::from_str_radix(digits, 16).ok().map(i64::from),
            (Kind::Short, Some(digits)) => u16::from_str_radix(digits, 16).ok().map(|bits| i64::from(bits as i16)),
            (Kind::Int, Some(digits)) => u32::from_str_radix(digits, 16).ok().map(|bits| i64::from(bits as i32)),
            (Kind::Long, Some(digits)) => u64::from_str_radix(digits, 16).ok().map(|bits| bits as i64),
            _ => None,
        }
    }
}

/// The length of a column.
#[derive(Clone, Copy, Debug, PartialEq, Eq)]
#[non_exhaustive]
pub enum Length {
    /// So many elements in each cell.
    Fixed(usize),
    /// Up to so many; a count stands before the cell.
    Bounded(usize),
    /// As many as a cell may hold; a count stands before the cell.
    Free,
}

impl Length {
    fn of(arraysize: &[u8]) -> Option<Length> {
        let number = |digits: &[u8]| std::str::from_utf8(digits).ok()?.parse().ok();
        match arraysize {
            b"*" => Some(Length::Free),
            [digits @ .., b'*'] => number(digits).map(Length::Bounded),
            digits => number(digits).map(Length::Fixed),
        }
    }

    /// The most elements of a cell.
    pub fn bound(self) -> usize {
        match self {
            Length::Fixed(elements) | Length::Bounded(elements) => elements,
            Length::Free => 4096,
        }
    }
}

/// As an `arraysize` writes it; one element is `1`.
impl std::fmt::Display for Length {
    fn fmt(&self, f: &mut std::fmt::Formatter) -> std::fmt::Result {
        match self {
            Length::Fixed(elements) => write!(f, "{elements}"),
            Length::Bounded(elements) => write!(f, "{elements}*"),
            Length::Free => f.write_str("*"),
        }
    }
}

/// A column as its FIELD declares it.
#[derive(Clone, Debug, PartialEq, Eq)]
#[non_exhaustive]
pub struct Column {
    /// The FIELD's `name`, where it has one (the first, should it have several); references in it are not expanded.
    pub name: Option<String>,
    pub kind: Kind,
    pub length: Length,
    /// The declared null; it counts on columns of one integer alone.
    pub null: Option<i64>,
}

/// The columns of declarations, or their refusal. Whether they are good the proved `declare` decides; this reads off what it accepted.
pub fn columns(decls: &[u8]) -> Result<Vec<Column>, Refused> {
    let count = declare(decls)?;
    let mut rest = decls;
    Ok((0..count).map(|_| next_column(&mut rest).expect("every FIELD that the converter accepted is read off")).collect())
}

fn next_column(rest: &mut &[u8]) -> Option<Column> {
    let field = Element { start: 0, text: without_space(rest) };
    *rest = after_field(field.text)?;
    let kind = Kind::of(field.attribute("datatype")?)?;
    let length = field.attribute("arraysize").map_or(Some(Length::Fixed(1)), Length::of)?;
    let null = field.null().filter(|_| length == Length::Fixed(1)).and_then(|null| kind.integer(null));
    Some(Column { name: field.name(), kind, length, null })
}

/// An element of declarations, whole or not.
#[derive(Clone, Copy, Debug)]
#[non_exhaustive]
pub struct Element<'a> {
    /// Where it begins in the declarations.
    pub start: usize,
    /// From there to the end of the declarations; what stands behind the element is in it too.
    pub text: &'a [u8],
}

/// The element at a place of declarations, where so many whole FIELDs stand before it; none where those are not whole.
pub fn element(decls: &[u8], place: u64) -> Option<Element<'_>> {
    let rest = (0..place).try_fold(decls, |rest, _| after_field(without_space(rest)))?;
    let text = without_space(rest);
    Some(Element { start: decls.len() - text.len(), text })
}

impl<'a> Element<'a> {
    /// The value of an attribute of its own tag; the first, should it stand several times.
    pub fn attribute(&self, name: &str) -> Option<&'a [u8]> {
        value_in(self.text.strip_prefix(b"<FIELD")?, name)
    }

    /// The value of `null` in its VALUES.
    pub fn null(&self) -> Option<&'a [u8]> {
        let tag = after_attributes(self.text.strip_prefix(b"<FIELD")?).strip_prefix(b">")?;
        value_in(without_space(tag).strip_prefix(b"<VALUES")?, "null")
    }

    /// The value of its `name`, as text.
    pub fn name(&self) -> Option<String> {
        self.attribute("name").map(|name| String::from_utf8_lossy(name).into_owned())
    }
}

fn value_in<'a>(attributes: &'a [u8], name: &str) -> Option<&'a [u8]> {
    let mut rest = attributes;
    while let Some((found, value, after)) = attribute(rest) {
        if found == name.as_bytes() {
            return Some(value);
        }
        rest = after;
    }
    None
}

/// What stands behind a whole FIELD.
fn after_field(text: &[u8]) -> Option<&[u8]> {
    let tag = after_attributes(text.strip_prefix(b"<FIELD")?);
    if let Some(after) = tag.strip_prefix(b"/>") {
        return Some(after);
    }
    let inside = without_space(tag.strip_prefix(b">")?);
    let end = match inside.strip_prefix(b"<VALUES") {
        Some(values) => without_space(after_attributes(values).strip_prefix(b"/>")?),
        None => inside,
    };
    without_space(end.strip_prefix(b"</FIELD")?).strip_prefix(b">")
}

/// What stands behind the attributes of a tag and the white space after them.
fn after_attributes(attributes: &[u8]) -> &[u8] {
    let mut rest = attributes;
    while let Some((_, _, after)) = attribute(rest) {
        rest = after;
    }
    without_space(rest)
}

/// The next attribute's name and value and what stands after it, or none at the end of the tag.
fn attribute(text: &[u8]) -> Option<(&[u8], &[u8], &[u8])> {
    let text = without_space(text);
    let end = text.iter().position(|byte| is_space(*byte) || matches!(byte, b'=' | b'>' | b'/' | b'<'))?;
    let (name, after) = text.split_at(end);
    let value = without_space(without_space(after).strip_prefix(b"=")?);
    let (quote, value) = value.split_first().filter(|(quote, _)| matches!(quote, b'"' | b'\''))?;
    let end = value.iter().position(|byte| byte == quote)?;
    Some((name, &value[..end], &value[end + 1..]))
}

fn is_space(byte: u8) -> bool {
    matches!(byte, 9 | 10 | 13 | 32)
}

fn without_space(text: &[u8]) -> &[u8] {
    let space = text.iter().take_while(|byte| is_space(**byte)).count();
    &text[space..]
}
