//! The text of the declarations: FIELD elements to columns.

use super::text::{is_white_space, Text};
use super::{integer, Column, Kind, Length, MOST_COLUMNS, MOST_DECLARATIONS};

/// The columns, or the number of the refusal and its place: how many whole FIELDs stand before it.
pub fn read(declarations: &[u8]) -> Result<Vec<Column>, (u64, usize)> {
    if declarations.len() > MOST_DECLARATIONS {
        return Err((6, 0));
    }
    let mut text = Text::new(declarations, 0);
    let mut columns = Vec::new();
    loop {
        text.skip_white_space();
        if text.peek().is_none() {
            break;
        }
        let place = columns.len();
        let column = field(&mut text).map_err(|number| (number, place))?;
        if place == MOST_COLUMNS {
            return Err((5, place));
        }
        columns.push(column);
    }
    if columns.is_empty() {
        return Err((5, 0));
    }
    Ok(columns)
}

/// One FIELD: its shape through its end first, then its values in the order of their numbers.
fn field(text: &mut Text) -> Result<Column, u64> {
    let written = element(text).ok_or(1u64)?;
    let kind = kind(written.datatype).ok_or(2u64)?;
    let length = match written.arraysize {
        Some(value) => length(value).ok_or(3u64)?,
        None => Length::Fixed(1),
    };
    let mut column = Column { kind, length, null: None };
    if kind.is_integer() && column.is_scalar() {
        if let Some(value) = written.null {
            column.null = Some(null(kind, value).ok_or(4u64)?);
        }
    }
    Ok(column)
}

/// The values that count, as they stand between their quotes.
struct Written<'a> {
    datatype: &'a [u8],
    arraysize: Option<&'a [u8]>,
    null: Option<&'a [u8]>,
}

fn element<'a>(text: &mut Text<'a>) -> Option<Written<'a>> {
    if !text.take(b"<FIELD") {
        return None;
    }
    let tag = rest_of_tag(text)?;
    let datatype = at_most_once(&tag.attributes, b"datatype")??;
    let arraysize = at_most_once(&tag.attributes, b"arraysize")?;
    let null = if tag.is_empty_element { None } else { inside_field(text)? };
    Some(Written { datatype, arraysize, null })
}

/// What stands between a start tag and the end of its end tag; hands out the `null` of VALUES.
fn inside_field<'a>(text: &mut Text<'a>) -> Option<Option<&'a [u8]>> {
    let mut null = None;
    text.skip_white_space();
    if text.take(b"<VALUES") {
        let tag = rest_of_tag(text)?;
        if !tag.is_empty_element {
            return None;
        }
        null = at_most_once(&tag.attributes, b"null")?;
        text.skip_white_space();
    }
    if !text.take(b"</FIELD") {
        return None;
    }
    text.skip_white_space();
    text.take(b">").then_some(null)
}

struct Tag<'a> {
    attributes: Vec<(&'a [u8], &'a [u8])>,
    is_empty_element: bool,
}

/// The attributes of a tag and its end, from behind its name.
fn rest_of_tag<'a>(text: &mut Text<'a>) -> Option<Tag<'a>> {
    let mut attributes = Vec::new();
    loop {
        let space = text.take_while(is_white_space);
        for (end, is_empty_element) in [(&b">"[..], false), (b"/>", true)] {
            if text.take(end) {
                return Some(Tag { attributes, is_empty_element });
            }
        }
        if space.is_empty() {
            return None;
        }
        attributes.push(attribute(text)?);
    }
}

fn attribute<'a>(text: &mut Text<'a>) -> Option<(&'a [u8], &'a [u8])> {
    let name = text.take_while(|byte| byte.is_ascii_alphanumeric() || b"-_:.".contains(&byte));
    if name.is_empty() {
        return None;
    }
    text.skip_white_space();
    if !text.take(b"=") {
        return None;
    }
    text.skip_white_space();
    let quote = text.next().filter(|byte| matches!(byte, b'"' | b'\''))?;
    let value = text.take_while(|byte| byte != quote && byte != b'<');
    text.take(&[quote]).then_some((name, value))
}

/// The value of an attribute that may stand once: `None` where it stands twice.
fn at_most_once<'a>(attributes: &[(&'a [u8], &'a [u8])], name: &[u8]) -> Option<Option<&'a [u8]>> {
    let mut values = attributes.iter().filter(|(written, _)| *written == name).map(|(_, value)| *value);
    let value = values.next();
    values.next().is_none().then_some(value)
}

fn kind(datatype: &[u8]) -> Option<Kind> {
    Some(match datatype {
        b"boolean" => Kind::Boolean,
        b"bit" => Kind::Bit,
        b"unsignedByte" => Kind::UnsignedByte,
        b"short" => Kind::Short,
        b"int" => Kind::Int,
        b"long" => Kind::Long,
        b"char" => Kind::Char,
        _ => return None,
    })
}

fn length(arraysize: &[u8]) -> Option<Length> {
    if arraysize == b"*" {
        return Some(Length::Free);
    }
    match arraysize.strip_suffix(b"*") {
        Some(digits) => Some(Length::Bounded(elements(digits)?)),
        None => Some(Length::Fixed(elements(arraysize)?)),
    }
}

/// One to four digits, the first not 0, at most 4096.
fn elements(digits: &[u8]) -> Option<usize> {
    if digits.is_empty() || digits.len() > 4 || digits[0] == b'0' || !digits.iter().all(u8::is_ascii_digit) {
        return None;
    }
    let elements = digits.iter().fold(0, |elements, digit| elements * 10 + usize::from(digit - b'0'));
    (elements <= super::MOST_ELEMENTS).then_some(elements)
}

/// A declared null is read as a cell of its kind is: one word, white space around it. Why it is no value makes no difference.
fn null(kind: Kind, value: &[u8]) -> Option<i64> {
    let mut words = value.split(|byte| is_white_space(*byte)).filter(|word| !word.is_empty());
    let word = words.next()?;
    match words.next() {
        Some(_) => None,
        None => integer::read(kind, word).ok(),
    }
}
