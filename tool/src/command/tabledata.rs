//! What stands where a row of TABLEDATA is refused.

use sailmortar::{Column, Kind, Refused, Rows};

use crate::cell::{element_is, elements_are, label, range_is, shows, Place, Standing};
use crate::probe::{self, Probe};
use crate::report::Stream;
use crate::shown::{character, plain, quoted};
use crate::text::{after_tag, is_space, tag_or_text, without_space};

/// A line end that has two bytes and is read as one character.
const LINE_END: &[u8] = b"\r\n";

pub fn standing<'a>(stream: &Stream<'a>, refused: &Refused) -> Option<Standing<'a>> {
    let row = without_space(stream.window.from(refused.offset)?);
    let at = |place, here: &'a [u8], said: Said<'a>| {
        let Said { words, shown, fault } = said;
        Some(Standing { place, byte: stream.window.place_of(here), words, shown: plain(shown), fault })
    };
    let Some(cells) = after_tag(row, "<TR", ">") else {
        return at(Place::Start, row, instead(stream, row, "<TR>"));
    };
    let here = without_space((0..refused.column).try_fold(cells, |cells, _| after_cell(cells))?);
    match stream.columns.get(usize::try_from(refused.column).ok()?) {
        None => at(Place::End, here, instead(stream, here, "</TR>")),
        Some(column) => {
            let said = in_cell(stream, column, here, refused.number);
            at(Place::Cell, here, Said { words: format!("{}{}", label(column), said.words), ..said })
        }
    }
}

/// What is said of a text.
struct Said<'a> {
    words: String,
    shown: &'a [u8],
    fault: Option<&'a [u8]>,
}

/// What stands where something else should.
fn instead<'a>(stream: &Stream, text: &'a [u8], wanted: &str) -> Said<'a> {
    let shown = tag_or_text(text);
    let there = match shown {
        [] if stream.window.goes_on => "the first 64 MiB of the row end".to_string(),
        [] => "the input ends".to_string(),
        shown => quoted(shown),
    };
    Said { words: format!("{there} where {wanted} should stand"), shown, fault: Some(text) }
}

/// What stands behind a whole cell.
fn after_cell(cells: &[u8]) -> Option<&[u8]> {
    let cell = without_space(cells);
    match after_tag(cell, "<TD", "/>") {
        Some(after) => Some(after),
        None => after_tag(split_content(after_tag(cell, "<TD", ">")?).1, "</TD", ">"),
    }
}

/// The text of a cell, and what stands from the next tag on.
fn split_content(inside: &[u8]) -> (&[u8], &[u8]) {
    let end = inside.iter().position(|byte| *byte == b'<').unwrap_or(inside.len());
    inside.split_at(end)
}

/// Words that follow the column's kind.
fn in_cell<'a>(stream: &Stream, column: &Column, cell: &'a [u8], number: u64) -> Said<'a> {
    if number == 10 {
        let said = broken(stream, cell);
        return Said { words: format!(", {}", said.words), ..said };
    }
    let text = after_tag(cell, "<TD", ">").map_or(&cell[..0], |inside| split_content(inside).0);
    let words = match number {
        11 => format!(" {}{}", quoted(text), wrong_element(number, column.kind, text)),
        18 => format!(" {}{}{}", quoted(text), wrong_element(number, column.kind, text), range_is(column.kind)),
        12 => format!(" {}{}", quoted(text), wrong_count(column, text)),
        _ => shows(column, number, stream.to),
    };
    Said { words, shown: text, fault: None }
}

/// The first tag or reference of a cell that is not as it should be.
fn broken<'a>(stream: &Stream, cell: &'a [u8]) -> Said<'a> {
    let Some(inside) = after_tag(cell, "<TD", ">") else {
        return instead(stream, cell, "<TD>");
    };
    let (text, rest) = split_content(inside);
    let probe = Probe { number: 10, kind: Kind::Char, from: Rows::TableData, to: Rows::Binary2 };
    match (probe.first(references(text)), after_tag(rest, "</TD", ">")) {
        (Some((_, reference)), _) => instead(stream, reference, "a reference"),
        (None, None) => instead(stream, rest, "</TD>"),
        (None, Some(_)) => Said { words: quoted(cell), shown: cell, fault: None },
    }
}

/// Each `&` of a text with what stands from there to its `;`, or to the end of the text.
fn references(text: &[u8]) -> impl Iterator<Item = &[u8]> {
    let mut rest = text;
    std::iter::from_fn(move || {
        let start = rest.iter().position(|byte| *byte == b'&')?;
        let length = rest[start..].iter().position(|byte| *byte == b';').map_or(rest.len() - start, |end| end + 1);
        let (reference, after) = rest[start..].split_at(length);
        rest = after;
        Some(reference)
    })
}

/// The elements of a text, as far as they can be told apart without reading references: in a text that is split at white space a reference
/// may stand for white space.
fn parts<'a>(kind: Kind, text: &'a [u8]) -> Box<dyn Iterator<Item = &'a [u8]> + 'a> {
    match kind {
        Kind::Char => Box::new(characters(text)),
        _ if text.contains(&b'&') => Box::new(std::iter::empty()),
        Kind::Bit => Box::new(characters(without_space(text))),
        _ => Box::new(text.split(|byte| is_space(*byte)).filter(|word| !word.is_empty())),
    }
}

/// The characters and references of a text, one by one; a line end of 13 10 is one character.
fn characters(text: &[u8]) -> impl Iterator<Item = &[u8]> {
    let mut rest = text;
    std::iter::from_fn(move || {
        let length = match rest.first()? {
            b'&' => rest.iter().position(|byte| *byte == b';').map_or(rest.len(), |end| end + 1),
            b'\r' if rest.starts_with(LINE_END) => LINE_END.len(),
            _ => character(rest).len(),
        };
        let (part, after) = rest.split_at(length);
        rest = after;
        Some(part)
    })
}

/// The first bad element, where a cell has several. It is the one that decided the cell's number: those before it are good.
fn wrong_element(number: u64, kind: Kind, text: &[u8]) -> String {
    let probe = Probe { number, kind, from: Rows::TableData, to: Rows::Binary2 };
    match probe.first(parts(kind, text)) {
        Some((place, part)) if part != text => {
            let has_line_end = kind == Kind::Char && parts(kind, text).take(place).any(|part| part == LINE_END);
            element_is(kind, place, &quoted(part)) + counted_as_one(has_line_end)
        }
        _ => String::new(),
    }
}

fn wrong_count(column: &Column, text: &[u8]) -> String {
    let has_line_end = column.kind == Kind::Char && text.windows(LINE_END.len()).any(|part| part == LINE_END);
    let words = |count| elements_are(column, count) + counted_as_one(has_line_end);
    probe::elements(column.kind, text).map(words).unwrap_or_default()
}

/// Words behind a number of characters, for a reader who would count two in a line end as it is shown.
fn counted_as_one(has_line_end: bool) -> &'static str {
    if has_line_end {
        " (a line end \\r\\n counts as one)"
    } else {
        ""
    }
}
