//! A line for a cell that shows differently in two inputs. Of long cells it has the part in which they begin to differ.

use sailmortar::{Column, Kind};

use crate::cell::noun;
use crate::differing::{Difference, Shown};
use crate::shown::{self, ordinal};

/// The most characters that are shown of a cell, and of those before the first that differs.
const MOST: usize = 40;
const BEFORE: usize = 16;

/// Row, column and its name, then what the cell shows in the one file and in the other.
pub fn line(difference: &Difference, [first_name, second_name]: &[String; 2]) -> String {
    let Difference { row, place, column, first, second } = difference;
    let title = column.name.as_ref().map_or(String::new(), |name| format!(" ({})", shown::name(name)));
    let (from, [first, second]) = words(column, first, second);
    format!("row {row}, column {place}{title}{from}: {first} in {first_name}, {second} in {second_name}\n")
}

/// From which element on two cells are shown, where that is not the first, and what is shown of either.
fn words(column: &Column, first: &Shown, second: &Shown) -> (String, [String; 2]) {
    let cells = [first, second].map(|cell| elements(column.kind, cell));
    let same = cells[0].iter().zip(&cells[1]).take_while(|(one, other)| one == other).count();
    let is_short = cells.iter().all(|elements| fitting(column.kind, elements.iter(), MOST) == elements.len());
    let context = fitting(column.kind, cells[0][..same].iter().rev(), BEFORE);
    let start = if is_short { 0 } else { same - context };
    let from = match start {
        0 => String::new(),
        _ => format!(", from its {} {} on", ordinal(same as u64 + 1), noun(column.kind).0),
    };
    let [one, other] = &cells;
    (from, [said(column.kind, first, one, start), said(column.kind, second, other, start)])
}

/// The elements that a cell shows, each as it is shown.
fn elements(kind: Kind, cell: &Shown) -> Vec<String> {
    let Shown::Text(text) = cell else {
        return Vec::new();
    };
    match kind {
        Kind::Char => characters(text).iter().map(|character| shown::whole(character)).collect(),
        Kind::Bit => text.iter().map(|bit| char::from(*bit).to_string()).collect(),
        _ => text.split(|byte| *byte == b' ').map(|word| String::from_utf8_lossy(word).into_owned()).collect(),
    }
}

/// The characters of a text of TABLEDATA, a reference being one.
fn characters(text: &[u8]) -> Vec<&[u8]> {
    let mut rest = text;
    let mut characters = Vec::new();
    while !rest.is_empty() {
        let length = match rest[0] {
            b'&' => rest.iter().position(|byte| *byte == b';').map_or(rest.len(), |end| end + 1),
            _ => 1,
        };
        let (character, after) = rest.split_at(length);
        characters.push(character);
        rest = after;
    }
    characters
}

/// What stands between two elements.
fn between(kind: Kind) -> &'static str {
    if matches!(kind, Kind::Char | Kind::Bit) {
        ""
    } else {
        " "
    }
}

/// How many elements fit into so many characters.
fn fitting<'a>(kind: Kind, elements: impl Iterator<Item = &'a String>, most: usize) -> usize {
    let mut length = 0;
    let fits = |element: &&String| {
        length += element.chars().count() + between(kind).len();
        length <= most + between(kind).len()
    };
    elements.take_while(fits).count()
}

/// What is shown of a cell, from this element on.
fn said(kind: Kind, cell: &Shown, elements: &[String], start: usize) -> String {
    match cell {
        Shown::Null => return "null".to_string(),
        Shown::Empty => return "empty".to_string(),
        Shown::Text(_) => {}
    }
    let rest = &elements[start..];
    let end = fitting(kind, rest.iter(), MOST);
    let dots = |is_cut: bool| is_cut.then(|| "..".to_string());
    let parts: Vec<String> = dots(start > 0).into_iter().chain(rest[..end].iter().cloned()).chain(dots(end < rest.len())).collect();
    let text = parts.join(between(kind));
    if kind == Kind::Char {
        format!("'{text}'")
    } else {
        text
    }
}
