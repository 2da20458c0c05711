//! What stands where a row of BINARY or BINARY2 is refused.

use sailmortar::{Column, Kind, Length, Refused, Rows};

use crate::cell::{element_is, label, noun, shows, Place, Standing};
use crate::probe::Probe;
use crate::report::Stream;
use crate::shown::{counted, hexadigits, number, plain, quoted};

/// The bytes of a count.
const COUNT: usize = 4;

/// The bytes that so many elements take. Only messages rest on it: what is refused, and where its row begins, the converter says.
pub fn content_bytes(kind: Kind, elements: usize) -> usize {
    match kind {
        Kind::Bit => elements.div_ceil(8),
        Kind::Short => 2 * elements,
        Kind::Int => 4 * elements,
        Kind::Long => 8 * elements,
        _ => elements,
    }
}

pub fn standing<'a>(stream: &Stream<'a>, refused: &Refused) -> Option<Standing<'a>> {
    let row = stream.window.from(refused.offset)?;
    let flags = flag_bytes(stream.columns, stream.from);
    if is_in_flags(stream.columns.len(), row, flags, refused) {
        return Some(in_flags(stream.columns.len(), &row[..flags.min(row.len())], refused));
    }
    let column = usize::try_from(refused.column).ok()?;
    let cells = stream.columns.get(..column)?.iter().try_fold(row.get(flags..)?, after_cell)?;
    let cell = Cell::at(stream.columns.get(column)?, cells);
    let (words, shown) = cell.words(stream, refused.number);
    Some(Standing { place: Place::Cell, byte: stream.window.place_of(cells), words, shown, fault: None })
}

/// Where the row begins that has so many whole rows between it and `start`, which is a row's.
pub fn row_start(stream: &Stream, start: usize, rows: u64) -> usize {
    (0..rows).fold(start, |start, _| {
        let left = stream.window.from(start).and_then(|row| after_row(stream.columns, stream.from, row));
        left.map_or(start, |left| stream.window.place_of(left))
    })
}

/// The bytes of flags at the start of a row.
pub fn flag_bytes(columns: &[Column], from: Rows) -> usize {
    if from == Rows::Binary2 {
        columns.len().div_ceil(8)
    } else {
        0
    }
}

/// What stands behind a whole row.
pub fn after_row<'a>(columns: &[Column], from: Rows, row: &'a [u8]) -> Option<&'a [u8]> {
    columns.iter().try_fold(row.get(flag_bytes(columns, from)..)?, after_cell)
}

/// The flags are judged before any cell, under the first column's number: their length, then the spare ones.
fn is_in_flags(columns: usize, row: &[u8], flags: usize, refused: &Refused) -> bool {
    match (refused.number, refused.column) {
        (8, 0) => row.len() < flags,
        (13, 0) => row.get(..flags).and_then(|flags| flags.last()).is_some_and(|last| last.trailing_zeros() < spare(columns)),
        _ => false,
    }
}

fn in_flags(columns: usize, flags: &[u8], refused: &Refused) -> Standing<'static> {
    let wanted = columns.div_ceil(8);
    let words = match refused.number {
        8 => left(flags, wanted, " of flags"),
        _ => padded(flags, spare(columns)),
    };
    let words = format!("{}, {words}", counted(columns as u64, "column", "columns"));
    Standing { place: Place::Flags, byte: refused.offset, words, shown: hexadigits(flags), fault: None }
}

/// The bits that are left in the last byte.
fn spare(bits: usize) -> u32 {
    (bits.div_ceil(8) * 8 - bits) as u32
}

/// What stands behind a whole cell.
pub fn after_cell<'a>(row: &'a [u8], column: &Column) -> Option<&'a [u8]> {
    let cell = Cell::at(column, row);
    row.get(cell.counted.len() + cell.wanted()?..)
}

/// A cell, as much of it as is there.
struct Cell<'a> {
    column: &'a Column,
    /// The bytes of its count; none in a fixed column.
    counted: &'a [u8],
    /// How many elements it has, where that can be told.
    elements: Option<usize>,
    content: &'a [u8],
}

impl<'a> Cell<'a> {
    fn at(column: &'a Column, row: &'a [u8]) -> Cell<'a> {
        let (counted, elements) = match column.length {
            Length::Fixed(elements) => (&row[..0], Some(elements)),
            _ => match row.first_chunk::<COUNT>() {
                Some(count) => (&count[..], Some(u32::from_be_bytes(*count) as usize)),
                None => (row, None),
            },
        };
        let rest = &row[counted.len()..];
        let wanted = elements.map_or(0, |elements| content_bytes(column.kind, elements));
        Cell { column, counted, elements, content: &rest[..rest.len().min(wanted)] }
    }

    /// The bytes of its content, whether they are there or not.
    fn wanted(&self) -> Option<usize> {
        self.elements.map(|elements| content_bytes(self.column.kind, elements))
    }

    fn words(&self, stream: &Stream, number: u64) -> (String, String) {
        let column = label(self.column);
        match number {
            8 => (format!("{column}, {}", self.left()), hexadigits(self.part())),
            9 => (format!("{column}, {}", self.count()), hexadigits(self.counted)),
            11 => (format!("{column}, {}{}", bytes(self.content), self.element()), hexadigits(self.content)),
            13 => (format!("{column}, {}", padded(self.content, spare(self.elements.unwrap_or(0)))), hexadigits(self.content)),
            16 => (format!("{column} {}", self.text(stream.to)), plain(self.characters())),
            _ => (format!("{column}{}", shows(self.column, number, stream.to)), hexadigits(self.content)),
        }
    }

    /// The part that the stream ends in: the count, or what it counts.
    fn part(&self) -> &'a [u8] {
        self.elements.map_or(self.counted, |_| self.content)
    }

    fn left(&self) -> String {
        match (self.column.length, self.elements) {
            (_, None) => left(self.part(), COUNT, " of its count"),
            (Length::Fixed(_), Some(_)) => left(self.part(), self.wanted().unwrap_or(0), ""),
            (_, Some(elements)) => {
                let (one, many) = noun(self.column.kind);
                let elements = counted(elements as u64, one, many);
                left(self.part(), self.wanted().unwrap_or(0), &format!(" of its {elements}"))
            }
        }
    }

    fn count(&self) -> String {
        let count = number(self.elements.unwrap_or(0) as u64);
        format!("its count is {count} ({}), its bound {}", hexadigits(self.counted), number(self.column.length.bound() as u64))
    }

    /// The first byte that is no boolean, or no character.
    fn element(&self) -> String {
        let probe = Probe { number: 11, kind: self.column.kind, from: Rows::Binary, to: Rows::Binary2 };
        let content = if self.column.kind == Kind::Char { self.characters() } else { self.content };
        match probe.first(content.chunks(1)) {
            Some((place, byte)) if self.content.len() > 1 => element_is(self.column.kind, place, &hexadigits(byte)),
            _ => String::new(),
        }
    }

    /// The characters that a text shows.
    fn characters(&self) -> &'a [u8] {
        let end = self.content.iter().position(|byte| *byte == 0);
        &self.content[..end.unwrap_or(self.content.len())]
    }

    /// A text, with the character that has no form.
    fn text(&self, to: Rows) -> String {
        let probe = Probe { number: 16, kind: Kind::Char, from: Rows::Binary, to };
        let found = probe.first(self.characters().chunks(1));
        let element = found.map(|(place, byte)| element_is(Kind::Char, place, &quoted(byte))).unwrap_or_default();
        format!("{}{element}, and goes to {to}", quoted(self.characters()))
    }
}

fn bytes(bytes: &[u8]) -> String {
    let name = if bytes.len() == 1 { "byte" } else { "bytes" };
    format!("{name} {}", hexadigits(bytes))
}

/// How many of the bytes that are wanted stand before the end of the stream.
fn left(there: &[u8], wanted: usize, of: &str) -> String {
    let whose = if of.is_empty() { "its" } else { "the" };
    let whole = format!("{whose} {}{of}", counted(wanted as u64, "byte", "bytes"));
    match there.len() {
        0 => format!("nothing is left of {whole}"),
        1 => format!("1 of {whole} is left ({})", hexadigits(there)),
        bytes => format!("{} of {whole} are left ({})", number(bytes as u64), hexadigits(there)),
    }
}

/// Bits, and which of the last byte stand for nothing.
fn padded(bits: &[u8], spare: u32) -> String {
    let lowest = if spare == 1 { "lowest bit".to_string() } else { format!("{spare} lowest bits") };
    let last = hexadigits(&bits[bits.len().saturating_sub(1)..]);
    format!("{}, the {lowest} of {last} should be 0", bytes(bits))
}
