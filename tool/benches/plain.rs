//! A plain converter, as one who knows the format would write it in Rust for speed: one thread, std only, and no
//! checks. It trusts its input and its room; on anything but valid rows it may write nonsense or crash. It reads every
//! valid spelling of the rows and writes what the rules have written.

use std::ptr::copy_nonoverlapping;

#[derive(Clone, Copy, PartialEq, Eq)]
pub enum Kind {
    Boolean,
    Bit,
    UnsignedByte,
    Short,
    Int,
    Long,
    Char,
}

#[derive(Clone, Copy)]
pub struct Column {
    kind: Kind,
    elements: usize,
    is_variable: bool,
    null: Option<i64>,
}

impl Column {
    fn width(&self) -> usize {
        match self.kind {
            Kind::Short => 2,
            Kind::Int => 4,
            Kind::Long => 8,
            _ => 1,
        }
    }

    #[inline(always)]
    fn content_size(&self, elements: usize) -> usize {
        match self.kind {
            Kind::Bit => elements.div_ceil(8),
            _ => elements * self.width(),
        }
    }

    fn is_scalar(&self) -> bool {
        self.elements == 1 && !self.is_variable
    }
}

/// The columns of declarations in the one spelling that the night has.
pub fn columns(declarations: &str) -> Vec<Column> {
    declarations.split("<FIELD").skip(1).map(column).collect()
}

fn column(field: &str) -> Column {
    let attribute = |name: &str| {
        let (_, rest) = field.split_once(&format!(" {name}=\""))?;
        rest.split('"').next()
    };
    let kind = match attribute("datatype").expect("a datatype") {
        "boolean" => Kind::Boolean,
        "bit" => Kind::Bit,
        "unsignedByte" => Kind::UnsignedByte,
        "short" => Kind::Short,
        "int" => Kind::Int,
        "long" => Kind::Long,
        _ => Kind::Char,
    };
    let arraysize = attribute("arraysize").unwrap_or("1");
    Column {
        kind,
        elements: arraysize.trim_end_matches('*').parse().unwrap_or(4_096),
        is_variable: arraysize.ends_with('*'),
        null: attribute("null").and_then(|value| value.parse().ok()),
    }
}

#[derive(Clone, Copy, PartialEq, Eq)]
pub enum Rows {
    TableData,
    Binary,
    Binary2,
}

/// Where a cell's content stands, in BINARY's form, and how many elements it shows.
#[derive(Clone, Copy)]
struct Place {
    content: Source,
    elements: usize,
}

/// A row that was read. The highest bit of `nulls` is the first column's.
struct Row {
    places: [Place; 64],
    nulls: u64,
}

/// Converts all rows; hands out how many they are and the bytes written.
///
/// # Safety
/// The input must be valid rows of these columns, and the room large enough for them.
pub unsafe fn convert(columns: &[Column], from: Rows, to: Rows, input: &[u8], out: &mut [u8]) -> (usize, usize) {
    let size: usize = columns.iter().map(|column| 8 + column.elements * column.width()).sum();
    let mut scratch = vec![0; size];
    let scratch = Output { next: scratch.as_mut_ptr() };
    let (first, end) = (out.as_mut_ptr(), unsafe { input.as_ptr().add(input.len()) });
    let (mut source, mut out) = (Source { next: input.as_ptr() }, Output { next: first });
    let mut row = Row { places: [Place { content: source, elements: 0 }; 64], nulls: 0 };
    let mut rows = 0;
    loop {
        if from == Rows::TableData {
            source.skip_white_space_before(end);
        }
        if source.next >= end {
            return (rows, out.next as usize - first as usize);
        }
        match (from, to) {
            (Rows::TableData, Rows::Binary2) => read_text_in_place(columns, &mut source, &mut out, &mut row),
            (Rows::TableData, _) => read_text(columns, &mut source, &mut scratch.clone(), &mut row),
            _ => read_binary(columns, from == Rows::Binary2, &mut source, &mut row),
        }
        match (from, to) {
            (Rows::TableData, Rows::Binary2) => {}
            (_, Rows::TableData) => write_text(columns, &row, &mut out),
            _ => write_binary(columns, to == Rows::Binary2, &row, &mut out),
        }
        rows += 1;
    }
}

/// A place to read from, trusted to have something there: valid rows end before the input does.
#[derive(Clone, Copy)]
struct Source {
    next: *const u8,
}

impl Source {
    #[inline(always)]
    fn here(self) -> u8 {
        self.ahead(0)
    }

    #[inline(always)]
    fn ahead(self, steps: usize) -> u8 {
        unsafe { *self.next.add(steps) }
    }

    #[inline(always)]
    fn after(self, steps: usize) -> Source {
        Source { next: unsafe { self.next.add(steps) } }
    }

    #[inline(always)]
    fn step(&mut self, steps: usize) {
        *self = self.after(steps);
    }

    #[inline(always)]
    fn bytes<const SIZE: usize>(self) -> [u8; SIZE] {
        unsafe { *self.next.cast::<[u8; SIZE]>() }
    }

    #[inline(always)]
    fn slice<'a>(self, size: usize) -> &'a [u8] {
        unsafe { std::slice::from_raw_parts(self.next, size) }
    }

    #[inline(always)]
    fn skip_white_space(&mut self) {
        while is_white_space(self.here()) {
            self.step(1);
        }
    }

    #[inline(always)]
    fn skip_white_space_before(&mut self, end: *const u8) {
        while self.next < end && is_white_space(self.here()) {
            self.step(1);
        }
    }

    #[inline(always)]
    fn skip_past(&mut self, byte: u8) {
        while self.here() != byte {
            self.step(1);
        }
        self.step(1);
    }
}

#[inline(always)]
fn is_white_space(byte: u8) -> bool {
    matches!(byte, 9 | 10 | 13 | 32)
}

/// A place to write to, trusted to have room enough.
#[derive(Clone)]
struct Output {
    next: *mut u8,
}

impl Output {
    #[inline(always)]
    fn put(&mut self, byte: u8) {
        self.put_bytes([byte]);
    }

    /// So many bytes as are known when this is compiled: no call, only a move.
    #[inline(always)]
    fn put_bytes<const SIZE: usize>(&mut self, bytes: [u8; SIZE]) {
        unsafe { *self.next.cast::<[u8; SIZE]>() = bytes };
        self.skip(SIZE);
    }

    #[inline(always)]
    fn put_all(&mut self, bytes: &[u8]) {
        unsafe { copy_nonoverlapping(bytes.as_ptr(), self.next, bytes.len()) };
        self.skip(bytes.len());
    }

    #[inline(always)]
    fn put_zeros(&mut self, count: usize) {
        unsafe { std::ptr::write_bytes(self.next, 0, count) };
        self.skip(count);
    }

    #[inline(always)]
    fn skip(&mut self, bytes: usize) {
        self.next = unsafe { self.next.add(bytes) };
    }
}

/// Text is read into BINARY2's very form, so that a row for BINARY2 is read where it is to stand.
fn read_text_in_place(columns: &[Column], source: &mut Source, out: &mut Output, row: &mut Row) {
    let mut flags = out.clone();
    let size = columns.len().div_ceil(8);
    out.skip(size);
    read_text(columns, source, out, row);
    flags.put_all(&row.nulls.to_be_bytes()[..size]);
}

#[inline(always)]
fn read_text(columns: &[Column], source: &mut Source, out: &mut Output, row: &mut Row) {
    source.skip_past(b'>');
    row.nulls = 0;
    for (place, column) in columns.iter().enumerate() {
        source.skip_white_space();
        source.step(3);
        while source.here() != b'>' && source.here() != b'/' {
            source.step(1);
        }
        let mut cell = out.clone();
        if column.is_variable {
            out.skip(4);
        }
        let content = Source { next: out.next };
        let mut elements = 0;
        if source.here() == b'/' {
            source.step(2);
        } else {
            source.step(1);
            elements = read_text_cell(column, source, out);
            source.step(4);
            source.skip_past(b'>');
        }
        row.places[place] = Place { content, elements };
        if elements == 0 || is_null_by_value(column, content) {
            row.nulls |= 1 << (63 - place);
            *out = cell;
            write_null(column, true, out);
        } else if column.is_variable {
            cell.put_bytes((elements as u32).to_be_bytes());
        } else if column.kind == Kind::Char {
            out.put_zeros(column.elements - elements);
        }
    }
    source.skip_white_space();
    source.skip_past(b'>');
}

#[inline(always)]
fn read_text_cell(column: &Column, source: &mut Source, out: &mut Output) -> usize {
    if column.kind == Kind::Char {
        return read_characters(source, out);
    }
    let (cell, content) = (*source, out.clone());
    match read_elements(column.kind, source, out) {
        Some(elements) => elements,
        None => {
            (*source, *out) = (cell, content);
            read_expanded(column.kind, source, out)
        }
    }
}

/// A reference among numbers is rare: the cell is expanded, then read again.
#[cold]
fn read_expanded(kind: Kind, source: &mut Source, out: &mut Output) -> usize {
    let mut end = *source;
    end.skip_past(b'<');
    let mut expanded = vec![0; end.next as usize - source.next as usize];
    let length = read_characters(source, &mut Output { next: expanded.as_mut_ptr() });
    expanded[length] = b'<';
    read_elements(kind, &mut Source { next: expanded.as_ptr() }, out).unwrap_or(0)
}

#[inline(always)]
fn read_characters(source: &mut Source, out: &mut Output) -> usize {
    let start = out.next;
    loop {
        match source.here() {
            b'<' => return out.next as usize - start as usize,
            b'&' => {
                let (character, after) = reference(*source);
                out.put(character);
                *source = after;
            }
            13 => *source = line_end(*source, out),
            byte => {
                out.put(byte);
                source.step(1);
            }
        }
    }
}

/// A 13 10, or a 13 alone, is one 10. Apart from the loop, so that the ways without one are compiled as if there were none.
#[cold]
#[inline(never)]
fn line_end(source: Source, out: &mut Output) -> Source {
    out.put(10);
    source.after(if source.ahead(1) == 10 { 2 } else { 1 })
}

/// The character that is meant, and where the text goes on.
#[cold]
fn reference(source: Source) -> (u8, Source) {
    let mut after = source;
    after.skip_past(b';');
    let size = after.next as usize - source.next as usize;
    let character = match source.slice(size) {
        b"&amp;" => b'&',
        b"&lt;" => b'<',
        b"&gt;" => b'>',
        b"&quot;" => b'"',
        b"&apos;" => b'\'',
        [b'&', b'#', b'x', digits @ .., _] => digits.iter().fold(0, |code, digit| code * 16 + hexadigit(*digit) as u8),
        number => number[2..size - 1].iter().fold(0, |code, digit| code * 10 + (digit - b'0')),
    };
    (character, after)
}

#[inline(always)]
fn hexadigit(digit: u8) -> u64 {
    u64::from(if digit <= b'9' { digit - b'0' } else { (digit | 32) - b'a' + 10 })
}

/// How many elements were read, or nothing where a reference stands among them.
#[inline(always)]
fn read_elements(kind: Kind, source: &mut Source, out: &mut Output) -> Option<usize> {
    match kind {
        Kind::Bit => read_bits(source, out),
        Kind::Boolean => read_words(source, |source| out.put(boolean_word(source))),
        Kind::UnsignedByte => read_words(source, |source| out.put(integer(source) as u8)),
        Kind::Short => read_words(source, |source| out.put_bytes((integer(source) as i16).to_be_bytes())),
        Kind::Int => read_words(source, |source| out.put_bytes((integer(source) as i32).to_be_bytes())),
        _ => read_words(source, |source| out.put_bytes(integer(source).to_be_bytes())),
    }
}

#[inline(always)]
fn read_words(source: &mut Source, mut read: impl FnMut(&mut Source)) -> Option<usize> {
    let mut elements = 0;
    loop {
        source.skip_white_space();
        match source.here() {
            b'<' => return Some(elements),
            b'&' => return None,
            _ => read(source),
        }
        elements += 1;
    }
}

#[inline(always)]
fn boolean_word(source: &mut Source) -> u8 {
    let letter = match source.here() {
        b'T' | b't' | b'1' => b'T',
        b'?' => b'?',
        _ => b'F',
    };
    while !matches!(source.here(), 9 | 10 | 13 | 32 | b'<' | b'&') {
        source.step(1);
    }
    letter
}

#[inline(always)]
fn read_bits(source: &mut Source, out: &mut Output) -> Option<usize> {
    let (mut elements, mut byte) = (0, 0);
    source.skip_white_space();
    while source.here() & 0xfe == b'0' {
        byte = byte << 1 | (source.here() & 1);
        elements += 1;
        source.step(1);
        if elements % 8 == 0 {
            out.put(byte);
            byte = 0;
        }
    }
    if elements % 8 != 0 {
        out.put(byte << (8 - elements % 8));
    }
    source.skip_white_space();
    (source.here() != b'&').then_some(elements)
}

/// Decimal or hexadigits; the caller takes as many of the lowest bits as its kind has.
#[inline(always)]
fn integer(source: &mut Source) -> i64 {
    let is_negative = source.here() == b'-';
    if is_negative || source.here() == b'+' {
        source.step(1);
    }
    let mut value = 0u64;
    if source.here() == b'0' && source.ahead(1) == b'x' {
        source.step(2);
        while source.here().is_ascii_hexdigit() {
            value = value << 4 | hexadigit(source.here());
            source.step(1);
        }
        return value as i64;
    }
    loop {
        let digit = source.here().wrapping_sub(b'0');
        if digit > 9 {
            break;
        }
        value = value.wrapping_mul(10).wrapping_add(u64::from(digit));
        source.step(1);
    }
    if is_negative {
        (value as i64).wrapping_neg()
    } else {
        value as i64
    }
}

#[inline(always)]
fn is_null_by_value(column: &Column, content: Source) -> bool {
    match column.null {
        Some(null) => number(column.kind, content) == null,
        None => column.kind == Kind::Boolean && column.is_scalar() && matches!(content.here(), 0 | b' ' | b'?'),
    }
}

#[inline(always)]
fn number(kind: Kind, content: Source) -> i64 {
    match kind {
        Kind::UnsignedByte => i64::from(content.here()),
        Kind::Short => i64::from(i16::from_be_bytes(content.bytes())),
        Kind::Int => i64::from(i32::from_be_bytes(content.bytes())),
        _ => i64::from_be_bytes(content.bytes()),
    }
}

fn read_binary(columns: &[Column], flagged: bool, source: &mut Source, row: &mut Row) {
    row.nulls = 0;
    if flagged {
        let size = columns.len().div_ceil(8);
        let flags = source.slice(size).iter().fold(0, |flags, byte| flags << 8 | u64::from(*byte));
        row.nulls = flags << (64 - 8 * size);
        source.step(size);
    }
    for (place, column) in columns.iter().enumerate() {
        let mut elements = column.elements;
        if column.is_variable {
            elements = u32::from_be_bytes(source.bytes()) as usize;
            source.step(4);
        }
        let content = *source;
        source.step(column.content_size(elements));
        if column.kind == Kind::Char {
            elements = content.slice(elements).iter().position(|byte| *byte == 0).unwrap_or(elements);
        }
        row.places[place] = Place { content, elements };
        if (elements == 0 && !flagged) || (elements != 0 && is_null_by_value(column, content)) {
            row.nulls |= 1 << (63 - place);
        }
    }
}

fn write_binary(columns: &[Column], flagged: bool, row: &Row, out: &mut Output) {
    if flagged {
        out.put_all(&row.nulls.to_be_bytes()[..columns.len().div_ceil(8)]);
    }
    for (place, column) in columns.iter().enumerate() {
        let Place { content, elements } = row.places[place];
        if row.nulls & (1 << (63 - place)) != 0 {
            write_null(column, flagged, out);
            continue;
        }
        if column.is_variable {
            out.put_bytes((elements as u32).to_be_bytes());
        }
        match (column.kind, column.is_scalar()) {
            (Kind::Boolean, _) => content.slice(elements).iter().for_each(|byte| out.put(boolean_letter(*byte))),
            (Kind::Bit | Kind::UnsignedByte, true) => out.put(content.here()),
            (Kind::Short, true) => out.put_bytes(content.bytes::<2>()),
            (Kind::Int, true) => out.put_bytes(content.bytes::<4>()),
            (Kind::Long, true) => out.put_bytes(content.bytes::<8>()),
            _ => out.put_all(content.slice(column.content_size(elements))),
        }
        if column.kind == Kind::Char && !column.is_variable {
            out.put_zeros(column.elements - elements);
        }
    }
}

#[inline(always)]
fn write_null(column: &Column, flagged: bool, out: &mut Output) {
    match (column.kind, column.null) {
        _ if column.is_variable => out.put_bytes([0; 4]),
        (Kind::Boolean, _) if !flagged => out.put(b'?'),
        (_, Some(null)) if !flagged => out.put_all(&null.to_be_bytes()[8 - column.width()..]),
        _ => out.put_zeros(column.content_size(column.elements)),
    }
}

#[inline(always)]
fn boolean_letter(byte: u8) -> u8 {
    match byte {
        b'T' | b't' | b'1' => b'T',
        b'F' | b'f' | b'0' => b'F',
        _ => b'?',
    }
}

fn write_text(columns: &[Column], row: &Row, out: &mut Output) {
    out.put_bytes(*b"<TR>");
    for (place, column) in columns.iter().enumerate() {
        if row.nulls & (1 << (63 - place)) != 0 {
            out.put_bytes(*b"<TD/>");
            continue;
        }
        out.put_bytes(*b"<TD>");
        write_text_elements(column.kind, row.places[place], out);
        out.put_bytes(*b"</TD>");
    }
    out.put_bytes(*b"</TR>\n");
}

#[inline(always)]
fn write_text_elements(kind: Kind, Place { content, elements }: Place, out: &mut Output) {
    match kind {
        Kind::Char => write_characters(content.slice(elements), out),
        Kind::Bit => (0..elements).for_each(|place| out.put(b'0' + (content.ahead(place / 8) >> (7 - place % 8) & 1))),
        Kind::Boolean => write_words(elements, out, |place, out| out.put(boolean_letter(content.ahead(place)))),
        Kind::UnsignedByte => write_words(elements, out, |place, out| write_decimal(number(kind, content.after(place)), out)),
        Kind::Short => write_words(elements, out, |place, out| write_decimal(number(kind, content.after(2 * place)), out)),
        Kind::Int => write_words(elements, out, |place, out| write_decimal(number(kind, content.after(4 * place)), out)),
        Kind::Long => write_words(elements, out, |place, out| write_decimal(number(kind, content.after(8 * place)), out)),
    }
}

#[inline(always)]
fn write_words(elements: usize, out: &mut Output, write: impl Fn(usize, &mut Output)) {
    for place in 0..elements {
        if place > 0 {
            out.put(b' ');
        }
        write(place, out);
    }
}

#[inline(always)]
fn write_characters(characters: &[u8], out: &mut Output) {
    for character in characters {
        match character {
            b'&' => out.put_bytes(*b"&amp;"),
            b'<' => out.put_bytes(*b"&lt;"),
            b'>' => out.put_bytes(*b"&gt;"),
            13 => out.put_bytes(*b"&#xD;"),
            _ => out.put(*character),
        }
    }
}

/// The digits of 0 to 99, two for each.
static PAIRS: [[u8; 2]; 100] = {
    let mut pairs = [[0; 2]; 100];
    let mut value = 0;
    while value < 100 {
        pairs[value] = [b'0' + (value / 10) as u8, b'0' + (value % 10) as u8];
        value += 1;
    }
    pairs
};

#[inline(always)]
fn write_decimal(value: i64, out: &mut Output) {
    if value < 0 {
        out.put(b'-');
    }
    let mut rest = value.unsigned_abs();
    let size = rest.max(1).ilog10() as usize + 1;
    let digits = unsafe { std::slice::from_raw_parts_mut(out.next, size) };
    let mut first = size;
    while rest >= 10 {
        first -= 2;
        unsafe { *digits.as_mut_ptr().add(first).cast() = PAIRS[(rest % 100) as usize] };
        rest /= 100;
    }
    if first > 0 {
        digits[0] = b'0' + rest as u8;
    }
    out.skip(size);
}

const ALPHABET: &[u8; 64] = b"ABCDEFGHIJKLMNOPQRSTUVWXYZabcdefghijklmnopqrstuvwxyz0123456789+/";
const WHITE_SPACE: u8 = 254;
const PADDING: u8 = 253;

static LETTERS: [u8; 256] = {
    let mut letters = [255; 256];
    let mut value = 0;
    while value < 64 {
        letters[ALPHABET[value] as usize] = value as u8;
        value += 1;
    }
    letters[9] = WHITE_SPACE;
    letters[10] = WHITE_SPACE;
    letters[13] = WHITE_SPACE;
    letters[32] = WHITE_SPACE;
    letters[b'=' as usize] = PADDING;
    letters
};

/// Encodes; hands out the bytes written.
pub fn base64_encode(input: &[u8], out: &mut [u8]) -> usize {
    let letter = |bits: usize| ALPHABET[bits & 63];
    let groups = input.chunks_exact(3);
    let (rest, tail) = (groups.remainder(), input.len() / 3 * 4);
    for (group, place) in groups.zip(out.chunks_exact_mut(4)) {
        let bits = usize::from(group[0]) << 16 | usize::from(group[1]) << 8 | usize::from(group[2]);
        place.copy_from_slice(&[letter(bits >> 18), letter(bits >> 12), letter(bits >> 6), letter(bits)]);
    }
    match *rest {
        [first] => {
            let bits = usize::from(first) << 4;
            out[tail..tail + 4].copy_from_slice(&[letter(bits >> 6), letter(bits), b'=', b'=']);
        }
        [first, second] => {
            let bits = usize::from(first) << 10 | usize::from(second) << 2;
            out[tail..tail + 4].copy_from_slice(&[letter(bits >> 12), letter(bits >> 6), letter(bits), b'=']);
        }
        _ => {}
    }
    input.len().div_ceil(3) * 4
}

/// Decodes and, unlike the rest of this file, checks: the bytes written, or nothing where the letters are no base64.
pub fn base64_decode(input: &[u8], out: &mut [u8]) -> Option<usize> {
    let first = out.as_mut_ptr();
    let mut out = Output { next: first };
    let (mut at, mut bits, mut letters, mut padding) = (0, 0u32, 0, 0);
    while at < input.len() {
        if letters == 0 && padding == 0 {
            at += decode_groups(&input[at..], &mut out);
            if at == input.len() {
                break;
            }
        }
        match LETTERS[usize::from(input[at])] {
            WHITE_SPACE => {}
            PADDING => padding += 1,
            value if value < 64 && padding == 0 => {
                bits = bits << 6 | u32::from(value);
                letters += 1;
            }
            _ => return None,
        }
        if letters == 4 {
            out.put_bytes([(bits >> 16) as u8, (bits >> 8) as u8, bits as u8]);
            (letters, bits) = (0, 0);
        }
        at += 1;
    }
    match (letters, padding) {
        (0, 0) => {}
        (2, 2) if bits & 15 == 0 => out.put((bits >> 4) as u8),
        (3, 1) if bits & 3 == 0 => out.put_bytes(((bits >> 2) as u16).to_be_bytes()),
        _ => return None,
    }
    Some(out.next as usize - first as usize)
}

/// Groups of four letters with nothing between, as most of a stream is; hands out how many letters they have.
#[inline(always)]
fn decode_groups(input: &[u8], out: &mut Output) -> usize {
    let mut done = 0;
    for group in input.chunks_exact(4) {
        let [first, second, third, fourth] = [0, 1, 2, 3].map(|place| LETTERS[usize::from(group[place])]);
        if first | second | third | fourth > 63 {
            break;
        }
        let bits = u32::from(first) << 18 | u32::from(second) << 12 | u32::from(third) << 6 | u32::from(fourth);
        out.put_bytes([(bits >> 16) as u8, (bits >> 8) as u8, bits as u8]);
        done += 4;
    }
    done
}
