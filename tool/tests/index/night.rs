//! Streams to find rows in.

use sailmortar::Rows;

/// An integer, which is the row's number, and a text of its own length.
pub const FIELDS: &[u8] = b"<FIELD name='n' datatype='int'/><FIELD name='note' datatype='char' arraysize='40*'/>";

/// So many rows; row 150 of BINARY2 has a text that is empty and not null, which TABLEDATA has no form for.
pub fn night(from: Rows, rows: usize) -> Vec<u8> {
    (0..rows).flat_map(|row| bytes_of(from, row)).collect()
}

fn bytes_of(from: Rows, row: usize) -> Vec<u8> {
    let note = note(row);
    let flags: &[u8] = if from == Rows::Binary2 { b"\0" } else { b"" };
    [flags, &(row as u32).to_be_bytes(), &(note.len() as u32).to_be_bytes(), note.as_bytes()].concat()
}

fn note(row: usize) -> String {
    if row == EMPTY {
        String::new()
    } else {
        "<&x".repeat(1 + row % 7)
    }
}

/// The row without a text.
pub const EMPTY: usize = 150;

/// Where a row begins.
pub fn start(from: Rows, row: usize) -> usize {
    night(from, row).len()
}

/// The line of a row that has a text.
pub fn line(row: usize) -> String {
    format!("<TR><TD>{row}</TD><TD>{}</TD></TR>\n", note(row).replace('&', "&amp;").replace('<', "&lt;"))
}
