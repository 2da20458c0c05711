//! Sailmortar converts the rows of VOTable tables between TABLEDATA, BINARY and BINARY2, any to any, with base64 as a step of its own.
//!
//! The converter is proved: whatever bytes come in, the answer is rows or one numbered refusal with its row and column, the good rows
//! before it stand whole in the output, and every byte after them is untouched. This crate is the thin, unproved layer over it: slices in,
//! results out. One row of a long stream of BINARY or BINARY2 is found by an [`Index`], of a file without reading the rest of it
//! ([`IndexedRows`]). Where two inputs differ, each of any kind of rows, [`compare()`] tells. On all cores, and from a reader of any length, a
//! [`Plan`] converts.
//!
//! ```
//! # fn main() -> Result<(), sailmortar::Error> {
//! use sailmortar::{convert_to_vec, Error, Rows};
//!
//! let fields = br#"<FIELD name="sky" datatype="short"><VALUES null="-99"/></FIELD>"#;
//! let mut bytes = Vec::new();
//! let done = convert_to_vec(fields, Rows::TableData, Rows::Binary2, b"<TR><TD>7</TD></TR><TR><TD/></TR>", &mut bytes)?;
//! assert_eq!(done.rows, 2);
//! assert_eq!(bytes, [0x00, 0x00, 0x07, 0x80, 0x00, 0x00]);
//!
//! // The good rows stand, and the refusal says where it went wrong.
//! bytes.clear();
//! match convert_to_vec(fields, Rows::TableData, Rows::Binary2, b"<TR><TD>7</TD></TR><TR><TD>seven</TD></TR>", &mut bytes) {
//!     Err(Error::Refused(refused)) => assert_eq!((refused.number, refused.row, refused.column), (11, 1, 0)),
//!     other => panic!("'seven' is no short, and the answer is {other:?}"),
//! }
//! assert_eq!(bytes, [0x00, 0x00, 0x07]);
//! # Ok(())
//! # }
//! ```

#![deny(unsafe_code)]

mod answer;
mod base64;
mod columns;
mod compare;
mod cuts;
mod face;
mod index;
mod index_file;
mod indexed_rows;
mod joined;
mod joining;
mod numbers;
mod parts;
mod pieces;
mod plan;
#[allow(unsafe_code)]
mod proved;
mod stream;
mod way;
mod workers;

pub use answer::{Done, Error, Refused, Rows};
pub use base64::{base64_decode_to_vec, base64_encode_to_vec, Base64Writer};
pub use columns::{columns, element, Column, Element, Kind, Length};
pub use compare::{compare_to_vec, Comparison, Input, Place, RefusedInput};
pub use index::{Index, Indexed, Stopped, ROWS_PER_START};
pub use index_file::Misfit;
pub use indexed_rows::IndexedRows;
pub use numbers::{meaning, Number, NUMBERS};
pub use parts::LONGEST_ROW;
pub use pieces::{convert_pieces, convert_to_vec, Piece};
pub use plan::Plan;
pub use proved::{base64_decode, base64_encode, compare, convert, declare, fetch, index};
pub use stream::{base64_decode_stream, base64_encode_stream, convert_stream, read_input, within_limit, ROOM};

/// The most bytes of a row input, or of an input of a base64 step.
pub const INPUT_LIMIT: usize = 1 << 30;

/// The most bytes of declarations.
pub const DECLARATIONS_LIMIT: usize = 1 << 16;
