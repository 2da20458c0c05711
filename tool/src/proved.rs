//! The calls of the proved archive (face.rs) are made here, and everything unsafe in the library is in this file.

use std::mem::MaybeUninit;

use crate::face::{sailmortar_base64_decode, sailmortar_base64_encode, sailmortar_convert_piece, sailmortar_declare};
use crate::face::{sailmortar_compare, sailmortar_fetch, sailmortar_index, sailmortar_join};
use crate::joined::Call;
use crate::{Comparison, Done, Input, Place, Refused, RefusedInput, Rows, ROWS_PER_START};

/// Room that is lent for bytes to be written to. What it held before need not be anything.
type Room = [MaybeUninit<u8>];

fn room_of(out: &mut [u8]) -> &mut Room {
    // SAFETY: the two have one layout, and the proved functions put nothing but bytes there.
    unsafe { &mut *(out as *mut [u8] as *mut Room) }
}

/// Calls with the room that a Vec has behind its elements, and counts what is written there among them.
fn behind(out: &mut Vec<u8>, call: impl FnOnce(&mut Room) -> Result<Done, Refused>) -> Result<Done, Refused> {
    let answer = call(out.spare_capacity_mut());
    let written = answer.map_or_else(|refused| refused.bytes, |done| done.bytes);
    // SAFETY: the proved functions answer how many bytes they wrote from the start of the room, and that is no more than the room has.
    unsafe { out.set_len(out.len() + written as usize) };
    answer
}

fn outcome([number, row, column, rows, bytes]: [u64; 5], offset: u64) -> Result<Done, Refused> {
    match number {
        0 => Ok(Done { rows, bytes }),
        _ => Err(Refused { number, row, column, rows, bytes, offset: offset as usize }),
    }
}

fn convert_in(decls: &[u8], from: Rows, to: Rows, input: &[u8], out: &mut Room) -> [u64; 6] {
    let mut answer = [0; 6];
    // SAFETY: each pointer and length is a slice's own, and `out` and `answer` are lent to this call alone.
    unsafe {
        sailmortar_convert_piece(
            decls.as_ptr(),
            decls.len(),
            from.number(),
            to.number(),
            input.as_ptr(),
            input.len(),
            out.as_mut_ptr().cast(),
            out.len(),
            &mut answer,
        );
    }
    answer
}

fn decode_in(input: &[u8], out: &mut Room) -> Result<Done, Refused> {
    let mut answer = [0; 5];
    // SAFETY: as in `convert_in`.
    unsafe { sailmortar_base64_decode(input.as_ptr(), input.len(), out.as_mut_ptr().cast(), out.len(), &mut answer) };
    outcome(answer, 0)
}

fn encode_in(input: &[u8], out: &mut Room) -> Result<Done, Refused> {
    let mut answer = [0; 5];
    // SAFETY: as in `convert_in`.
    unsafe { sailmortar_base64_encode(input.as_ptr(), input.len(), out.as_mut_ptr().cast(), out.len(), &mut answer) };
    outcome(answer, 0)
}

/// Room that is lent for starts of rows.
type Places = [MaybeUninit<u32>];

fn index_in(decls: &[u8], from: Rows, input: &[u8], index: &mut Places) -> Result<Done, Refused> {
    let mut answer = [0; 5];
    // SAFETY: as in `convert_in`; `index` is lent to this call alone, too.
    unsafe {
        sailmortar_index(
            decls.as_ptr(),
            decls.len(),
            from.number(),
            input.as_ptr(),
            input.len(),
            index.as_mut_ptr().cast(),
            index.len(),
            &mut answer,
        );
    }
    outcome(answer, 0)
}

fn fetch_in(decls: &[u8], from: Rows, input: &[u8], index: &[u32], rows: u64, row: u64, out: &mut Room) -> Result<Done, Refused> {
    let mut answer = [0; 5];
    // SAFETY: as in `convert_in`.
    unsafe {
        sailmortar_fetch(
            decls.as_ptr(),
            decls.len(),
            from.number(),
            input.as_ptr(),
            input.len(),
            index.as_ptr(),
            index.len(),
            rows,
            row,
            out.as_mut_ptr().cast(),
            out.len(),
            &mut answer,
        );
    }
    outcome(answer, 0)
}

/// Converts rows, from the kind `from` to the kind `to`, into `out`.
///
/// `decls` is the text of the FIELD elements. Accepted or refused, the rows done stand whole in `out`, and every byte after them is as it
/// was. A row that does not fit is refusal 17; [`convert_to_vec`](crate::convert_to_vec) makes the room itself.
///
/// The input may be a piece of a table, such as its front while the rest is still to come: a row that is cut is refused (8, of TABLEDATA
/// 10), and the next piece begins at the refusal's `offset`, with what has come since.
pub fn convert(decls: &[u8], from: Rows, to: Rows, input: &[u8], out: &mut [u8]) -> Result<Done, Refused> {
    let [five @ .., offset] = convert_in(decls, from, to, input, room_of(out));
    outcome(five, offset)
}

/// The same into the room that a Vec has behind its elements, with every number that the call answers.
pub(crate) fn convert_behind(decls: &[u8], from: Rows, to: Rows, input: &[u8], out: &mut Vec<u8>) -> [u64; 6] {
    let answer = convert_in(decls, from, to, input, out.spare_capacity_mut());
    // SAFETY: as in `behind`.
    unsafe { out.set_len(out.len() + answer[4] as usize) };
    answer
}

/// Joins calls on parts of an input to what was joined before, as far as they can be joined.
pub(crate) fn join(length: u64, room: u64, calls: &[Call], joined: &mut [u64; 8]) {
    let parts = calls.as_flattened();
    // SAFETY: as in `convert_in`; `joined` is lent to this call alone.
    unsafe { sailmortar_join(length, room, parts.as_ptr(), parts.len(), joined) };
}

/// Decodes base64 (RFC 4648, white space skipped anywhere) into `out`. A refusal (6, 7 or 17) writes nothing.
pub fn base64_decode(input: &[u8], out: &mut [u8]) -> Result<Done, Refused> {
    decode_in(input, room_of(out))
}

pub(crate) fn decode_behind(input: &[u8], out: &mut Vec<u8>) -> Result<Done, Refused> {
    behind(out, |room| decode_in(input, room))
}

/// Encodes bytes as base64, without line breaks, into `out`. A refusal (6 or 17) writes nothing.
pub fn base64_encode(input: &[u8], out: &mut [u8]) -> Result<Done, Refused> {
    encode_in(input, room_of(out))
}

pub(crate) fn encode_behind(input: &[u8], out: &mut Vec<u8>) -> Result<Done, Refused> {
    behind(out, |room| encode_in(input, room))
}

/// Judges declarations alone: how many columns they declare, or their refusal, with its place as the column.
pub fn declare(decls: &[u8]) -> Result<u64, Refused> {
    let mut answer = [0; 5];
    // SAFETY: as in `convert_in`.
    unsafe { sailmortar_declare(decls.as_ptr(), decls.len(), &mut answer) };
    match answer {
        [0, _, _, columns, _] => Ok(columns),
        [number, _, place, _, _] => Err(Refused { number, row: 0, column: place, rows: 0, bytes: 0, offset: 0 }),
    }
}

/// Where every 64th row of a stream of BINARY or BINARY2 begins, into `index`: place k gets the start of row 64k.
///
/// The answer's rows are those that were read well; [`fetch`] takes them with the index. A stream that does not read is refused as in
/// [`convert`]; the places of the rows before are filled, and every other place is as it was. A row 64k for which there is no place k is
/// refusal 17. TABLEDATA is refusal 255. A refusal's offset is 0; [`Index::build`](crate::Index::build), which makes the room itself, tells it.
pub fn index(decls: &[u8], from: Rows, input: &[u8], index: &mut [u32]) -> Result<Done, Refused> {
    // SAFETY: the two have one layout, and the proved function puts nothing but numbers there.
    index_in(decls, from, input, unsafe { &mut *(index as *mut [u32] as *mut Places) })
}

pub(crate) fn index_behind(decls: &[u8], from: Rows, input: &[u8], index: &mut Vec<u32>) -> Result<Done, Refused> {
    let answer = index_in(decls, from, input, index.spare_capacity_mut());
    let rows = answer.map_or_else(|refused| refused.rows, |done| done.rows);
    // SAFETY: the proved function fills place k of the room when it has read row 64k, and answers how many rows it has read.
    unsafe { index.set_len(index.len() + rows.div_ceil(ROWS_PER_START) as usize) };
    answer
}

/// One row of a stream of BINARY or BINARY2 as a line of TABLEDATA, into `out`, by the index and the count of rows that [`index`] gave for the
/// same stream and declarations.
///
/// A refusal stands at the row asked for and writes nothing: 20 where the stream has no such row, what the row is refused with where it has no
/// form in TABLEDATA, 17 where `out` has no room for its line. A refusal's offset is 0.
///
/// What is answered depends, of the input, only on its length and on the bytes from the start at place `row / 64` to the row's end (where that
/// row, or one on the way to it, does not read, on all that follow the start), and, of the index, only on its length and that place: the rest
/// need not be there. With an index of another stream the answer is some row, or a refusal.
pub fn fetch(decls: &[u8], from: Rows, input: &[u8], index: &[u32], rows: u64, row: u64, out: &mut [u8]) -> Result<Done, Refused> {
    fetch_in(decls, from, input, index, rows, row, room_of(out))
}

pub(crate) fn fetch_behind(
    decls: &[u8],
    from: Rows,
    input: &[u8],
    index: &[u32],
    rows: u64,
    row: u64,
    out: &mut Vec<u8>,
) -> Result<Done, Refused> {
    behind(out, |room| fetch_in(decls, from, input, index, rows, row, room))
}

fn compare_in(
    decls: &[u8],
    from_first: Rows,
    first: &[u8],
    from_second: Rows,
    second: &[u8],
    places: &mut [MaybeUninit<Place>],
) -> Result<Comparison, RefusedInput> {
    let mut answer = [0; 8];
    // SAFETY: as in `convert_in`; a place is two numbers, one behind the other, and `places` is lent to this call alone, too.
    unsafe {
        sailmortar_compare(
            decls.as_ptr(),
            decls.len(),
            from_first.number(),
            first.as_ptr(),
            first.len(),
            from_second.number(),
            second.as_ptr(),
            second.len(),
            places.as_mut_ptr().cast(),
            2 * places.len(),
            &mut answer,
        );
    }
    match answer {
        [0, _, _, _, differing, first_beyond, second_beyond, places] => {
            Ok(Comparison { differing, first_beyond, second_beyond, places: places as usize })
        }
        [number, row, column, input, ..] => {
            let refused = Refused { number, row, column, rows: 0, bytes: 0, offset: 0 };
            Err(RefusedInput { input: refused_input(decls, input), refused })
        }
    }
}

/// Which input is refused, from its number. Declarations that are refused are what is refused: nothing is judged before them.
fn refused_input(decls: &[u8], input: u64) -> Input {
    match input {
        _ if declare(decls).is_err() => Input::Declarations,
        0 => Input::First,
        _ => Input::Second,
    }
}

/// Where two inputs under the same declarations differ, each of any kind of rows: the first places that differ go into `places`, as many as
/// fit, in the order of rows, and in a row of columns; every other place is as it was.
///
/// Cells differ where what they show differs: how that is spelled does not matter. A cell of BINARY2 that is empty and not null differs from a
/// null. The counts of the answer are exact, however little room there is; [`compare_to_vec`](crate::compare_to_vec) makes the room itself.
///
/// The first input is judged whole before the second, as [`convert`] to BINARY2 judges it where there is room enough: only reading can refuse.
/// Then nothing is compared, and `places` is as it was.
///
/// ```
/// use sailmortar::{compare, Input, Place, Rows};
///
/// let fields = b"<FIELD datatype='short'/>";
/// let mut places = [Place::default(); 1];
/// let compared = compare(fields, Rows::Binary, &[0, 7, 0, 8, 0, 9], Rows::Binary, &[0, 7, 0, 0, 0, 0], &mut places).unwrap();
/// assert!(!compared.is_same());
/// assert_eq!((compared.differing, places), (2, [Place { row: 1, column: 0 }]));
///
/// let cut = compare(fields, Rows::Binary, &[0, 7], Rows::Binary, &[0], &mut []).unwrap_err();
/// assert_eq!((cut.input, cut.refused.number, cut.refused.row), (Input::Second, 8, 0));
/// ```
pub fn compare(
    decls: &[u8],
    from_first: Rows,
    first: &[u8],
    from_second: Rows,
    second: &[u8],
    places: &mut [Place],
) -> Result<Comparison, RefusedInput> {
    // SAFETY: the two have one layout, and the proved function puts nothing but numbers there.
    compare_in(decls, from_first, first, from_second, second, unsafe { &mut *(places as *mut [Place] as *mut [MaybeUninit<Place>]) })
}

pub(crate) fn compare_behind(
    decls: &[u8],
    from_first: Rows,
    first: &[u8],
    from_second: Rows,
    second: &[u8],
    places: &mut Vec<Place>,
) -> Result<Comparison, RefusedInput> {
    let compared = compare_in(decls, from_first, first, from_second, second, places.spare_capacity_mut())?;
    // SAFETY: the proved function answers how many places it filled from the start of the room, and that is no more than the room has.
    unsafe { places.set_len(places.len() + compared.places) };
    Ok(compared)
}
