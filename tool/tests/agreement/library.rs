//! The layer over the proved functions, which is not proved: slices, growing rooms, pieces, and the columns it reads off.

use super::compare::seeds;
use crate::generate::columns::{declarations, some, spelled_declarations};
use crate::generate::damage::damaged;
use crate::generate::rows::{spelled, table};
use crate::generate::Random;
use crate::model::converter::{self, Rows, EVERY_KIND_OF_ROWS};
use crate::model::{self, Answer, Column, Kind, Length};
use sailmortar::{base64_decode, base64_decode_to_vec, base64_encode, base64_encode_to_vec, Base64Writer};
use sailmortar::{convert, convert_pieces, convert_to_vec, declare, Done, Error, Refused};
use std::io::Write;

fn proved_rows(rows: Rows) -> sailmortar::Rows {
    match rows {
        Rows::TableData => sailmortar::Rows::TableData,
        Rows::Binary => sailmortar::Rows::Binary,
        Rows::Binary2 => sailmortar::Rows::Binary2,
    }
}

fn numbers(answer: Result<Done, Refused>) -> Answer {
    match answer {
        Ok(done) => [0, 0, 0, done.rows, done.bytes],
        Err(refused) => [refused.number, refused.row, refused.column, refused.rows, refused.bytes],
    }
}

/// The refusal of a call that makes its own room; the system says no to none of these.
fn refusal(error: Error) -> Refused {
    *error.refused().unwrap_or_else(|| panic!("{error}"))
}

/// The numbers of a conversion, and the place where the rows done end: a refusal's own, or the length of the input.
fn six(answer: Result<Done, Refused>, length: usize) -> [u64; 6] {
    let [number, row, column, rows, bytes] = numbers(answer);
    [number, row, column, rows, bytes, answer.map_or_else(|refused| refused.offset, |_| length) as u64]
}

/// A stream of a few rows, every other one damaged, with its columns.
fn stream(random: &mut Random, from: Rows, seed: u64) -> (Vec<Column>, Vec<u8>) {
    let columns = some(random, 1, 4);
    let rows = random.below(12);
    let table = table(random, &columns, from, rows);
    let good = spelled(random, &columns, from, &table);
    let input = if seed.is_multiple_of(2) { damaged(random, &good) } else { good };
    (columns, input)
}

/// Declarations of a few columns in some spelling, every other text damaged.
fn some_declarations(random: &mut Random, seed: u64) -> Vec<u8> {
    let columns = some(random, 1, 5);
    let good = spelled_declarations(random, &columns);
    if seed.is_multiple_of(2) {
        damaged(random, &good)
    } else {
        good
    }
}

/// Room for so many bytes with these at its front.
fn room_with(room: usize, bytes: &[u8]) -> Vec<u8> {
    let mut out = vec![0xEE; room];
    out[..bytes.len()].copy_from_slice(bytes);
    out
}

/// Where the last of so many rows ends.
fn end_of_rows(columns: &[Column], from: Rows, input: &[u8], rows: u64) -> usize {
    (0..rows).fold(0, |at, _| match converter::read_row(columns, from, input, at) {
        Ok(Some((_, end))) => end,
        other => panic!("{other:?} in a row that was written"),
    })
}

#[test]
fn room_that_grows_is_room_enough() {
    for seed in seeds(70_000_000, 6_000) {
        let mut random = Random::new(seed);
        let from = random.pick(&EVERY_KIND_OF_ROWS);
        let (columns, input) = stream(&mut random, from, seed);
        let text = declarations(&columns);
        for to in EVERY_KIND_OF_ROWS {
            let expected = converter::convert(&text, from, to, &input, usize::MAX);
            // What stands in the Vec before stays, and what is in it already is no room.
            let mut bytes = vec![0xEE; random.below(3)];
            let before = bytes.len();
            let answer = convert_to_vec(&text, proved_rows(from), proved_rows(to), &input, &mut bytes);
            assert_eq!(numbers(answer.map_err(refusal)), expected.answer, "seed {seed}");
            assert_eq!(bytes.split_at(before), (&[0xEE; 2][..before], &expected.bytes[..]), "seed {seed}");
        }
    }
}

#[test]
fn pieces_are_the_whole() {
    for seed in seeds(71_000_000, 6_000) {
        let mut random = Random::new(seed);
        let from = random.pick(&EVERY_KIND_OF_ROWS);
        let (columns, input) = stream(&mut random, from, seed);
        let text = declarations(&columns);
        for to in EVERY_KIND_OF_ROWS {
            let expected = converter::convert_piece(&text, from, to, &input, usize::MAX);
            let room = random.pick(&[0, 1, 7, 30, 100, 1_000]);
            let mut bytes: Vec<u8> = Vec::new();
            let converted = convert_pieces(&text, proved_rows(from), proved_rows(to), &input, room, |piece| {
                bytes.extend(piece.bytes);
                // White space behind the last row is read with it.
                assert!(piece.read == input.len() || piece.read == end_of_rows(&columns, from, &input, piece.rows), "seed {seed}");
                Ok(())
            });
            let told = format!("seed {seed} from {from:?} to {to:?}: {}", input.escape_ascii());
            assert_eq!(six(converted.map_err(refusal), input.len()), expected.six(), "{told}");
            assert_eq!(bytes, expected.written.bytes, "{told}");
        }
    }
}

#[test]
fn a_conversion_into_a_slice_tells_what_the_model_does() {
    for seed in seeds(74_000_000, 6_000) {
        let mut random = Random::new(seed);
        let from = random.pick(&EVERY_KIND_OF_ROWS);
        let (columns, input) = stream(&mut random, from, seed);
        let text = declarations(&columns);
        let to = random.pick(&EVERY_KIND_OF_ROWS);
        let whole = converter::convert(&text, from, to, &input, usize::MAX).bytes.len();
        let room = random.below(whole + 2);
        let expected = converter::convert_piece(&text, from, to, &input, room);
        let mut out = room_with(room, b"");
        let answer = convert(&text, proved_rows(from), proved_rows(to), &input, &mut out);
        let told = format!("seed {seed} from {from:?} to {to:?}: {}", input.escape_ascii());
        assert_eq!((six(answer, input.len()), out), (expected.six(), room_with(room, &expected.written.bytes)), "{told}");
    }
}

#[test]
fn declarations_are_judged_as_the_model_judges_them() {
    for seed in seeds(76_000_000, 20_000) {
        let text = some_declarations(&mut Random::new(seed), seed);
        let expected = match converter::declare(&text) {
            [0, 0, 0, columns, 0] => Ok(columns),
            refused => Err(refused),
        };
        let judged = declare(&text).map_err(|refused| numbers(Err(refused)));
        assert_eq!(judged, expected, "seed {seed}: {}", text.escape_ascii());
    }
}

#[test]
fn columns_are_read_off_as_they_are_declared() {
    for seed in seeds(72_000_000, 20_000) {
        let text = some_declarations(&mut Random::new(seed), seed);
        let told = || format!("seed {seed}: {}", text.escape_ascii());
        match (model::declarations::read(&text), sailmortar::columns(&text)) {
            (Ok(expected), Ok(columns)) => {
                let read_off = columns.iter().map(|column| (kind(column.kind), length(column.length), column.null));
                let expected = expected.iter().map(|column| (column.kind, column.length, column.null));
                assert!(read_off.eq(expected), "{}", told());
            }
            (Err((number, place)), Err(refusal)) => {
                assert_eq!((number, 0, place as u64), (refusal.number, refusal.row, refusal.column), "{}", told());
            }
            (expected, columns) => panic!("{}: {expected:?} {columns:?}", told()),
        }
    }
}

fn kind(kind: sailmortar::Kind) -> Kind {
    match kind {
        sailmortar::Kind::Boolean => Kind::Boolean,
        sailmortar::Kind::Bit => Kind::Bit,
        sailmortar::Kind::UnsignedByte => Kind::UnsignedByte,
        sailmortar::Kind::Short => Kind::Short,
        sailmortar::Kind::Int => Kind::Int,
        sailmortar::Kind::Long => Kind::Long,
        sailmortar::Kind::Char => Kind::Char,
        other => panic!("{other:?} is no kind of the model's"),
    }
}

fn length(length: sailmortar::Length) -> Length {
    match length {
        sailmortar::Length::Fixed(elements) => Length::Fixed(elements),
        sailmortar::Length::Bounded(elements) => Length::Bounded(elements),
        sailmortar::Length::Free => Length::Free,
        other => panic!("{other:?} is no length of the model's"),
    }
}

#[test]
fn base64_into_a_slice_tells_what_the_model_does() {
    for seed in seeds(75_000_000, 6_000) {
        let mut random = Random::new(seed);
        let size = random.below(200);
        let plain = random.bytes(size);
        let letters = model::base64::encode(&plain, usize::MAX).bytes;
        // A byte less than it takes, just enough, and a byte more.
        let mut room_for = |size: usize| (size + random.below(3)).saturating_sub(1);
        let (plain_room, letters_room) = (room_for(plain.len()), room_for(letters.len()));
        let expected = model::base64::encode(&plain, letters_room);
        let mut out = room_with(letters_room, b"");
        let answer = base64_encode(&plain, &mut out);
        assert_eq!((numbers(answer), out), (expected.answer, room_with(letters_room, &expected.bytes)), "seed {seed}");
        let letters = if seed.is_multiple_of(2) { damaged(&mut random, &letters) } else { letters };
        let expected = model::base64::decode(&letters, plain_room);
        let mut out = room_with(plain_room, b"");
        let answer = base64_decode(&letters, &mut out);
        assert_eq!((numbers(answer), out), (expected.answer, room_with(plain_room, &expected.bytes)), "seed {seed}");
    }
}

#[test]
fn base64_of_any_size_and_in_pieces() {
    for seed in seeds(73_000_000, 4_000) {
        let mut random = Random::new(seed);
        let size = random.below(200);
        let plain = random.bytes(size);
        let expected = model::base64::encode(&plain, usize::MAX);
        let mut letters = Vec::new();
        let answer = base64_encode_to_vec(&plain, &mut letters);
        assert_eq!((numbers(answer.map_err(refusal)), &letters), (expected.answer, &expected.bytes), "seed {seed}");
        let mut pieces = Base64Writer::new(Vec::new(), 0).expect("memory");
        let step = random.between(1, 9);
        plain.chunks(step).for_each(|piece| pieces.write_all(piece).expect("a Vec takes all"));
        assert_eq!(pieces.finish().expect("a Vec takes all"), letters, "seed {seed}");
        let letters = if seed.is_multiple_of(2) { damaged(&mut random, &letters) } else { letters };
        let expected = model::base64::decode(&letters, usize::MAX);
        let mut bytes = Vec::new();
        let answer = base64_decode_to_vec(&letters, &mut bytes);
        assert_eq!((numbers(answer.map_err(refusal)), bytes), (expected.answer, expected.bytes), "seed {seed}");
    }
}
