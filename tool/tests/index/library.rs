//! `Index::build` and `fetch`, and the calls with lent room.

use sailmortar::{convert_to_vec, fetch, index, Error, Index, Refused, Rows, Stopped};

use super::night::{line, night, start, EMPTY, FIELDS};

const BINARIES: [Rows; 2] = [Rows::Binary, Rows::Binary2];

fn refused<T: std::fmt::Debug>(answer: Result<T, Error>) -> Refused {
    match answer {
        Err(Error::Refused(refused)) => refused,
        other => panic!("a refusal, and not {other:?}"),
    }
}

fn built(from: Rows, input: &[u8]) -> Index {
    Index::build(FIELDS, from, input).expect("the rows are good")
}

#[test]
fn every_row_is_fetched() {
    for from in BINARIES {
        for rows in [0, 1, 63, 64, 65, 128, 149] {
            let input = night(from, rows);
            let index = built(from, &input);
            let of = *index.of();
            assert_eq!((of.from, of.rows, of.length, of.end), (from, rows as u64, input.len() as u64, input.len() as u64));
            let starts: Vec<u32> = (0..rows).step_by(64).map(|row| start(from, row) as u32).collect();
            assert_eq!((index.starts(), of.starts()), (&starts[..], starts.len() as u64));
            let mut lines = Vec::new();
            for row in 0..rows {
                let done = index.fetch(FIELDS, &input, row as u64, &mut lines).expect("it is there");
                assert_eq!((done.rows, done.bytes), (1, line(row).len() as u64));
            }
            let mut whole = Vec::new();
            convert_to_vec(FIELDS, from, Rows::TableData, &input, &mut whole).expect("the rows are good");
            assert!(lines == whole, "the lines stand one behind the other");
            let past = refused(index.fetch(FIELDS, &input, rows as u64, &mut lines));
            assert_eq!((past.number, past.row, past.column, past.rows, past.bytes), (20, rows as u64, 0, 0, 0));
            assert!(lines == whole, "a refusal writes nothing");
        }
    }
}

#[test]
fn a_row_without_a_form_is_refused_at_its_place_and_no_other_is() {
    let input = night(Rows::Binary2, 200);
    let (index, mut out) = (built(Rows::Binary2, &input), b"before".to_vec());
    let empty = refused(index.fetch(FIELDS, &input, EMPTY as u64, &mut out));
    assert_eq!((empty.number, empty.row, empty.column, empty.rows, empty.bytes), (14, EMPTY as u64, 1, 0, 0));
    assert_eq!(out, b"before");
    index.fetch(FIELDS, &input, EMPTY as u64 + 1, &mut out).expect("it is there");
    assert_eq!(out, ["before", &line(EMPTY + 1)].concat().as_bytes());
}

#[test]
fn a_stream_that_is_cut_is_refused_as_in_converting_and_its_rows_stand() {
    for from in BINARIES {
        let whole = night(from, 140);
        for cut in start(from, 60)..whole.len() {
            let input = &whole[..cut];
            let converted = convert_to_vec(FIELDS, from, Rows::Binary2, input, &mut Vec::new());
            match (Index::build(FIELDS, from, input), converted) {
                (Ok(index), Ok(done)) => assert_eq!(index.of().rows, done.rows),
                (Err(Stopped { index, error: Error::Refused(refused), .. }), Err(Error::Refused(converted))) => {
                    assert_eq!(refused, at(refused, converted), "cut at {cut}");
                    assert_eq!((index.of().rows, index.of().end), (refused.rows, refused.offset as u64));
                    let (mut out, last) = (Vec::new(), refused.rows - 1);
                    index.fetch(FIELDS, input, last, &mut out).expect("it is whole");
                    assert_eq!(out, line(last as usize).as_bytes());
                    assert_eq!(self::refused(index.fetch(FIELDS, input, last + 1, &mut out)).number, 20);
                }
                other => panic!("cut at {cut}: {other:?}"),
            }
        }
    }
}

/// A refusal as converting gives it, with the bytes that indexing writes.
fn at(indexed: Refused, mut converted: Refused) -> Refused {
    assert_eq!(indexed.bytes, 0);
    converted.bytes = 0;
    converted
}

#[test]
fn what_is_refused_before_any_row_has_an_index_of_none() {
    let refusals: [(&[u8], Rows, u64, u64); 3] =
        [(b"<FIELD", Rows::Binary, 1, 0), (b"<FIELD datatype='int'/><FIELD/>", Rows::Binary2, 1, 1), (FIELDS, Rows::TableData, 255, 0)];
    for (decls, from, number, column) in refusals {
        let Stopped { index, error, .. } = Index::build(decls, from, &night(Rows::Binary, 3)).expect_err("it is refused");
        let refused = error.refused().expect("a refusal");
        assert_eq!((refused.number, refused.row, refused.column, refused.offset), (number, 0, column, 0));
        assert_eq!((index.of().rows, index.of().end, index.starts().len()), (0, 0, 0));
    }
    let stopped = Index::build(FIELDS, Rows::TableData, b"").expect_err("it is refused");
    assert_eq!(stopped.to_string(), "refusal 255: a kind of rows that the call does not know, or does not take");
    assert_eq!(Error::from(stopped).refused().map(|refused| refused.number), Some(255));
}

#[test]
fn room_that_is_lent_is_enough_or_left_as_it_was() {
    let input = night(Rows::Binary2, 70);
    let (index, text) = (built(Rows::Binary2, &input), line(69));
    for room in 0..text.len() + 3 {
        let mut out = vec![0xEE; room];
        match index.fetch_into(FIELDS, &input, 69, &mut out) {
            Ok(done) => assert_eq!((done.bytes as usize, &out[..text.len()]), (text.len(), text.as_bytes())),
            Err(refused) => assert_eq!((refused.number, refused.row, room < text.len()), (17, 69, true)),
        }
        assert!(out[if room < text.len() { 0 } else { text.len() }..].iter().all(|byte| *byte == 0xEE));
    }
}

#[test]
fn a_line_of_any_length_finds_room() {
    let fields = b"<FIELD datatype='char' arraysize='4096'/>".repeat(20);
    let input = vec![b'&'; 20 * 4096];
    let index = Index::build(&fields, Rows::Binary, &input).expect("the row is good");
    let mut out = Vec::new();
    let done = index.fetch(&fields, &input, 0, &mut out).expect("it is there");
    assert_eq!((done.bytes as usize, out.len()), (10 + 20 * (9 + 5 * 4096), 10 + 20 * (9 + 5 * 4096)));
}

#[test]
fn the_calls_with_lent_places() {
    let input = night(Rows::Binary, 130);
    let mut starts = [77; 4];
    let done = index(FIELDS, Rows::Binary, &input, &mut starts).expect("the rows are good");
    assert_eq!((done.rows, done.bytes), (130, 0));
    assert_eq!(starts, [0, start(Rows::Binary, 64) as u32, start(Rows::Binary, 128) as u32, 77]);
    let mut out = [0; 128];
    let fetched = fetch(FIELDS, Rows::Binary, &input, &starts, done.rows, 129, &mut out).expect("it is there");
    assert_eq!(&out[..fetched.bytes as usize], line(129).as_bytes());
    let full = index(FIELDS, Rows::Binary, &input, &mut starts[..2]).expect_err("a place is missing");
    assert_eq!((full.number, full.row, full.column, full.rows), (17, 128, 0, 128));
    assert_eq!(fetch(FIELDS, Rows::Binary, &input, &starts[..2], 130, 129, &mut out).map_err(|refused| refused.number), Err(20));
    assert_eq!(index(FIELDS, Rows::TableData, &input, &mut []).map_err(|refused| refused.number), Err(255));
}

#[test]
fn an_index_says_what_it_fits() {
    let input = night(Rows::Binary, 3);
    let of = *built(Rows::Binary, &input).of();
    let length = input.len() as u64;
    assert_eq!(of.fits(FIELDS, Rows::Binary, length), Ok(()));
    assert!(of.fits(FIELDS, Rows::Binary2, length).is_err() && of.fits(FIELDS, Rows::Binary, length + 1).is_err());
    for place in 0..FIELDS.len() {
        let mut other = FIELDS.to_vec();
        other[place] ^= 1;
        assert!(of.fits(&other, Rows::Binary, length).is_err(), "byte {place}");
    }
}
