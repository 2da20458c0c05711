//! An input over its size is refused before any row, and at its size is not.

use std::io::{self, Read};

use sailmortar::{convert, Done, Error, Plan, Refused, Rows, INPUT_LIMIT};

/// A row of 4,096 longs is converted at the speed of memory.
const FIELDS: &[u8] = b"<FIELD datatype='long' arraysize='4096'/>";
const ROW: u64 = 8 * 4_096;
const LIMIT: u64 = INPUT_LIMIT as u64;

/// A reader of which nothing may be read.
struct Untouched;

impl Read for Untouched {
    fn read(&mut self, _: &mut [u8]) -> io::Result<usize> {
        panic!("it is read")
    }
}

fn over_size() -> Refused {
    let over = vec![0; INPUT_LIMIT + 1];
    convert(FIELDS, Rows::Binary, Rows::Binary2, &over, &mut []).expect_err("it is too long")
}

#[test]
fn an_input_over_its_size_is_refused_before_any_row() {
    let expected = over_size();
    assert_eq!((expected.number, expected.rows, expected.offset), (6, 0, 0));
    let refused = |answer: Result<Done, Error>| *answer.expect_err("it is too long").refused().expect("a refusal");
    for length in [LIMIT + 1, 1 << 40, u64::MAX] {
        let told = Plan::new().length(length).convert(FIELDS, Rows::Binary, Rows::Binary2, Untouched, io::sink());
        assert_eq!(refused(told), expected);
    }
    let (mut left, mut input) = (Vec::new(), io::repeat(0).take(LIMIT + 5));
    let sink = |_: sailmortar::Piece| panic!("a row");
    let told = Plan::new().convert_pieces(FIELDS, Rows::Binary, Rows::Binary2, &mut input, &mut left, sink);
    assert_eq!(refused(told), expected);
    assert_eq!((left.len() as u64, input.limit()), (LIMIT + 1, 4));
    assert_eq!(refused(Plan::new().convert_slice(FIELDS, Rows::Binary, Rows::Binary2, &left, sink)), expected);
}

#[test]
fn an_input_of_any_length_is_converted_where_that_is_planned() {
    let length = LIMIT + 3 * ROW;
    for plan in [Plan::new().long(), Plan::new().long().length(length)] {
        let mut bytes = 0;
        let answer = plan.convert_pieces(FIELDS, Rows::Binary, Rows::Binary, io::repeat(1).take(length + 1), &mut Vec::new(), |piece| {
            bytes += piece.bytes.len() as u64;
            Ok(())
        });
        assert_eq!(bytes, length);
        match answer {
            // The length that was said is the end.
            Ok(done) => assert_eq!((done.rows, done.bytes), (length / ROW, length)),
            // A byte more is a row that is cut.
            Err(error) => {
                let refused = error.refused().expect("a refusal");
                assert_eq!((refused.number, refused.row, refused.rows, refused.bytes), (8, length / ROW, length / ROW, length));
                assert_eq!(refused.offset as u64, length);
            }
        }
    }
}

#[test]
fn an_input_at_its_size_is_converted() {
    let mut rows = 0;
    let plan = Plan::new().length(LIMIT);
    let answer = plan.convert_pieces(FIELDS, Rows::Binary, Rows::Binary, io::repeat(1), &mut Vec::new(), |piece| {
        rows = piece.rows;
        Ok(())
    });
    assert_eq!(answer.expect("it is good").bytes, LIMIT);
    assert_eq!(rows, LIMIT / ROW);
}

#[test]
fn an_empty_input() {
    for from in [Rows::TableData, Rows::Binary, Rows::Binary2] {
        for plan in [Plan::new(), Plan::new().length(0), Plan::new().long(), Plan::new().threads(1), Plan::new().part(1).long()] {
            let done = plan.convert(FIELDS, from, Rows::Binary, io::empty(), io::sink()).expect("no row is good");
            assert_eq!((done.rows, done.bytes), (0, 0));
            plan.convert_slice(FIELDS, from, Rows::Binary, b"", |_| panic!("a row")).expect("no row is good");
        }
    }
}
