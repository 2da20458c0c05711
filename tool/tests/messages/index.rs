//! What is said of a row that is asked for by its number, and of an index that does not fit.

use std::ffi::OsStr;

use sailmortar::{Index, Misfit, Rows};

use super::said::{refused, Way, STANDS};
use crate::binary::row_start;
use crate::generate::columns::{declarations, some};
use crate::generate::rows::{spelled, table};
use crate::generate::Random;
use crate::model::{self, converter};
use crate::report::{self, Report, Stream};
use crate::window::Window;

const SHORT: &[u8] = b"<FIELD name='sky' datatype='short'/>";

/// What is said of a row of a stream that does not have it.
fn past(input: &[u8], row: u64) -> Report {
    let index = Index::build(SHORT, Rows::Binary, input).unwrap_or_else(|stopped| stopped.index);
    let refused = index.fetch_into(SHORT, input, row, &mut [0; 64]).expect_err("there is no such row");
    report::past_the_end(OsStr::new("night"), index.of(), &refused, "sailmortar check", STANDS)
}

#[test]
fn a_row_past_the_end() {
    let more = "rows count from 0; 'sailmortar explain 20' says more";
    let cases: [(&[u8], u64, &str, bool); 4] = [
        (b"", 0, "the stream has no rows", true),
        (b"\0\x07\0\x08", 2, "the stream has rows 0 to 1", true),
        (b"\0", 0, "no row of the stream can be read", false),
        (b"\0\x07\0", 7, "of the stream rows 0 to 0 can be read, and what stands behind them cannot", false),
    ];
    for (input, row, has, is_whole) in cases {
        let report = past(input, row);
        let first = format!("night: refusal 20 at row {row}: {has}, row {row} is past the end");
        assert_eq!(report.lines[..3], [first, STANDS.to_string(), more.to_string()]);
        assert_eq!(report.lines.len(), if is_whole { 3 } else { 4 });
        let hint = (!is_whole).then_some("'sailmortar check' says what is wrong behind them");
        assert_eq!((report.text_of("hint"), report.number_of("number"), report.number_of("row")), (hint, Some(20), Some(row)));
        assert_eq!((report.number_of("count"), report.number_of("column")), (Some(input.len() as u64 / 2), Some(0)));
    }
}

#[test]
fn an_index_that_does_not_fit() {
    let report = report::misfit(OsStr::new("night.index"), Misfit::OtherDeclarations, STANDS, "sailmortar index");
    let lines = [
        "night.index: this index was built with other FIELD elements",
        "it is not used, and the rows before it stand; build the index with 'sailmortar index'",
    ];
    assert_eq!(report.lines, lines);
    assert_eq!((report.text_of("file"), report.text_of("build")), (Some("night.index"), Some("sailmortar index")));
    assert_eq!(report.text_of("message"), Some("this index was built with other FIELD elements"));
}

/// Where messages take a row to begin is where it does.
#[test]
fn a_row_begins_where_the_rows_before_it_end() {
    for seed in 0..200 {
        let mut random = Random::new(seed);
        let columns = some(&mut random, 1, 5);
        let (text, is_flagged) = (declarations(&columns), random.one_in(2));
        let (from, way) = if is_flagged { (converter::Rows::Binary2, Rows::Binary2) } else { (converter::Rows::Binary, Rows::Binary) };
        let rows = table(&mut random, &columns, from, 6);
        let before = random.bytes(5);
        let input = [before, spelled(&mut random, &columns, from, &rows)].concat();
        let shown = sailmortar::columns(&text).expect("the fields are good");
        let (night, window) = (OsStr::new("night"), Window::whole(&input));
        let stream =
            Stream { input_name: night, columns: &shown, from: way, to: Rows::TableData, decoded: false, is_second: false, window };
        let mut start = 5;
        for row in 0..6 {
            assert_eq!(row_start(&stream, 5, row), start, "seed {seed}, row {row}");
            start = end_of_row(&columns, from, &input, start);
        }
        // A stream that is cut has no row there, and no more is said than is known.
        assert_eq!(row_start(&Stream { window: Window::whole(&input[..5]), ..stream }, 5, 3), 5);
    }
}

fn end_of_row(columns: &[model::Column], from: converter::Rows, input: &[u8], start: usize) -> usize {
    let (_, end) = converter::read_row(columns, from, input, start).expect("it reads").expect("it is there");
    end
}

/// The row is told as converting all of them tells it, from the part of the stream alone in which it stands.
#[test]
fn a_row_without_a_form_is_told_as_convert_tells_it() {
    let fields = b"<FIELD name='note' datatype='char' arraysize='*'/>";
    let rows = [&b"\0\0\0\0\x01a"[..], b"\0\0\0\0\x03b\x01c", b"\0\0\0\0\x01d"].concat();
    let way = Way { from: Rows::Binary2, to: Rows::TableData };
    let converted = refused(fields, way, &rows).expect("a character has no form");
    let whole = super::said::of_refused(fields, way, &rows, &converted);
    let index = Index::build(fields, Rows::Binary2, &rows).expect("the rows read");
    let mut fetched = index.fetch_into(fields, &rows, 1, &mut [0; 64]).expect_err("a character has no form");
    let columns = sailmortar::columns(fields).expect("the fields are good");
    let (night, window) = (OsStr::new("night"), Window::whole(&rows));
    let stream = Stream { input_name: night, columns: &columns, from: way.from, to: way.to, decoded: false, is_second: false, window };
    fetched.offset = row_start(&stream, 0, fetched.row);
    assert_eq!(super::said::of_refused(fields, way, &rows, &fetched).lines, whole.lines);
}
