//! A refused row in the first part, in the last and in each between, on any threads: the rows before it are written, and none behind it.

use super::one_call::{Night, Steps};
use sailmortar::{Plan, Rows};

const TEXT: &str = "<FIELD datatype='short'/><FIELD datatype='char' arraysize='3*'/>";

/// Good rows with one between them, at this place.
fn rows_with(good: &[u8], row: &[u8], place: usize) -> Vec<u8> {
    [&good.repeat(place), row, &good.repeat(11 - place)].concat()
}

/// In parts of one to a few rows, from a slice and from a reader.
fn refused_everywhere(from: Rows, to: Rows, good: &[u8], row: &[u8], number: u64) {
    for place in [0, 1, 5, 10, 11] {
        let night = Night::new(TEXT, from, rows_with(good, row, place));
        let expected = night.in_one_call(to);
        let refused = expected.answer.expect_err("a refusal");
        assert_eq!((refused.number, refused.row), (number, place as u64), "{from} to {to}: {}", row.escape_ascii());
        for threads in [1, 2, 3, 8] {
            for part in [1, good.len(), 3 * good.len() + 1, 1 << 20] {
                let plan = Plan::new().threads(threads).part(part);
                let told = format!("{threads} threads, parts of {part}, refused at {place}: {}", row.escape_ascii());
                assert_eq!(night.by_slice(&plan, to), expected, "{told}");
                for plan in [plan.clone(), plan.clone().length(night.input.len() as u64), plan.long()] {
                    assert_eq!(night.by_reader(&plan, to, Steps::new(&night.input, 70)), expected, "{told}");
                }
            }
        }
    }
}

#[test]
fn a_row_of_text_is_refused_in_any_part() {
    let good = b"<TR><TD>7</TD><TD>ab</TD></TR>\n ";
    let refused: [(&[u8], u64); 7] = [
        (b"<TR><TD>x</TD><TD/></TR>\n", 11),
        (b"<TR><TD>99999</TD><TD/></TR>\n", 18),
        (b"<TR><TD>1 2</TD><TD/></TR>\n", 12),
        (b"<TR><TD>1</TD><TD>abcd</TD></TR>\n", 12),
        (b"<TR><TD>1</TD></TR>\n", 10),
        (b"<tr><TD>1</TD><TD/></tr>\n", 10),
        (b"<TR><TD>1</TD><TD/><TR>\n", 10),
    ];
    for (row, number) in refused {
        refused_everywhere(Rows::TableData, Rows::Binary2, good, row, number);
    }
    refused_everywhere(Rows::TableData, Rows::Binary, good, b"<TR><TD/><TD>a</TD></TR>", 15);
}

#[test]
fn a_row_of_bytes_is_refused_in_any_part() {
    let good = b"\0\0\x07\0\0\0\x02ab";
    refused_everywhere(Rows::Binary2, Rows::TableData, good, b"\0\0\x07\0\0\0\x04abcd", 9);
    refused_everywhere(Rows::Binary2, Rows::TableData, good, b"\0\0\x07\0\0\0\x00", 14);
    refused_everywhere(Rows::Binary2, Rows::TableData, good, b"\0\0\x07\0\0\0\x01\x01", 16);
    refused_everywhere(Rows::Binary2, Rows::Binary, good, b"\x20\0\x07\0\0\0\x01a", 13);
    refused_everywhere(Rows::Binary2, Rows::Binary2, good, b"\0\0\x07\0\0\0\x01\x80", 11);
    refused_everywhere(Rows::Binary, Rows::TableData, &good[1..], b"\0\x07\xff\xff\xff\xff", 9);
}

/// In the middle of its last row, at each of its bytes.
#[test]
fn an_input_that_ends_in_a_row() {
    let rows: [(Rows, &[u8]); 3] = [
        (Rows::TableData, b" <TR><TD>7</TD><TD>ab</TD></TR>"),
        (Rows::Binary, b"\0\x07\0\0\0\x02ab"),
        (Rows::Binary2, b"\0\0\x07\0\0\0\x02ab"),
    ];
    for (from, row) in rows {
        for cut in 0..row.len() {
            let night = Night::new(TEXT, from, [&row.repeat(9), &row[..cut]].concat());
            let expected = night.in_one_call(Rows::Binary2);
            for (threads, part) in [(1, 1), (2, 1), (2, row.len()), (3, 4 * row.len() - 1), (2, 1 << 20)] {
                let plan = Plan::new().threads(threads).part(part);
                assert_eq!(night.by_slice(&plan, Rows::Binary2), expected, "{from}, {cut}, {threads}, {part}");
                let told = night.by_reader(&plan.long(), Rows::Binary2, Steps::new(&night.input, 1));
                assert_eq!(told, expected, "{from}, {cut}, {threads}, {part}");
            }
        }
    }
}

#[test]
fn declarations_are_judged_before_a_byte_is_read() {
    let over = " ".repeat(65_537);
    for (fields, number, column) in [("<FIELD", 1, 0), ("<FIELD datatype='int'/><FIELD datatype='real'/>", 2, 1), ("", 5, 0), (&over, 6, 0)]
    {
        for from in [Rows::TableData, Rows::Binary, Rows::Binary2] {
            let night = Night::new(fields, from, "\0\x07");
            let expected = night.in_one_call(Rows::Binary);
            assert_eq!(expected.answer.map_err(|refused| (refused.number, refused.column)), Err((number, column)));
            for plan in [Plan::new(), Plan::new().length(2), Plan::new().length(u64::MAX), Plan::new().long()] {
                assert_eq!(night.by_slice(&plan, Rows::Binary), expected);
                let mut reader = Steps::new(&night.input, 1);
                reader.fails_at = Some(0);
                assert_eq!(night.by_reader(&plan, Rows::Binary, reader), expected);
            }
        }
    }
}
