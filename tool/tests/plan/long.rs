//! Rows that are longer than a part, and longer than an input of any length may have them.

use super::one_call::{Night, Steps};
use sailmortar::{Plan, Rows};

const FIELDS: &str = "<FIELD datatype='short'/>";
const LONGEST: usize = 64 << 20;

fn text(before: &str, between: usize, behind: &str) -> Night {
    Night::new(FIELDS, Rows::TableData, format!("{before}{}{behind}", " ".repeat(between)))
}

/// A row is judged by 64 MiB where the input may be of any length; else by all of it.
#[test]
fn a_row_of_text_that_is_very_long() {
    let night = text("<TR><TD>7</TD></TR>\n<TR><TD>8</TD>", LONGEST + 9, "</TR>\n<TR><TD>9</TD></TR>");
    let expected = night.in_one_call(Rows::Binary);
    assert_eq!(expected.answer.expect("it is good").rows, 3);
    let plan = Plan::new().threads(2);
    assert_eq!(night.by_slice(&plan, Rows::Binary), expected);
    assert_eq!(night.by_reader(&plan.clone().length(night.input.len() as u64), Rows::Binary, Steps::new(&night.input, 1 << 16)), expected);
    for told in
        [night.by_slice(&plan.clone().long(), Rows::Binary), night.by_reader(&plan.long(), Rows::Binary, Steps::new(&night.input, 1 << 20))]
    {
        let refused = told.answer.expect_err("it is not whole");
        assert_eq!((refused.number, refused.row, refused.column, refused.rows, refused.bytes, refused.offset), (10, 1, 1, 1, 2, 19));
        assert_eq!(told.bytes, [0, 7]);
    }
}

/// White space between rows is of no row that is not whole.
#[test]
fn white_space_of_any_length() {
    let night = text("<TR><TD>7</TD></TR>", 2 * LONGEST, "<TR><TD>9</TD></TR>");
    let expected = night.in_one_call(Rows::Binary);
    for plan in [Plan::new().threads(2), Plan::new().threads(2).long()] {
        assert_eq!(night.by_slice(&plan, Rows::Binary), expected);
        let plan = plan.length(night.input.len() as u64);
        assert_eq!(night.by_reader(&plan, Rows::Binary, Steps::new(&night.input, 1 << 20)), expected);
    }
}

/// Rows of two megabytes, the longest that BINARY has, in parts of a few bytes.
#[test]
fn rows_that_are_longer_than_a_part() {
    let fields = "<FIELD datatype='long' arraysize='*'/>".repeat(64);
    let row = [&4_096_u32.to_be_bytes()[..], &[1; 8 * 4_096]].concat().repeat(64);
    let night = Night::new(&fields, Rows::Binary, [row.repeat(3), row[..2_000_000].to_vec()].concat());
    let expected = night.in_one_call(Rows::Binary2);
    assert_eq!(expected.answer.map_err(|refused| (refused.number, refused.row)), Err((8, 3)));
    for (threads, part) in [(1, 1), (2, 64), (3, 1 << 20), (2, 1 << 21)] {
        let plan = Plan::new().threads(threads).part(part);
        assert_eq!(night.by_slice(&plan, Rows::Binary2), expected);
        for plan in [plan.clone().length(night.input.len() as u64), plan.long()] {
            assert_eq!(night.by_reader(&plan, Rows::Binary2, Steps::new(&night.input, 60_000)), expected);
        }
    }
}

/// Text that is broken early, and much behind it: that the row is refused is known at the end of the input.
#[test]
fn a_broken_row_with_much_behind_it() {
    let good = "<TR><TD>7</TD></TR>\n";
    let night = Night::new(FIELDS, Rows::TableData, format!("{good}<TR><TD>8</TD></TD>{}", good.repeat(100_000)));
    let expected = night.in_one_call(Rows::Binary);
    assert_eq!(expected.answer.map_err(|refused| (refused.number, refused.row)), Err((10, 1)));
    for (threads, part) in [(1, 64), (2, 64), (2, 1 << 16), (2, 1 << 20)] {
        let plan = Plan::new().threads(threads).part(part);
        assert_eq!(night.by_slice(&plan, Rows::Binary), expected);
        for plan in [plan.clone().length(night.input.len() as u64), plan.long()] {
            assert_eq!(night.by_reader(&plan, Rows::Binary, Steps::new(&night.input, 1 << 16)), expected);
        }
    }
}

/// A row is tried again in twice as many bytes, and not with each part that is added to it: that would be a thousand times the work.
#[test]
fn a_row_of_very_many_parts() {
    let letters = "x".repeat(4 << 20);
    let night = Night::new(FIELDS, Rows::TableData, format!("<TR><TD>7</TD></TR>\n<TR><TD>{letters}</TD></TR>\n<TR><TD>8</TD></TR>"));
    let expected = night.in_one_call(Rows::Binary);
    assert_eq!(expected.answer.map_err(|refused| (refused.number, refused.row)), Err((11, 1)));
    let plan = Plan::new().threads(2).part(1).cuts((0..night.input.len() as u64).step_by(64).collect::<Vec<_>>());
    let begun = std::time::Instant::now();
    assert_eq!(night.by_slice(&plan, Rows::Binary), expected);
    assert_eq!(night.by_reader(&plan.long(), Rows::Binary, Steps::new(&night.input, 1 << 16)), expected);
    assert!(begun.elapsed().as_secs() < 20, "{:?}", begun.elapsed());
}
