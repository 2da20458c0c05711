//! Reports about inputs that are damaged anyhow: none fails, each names the place that the converter means, each can be shown to anyone.

use std::collections::BTreeSet;
use std::time::{Duration, Instant};

use sailmortar::{convert_to_vec, declare, Error, Rows};

use super::said::{of_declarations, of_refused, of_seen, refused, Way};
use crate::generate::columns::{declarations, some, spelled_declarations};
use crate::generate::damage::damaged;
use crate::generate::rows::{spelled, table};
use crate::generate::Random;
use crate::model::converter::Rows as ModelRows;
use crate::report::Report;
use crate::window::Window;

/// How many times as many random inputs as usual are asked for.
pub fn times() -> u64 {
    std::env::var("SAILMORTAR_LONG").map_or(1, |value| value.parse().expect("SAILMORTAR_LONG is a number"))
}

const KINDS: [(Rows, ModelRows); 3] =
    [(Rows::TableData, ModelRows::TableData), (Rows::Binary, ModelRows::Binary), (Rows::Binary2, ModelRows::Binary2)];

/// Rows, good or damaged, with the fields that they were made for.
fn any_rows(random: &mut Random) -> (Vec<u8>, Way, Vec<u8>) {
    let columns = some(random, 1, 11);
    let (from, model) = random.pick(&KINDS);
    let (to, _) = random.pick(&KINDS);
    let rows = random.below(4) + 1;
    let table = table(random, &columns, model, rows);
    let good = spelled(random, &columns, model, &table);
    let input = if random.one_in(3) { good } else { damaged(random, &good) };
    (declarations(&columns), Way { from, to }, input)
}

/// Nothing that a terminal would act on, and no line without an end.
fn can_be_shown(report: &Report) {
    for line in &report.lines {
        assert!(!line.contains(char::is_control) && line.chars().count() < 500, "{line:?}");
    }
}

/// Cut where the report says that the refused cell begins, the input lacks just that cell.
fn is_the_place(report: &Report, fields: &[u8], way: Way, input: &[u8]) {
    let fact = |name| report.number_of(name).unwrap_or_else(|| panic!("no {name}")) as usize;
    let (offset, byte) = (fact("offset"), fact("byte"));
    let cut = convert_to_vec(fields, way.from, Rows::Binary2, &input[..byte], &mut Vec::new());
    let found = match (cut, report.number_of("column").filter(|_| matches!(report.text_of("place"), Some("cell" | "end")))) {
        (Err(Error::Refused(cut)), Some(column)) => cut.row == fact("row") as u64 && cut.column == column,
        (Ok(done), column) => done.rows == fact("row") as u64 && byte == offset && column.unwrap_or(0) == 0,
        _ => false,
    };
    assert!(found, "{:?} is not at byte {byte} of {}", report, input.escape_ascii());
    if way.from == Rows::TableData {
        assert_eq!(fact("line"), 1 + input[..byte].iter().filter(|byte| **byte == b'\n').count());
    }
}

#[test]
fn damaged_rows_of_all_kinds() {
    let mut numbers = BTreeSet::new();
    for seed in 0..30_000 * times() {
        let (fields, way, input) = any_rows(&mut Random::new(80_000_000 + seed));
        let Some(refused) = refused(&fields, way, &input) else {
            continue;
        };
        let report = of_refused(&fields, way, &input, &refused);
        can_be_shown(&report);
        is_the_place(&report, &fields, way, &input);
        numbers.insert(refused.number);
    }
    assert_eq!(numbers.into_iter().collect::<Vec<_>>(), (8..=16).chain([18]).collect::<Vec<_>>());
}

/// As much as is kept of rows that are converted as they are read: the first bytes, and all from the refused row on.
fn kept(input: &[u8], place: usize) -> Window<'_> {
    let line_feeds = input[..place].iter().filter(|byte| **byte == b'\n').count() as u64;
    Window { start: &input[..input.len().min(100)], bytes: &input[place..], place, line_feeds: Some(line_feeds), goes_on: false }
}

#[test]
fn rows_that_are_not_kept_are_not_missed() {
    let (mut reports, mut hints) = (0, 0);
    for seed in 0..10_000 * times() {
        let mut random = Random::new(84_000_000 + seed);
        let (fields, way, input) = any_rows(&mut random);
        let input = match random.one_in(4) {
            true => [random.pick(&OTHER_STARTS), &input].concat(),
            false => input,
        };
        let Some(refused) = refused(&fields, way, &input) else {
            continue;
        };
        let whole = of_refused(&fields, way, &input, &refused);
        let seen = of_seen(&fields, way, kept(&input, refused.offset), &refused);
        assert_eq!(seen, whole, "{}", input.escape_ascii());
        // Where the lines could not be counted everything else is said.
        let uncounted = of_seen(&fields, way, Window { line_feeds: None, ..kept(&input, refused.offset) }, &refused);
        let lines: Vec<String> = whole.lines.iter().map(|line| without_lines(line)).collect();
        assert_eq!(uncounted.lines.iter().map(|line| without_lines(line)).collect::<Vec<_>>(), lines);
        assert_eq!((uncounted.number_of("line"), uncounted.number_of("byte")), (None, whole.number_of("byte")));
        reports += usize::from(refused.offset > 0);
        hints += usize::from(whole.text_of("hint").is_some());
    }
    assert!(reports > 1_000 && hints > 100, "{reports} refused behind a good row, {hints} hints");
}

/// What rows begin with that are of another kind than was said.
const OTHER_STARTS: [&[u8]; 7] = [b"\n  <TR>", b"<?xml", b"\x1F\x8B\x08", b"AAAHVAAACEY=", b" \n", b"<TABLEDATA>", b"\xEF\xBB\xBF"];

/// A message without the numbers of lines.
fn without_lines(line: &str) -> String {
    let mut parts = line.split("in line ");
    let first = parts.next().unwrap_or_default().to_string();
    parts.fold(first, |before, part| before + part.split_once(", ").map_or("", |(_, after)| after))
}

#[test]
fn refusals_of_other_rows_fail_nothing() {
    for seed in 0..5_000 * times() {
        let mut random = Random::new(81_000_000 + seed);
        let (fields, way, input) = any_rows(&mut random);
        let Some(refused) = refused(&fields, way, &input) else {
            continue;
        };
        let (other_fields, other_way, other_input) = any_rows(&mut random);
        can_be_shown(&of_refused(&other_fields, way, &input, &refused));
        can_be_shown(&of_refused(&fields, other_way, &input, &refused));
        can_be_shown(&of_refused(&fields, way, &other_input, &refused));
        can_be_shown(&of_refused(&other_fields, other_way, &other_input, &refused));
    }
}

/// Where the report says that the element begins, just the FIELDs before it are whole.
fn is_the_element(report: &Report, fields: &[u8]) {
    let place = report.number_of("column").expect("a place");
    let Some(byte) = report.number_of("byte") else {
        return assert_eq!(report.number_of("number"), Some(5));
    };
    let before = declare(&fields[..byte as usize]).map_or_else(|refused| (refused.number, 0), |columns| (0, columns));
    assert_eq!(before, if place == 0 { (5, 0) } else { (0, place) }, "{}", fields.escape_ascii());
    let line = 1 + fields[..byte as usize].iter().filter(|byte| **byte == b'\n').count();
    assert_eq!(report.number_of("line"), Some(line as u64));
}

#[test]
fn damaged_declarations() {
    let mut numbers = BTreeSet::new();
    for seed in 0..30_000 * times() {
        let mut random = Random::new(82_000_000 + seed);
        let most = random.pick(&[1, 3, 66]);
        let columns = some(&mut random, 0, most);
        let good = spelled_declarations(&mut random, &columns);
        let fields = if random.one_in(8) { good } else { damaged(&mut random, &good) };
        if declare(&fields).is_ok() {
            continue;
        }
        let report = of_declarations(&fields);
        can_be_shown(&report);
        is_the_element(&report, &fields);
        assert!(!report.lines[0].contains("is not carried: the declarations"), "{}\n{}", report.lines[0], fields.escape_ascii());
        numbers.insert(report.number_of("number"));
    }
    assert_eq!(numbers.into_iter().collect::<Vec<_>>(), (1..=5).map(Some).collect::<Vec<_>>());
}

#[test]
fn a_report_on_a_long_row_takes_a_moment() {
    let size = 16 << 20;
    let cell = |text: &[u8], end: &str| [b"<TR><TD>", text, end.as_bytes()].concat();
    let inputs = [
        cell(&b"1 ".repeat(size / 2), "</TD>"),
        cell(&b"1".repeat(size), "</TD>"),
        cell(&b" ".repeat(size), "x</TD>"),
        cell(&b"&".repeat(size), "</TD>"),
        cell(&b"&".repeat(size), ";</TD>"),
        cell(&b"&amp;".repeat(size / 5), "&</TD>"),
        cell(&b"&#32;".repeat(size / 5), "x</TD>"),
        cell(&b"\xC3\xA9".repeat(size / 2), ""),
        b"<".repeat(size),
        b" ".repeat(size).into_iter().chain(*b"<tr>").collect(),
    ];
    for kind in ["short", "char", "bit", "boolean"] {
        let fields = format!("<FIELD datatype='{kind}'/>");
        let way = Way { from: Rows::TableData, to: Rows::Binary2 };
        for input in &inputs {
            let refused = refused(fields.as_bytes(), way, input).expect("it is refused");
            let begun = Instant::now();
            can_be_shown(&of_refused(fields.as_bytes(), way, input, &refused));
            // A second for 16 MiB would be slow, and a machine may be busy.
            assert!(begun.elapsed() < Duration::from_secs(5), "{kind} {}", input[..20].escape_ascii());
        }
    }
}
