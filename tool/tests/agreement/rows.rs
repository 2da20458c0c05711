//! Rows of all kinds and shapes, valid in every spelling, damaged and cut.

use super::compare::{seeds, Case};
use crate::generate::columns::{any, column, declarations, some, spelled_declarations, EVERY_KIND};
use crate::generate::damage::{damaged, rearranged, TELLING};
use crate::generate::rows::{spelled, table, Table};
use crate::generate::Random;
use crate::model::converter::{self, Rows, EVERY_KIND_OF_ROWS};
use crate::model::{Column, Length};

/// The tables for the tests that go through every byte: short, but with every kind of cell.
const SMALL: &str = "<FIELD datatype='short'><VALUES null='-99'/></FIELD><FIELD datatype='char' arraysize='3'/>\
    <FIELD datatype='boolean'/><FIELD datatype='bit' arraysize='9'/><FIELD datatype='int' arraysize='2*'/>\
    <FIELD datatype='char' arraysize='*'/><FIELD datatype='unsignedByte'/><FIELD datatype='long'/>\
    <FIELD datatype='boolean' arraysize='2'/>";

/// Converts to every kind of rows and compares, with room for all of it or, now and then, not quite. Hands out the
/// answers' numbers.
fn agree_to_every_kind(random: &mut Random, declarations: &[u8], from: Rows, input: &[u8], seed: u64) -> [u64; 3] {
    EVERY_KIND_OF_ROWS.map(|to| {
        let case = Case { declarations, from, to, input, seed };
        let needed = case.with_room_enough().bytes.len();
        case.agree(match random.below(8) {
            0 => needed.saturating_sub(1),
            1 => random.below(needed + 1),
            2..=4 => needed + random.below(40),
            _ => needed,
        })[0]
    })
}

/// The model, too, must see in a stream the cells it was made of.
fn assert_shown(columns: &[Column], from: Rows, input: &[u8], table: &Table, seed: u64) {
    let mut at = 0;
    for cells in table {
        let read = converter::read_row(columns, from, input, at);
        let Ok(Some((shown, end))) = read else {
            panic!("seed {seed}: {read:?} at byte {at} of {}", input.escape_ascii());
        };
        assert_eq!(&shown, cells, "seed {seed}: at byte {at} of {}", input.escape_ascii());
        at = end;
    }
    assert_eq!(converter::read_row(columns, from, input, at), Ok(None), "seed {seed}");
}

#[test]
fn every_kind_and_length_in_all_nine_ways() {
    for seed in seeds(10_000_000, 2) {
        let mut random = Random::new(seed);
        for kind in EVERY_KIND {
            for elements in [1, 2, 7, 8, 9, 4095, 4096] {
                for length in [Length::Fixed(elements), Length::Bounded(elements), Length::Free] {
                    let columns = [column(kind, length)];
                    one_way_and_back(&mut random, &columns, 4, seed);
                }
            }
        }
    }
}

fn one_way_and_back(random: &mut Random, columns: &[Column], rows: usize, seed: u64) {
    let text = declarations(columns);
    for from in EVERY_KIND_OF_ROWS {
        let table = table(random, columns, from, rows);
        let input = spelled(random, columns, from, &table);
        assert_shown(columns, from, &input, &table, seed);
        agree_to_every_kind(random, &text, from, &input, seed);
    }
}

#[test]
fn declared_nulls_of_every_integer_kind() {
    for seed in seeds(11_000_000, 300) {
        let mut random = Random::new(seed);
        let columns: Vec<Column> = EVERY_KIND
            .into_iter()
            .filter(|kind| kind.is_integer())
            .map(|kind| {
                let null = crate::generate::cells::integer(&mut random, kind);
                Column { null: Some(null), ..column(kind, Length::Fixed(1)) }
            })
            .collect();
        one_way_and_back(&mut random, &columns, 6, seed);
    }
}

#[test]
fn one_to_sixty_four_columns() {
    for seed in seeds(12_000_000, 2) {
        let mut random = Random::new(seed);
        for count in 1..=64 {
            let columns: Vec<Column> = (0..count).map(|_| any(&mut random)).collect();
            one_way_and_back(&mut random, &columns, 3, seed);
        }
    }
}

#[test]
fn in_every_spelling() {
    for seed in seeds(13_000_000, 10_000) {
        let mut random = Random::new(seed);
        let columns = some(&mut random, 1, 6);
        let text = spelled_declarations(&mut random, &columns);
        let from = random.pick(&EVERY_KIND_OF_ROWS);
        let rows = random.below(5);
        let table = table(&mut random, &columns, from, rows);
        let input = spelled(&mut random, &columns, from, &table);
        assert_shown(&columns, from, &input, &table, seed);
        agree_to_every_kind(&mut random, &text, from, &input, seed);
    }
}

#[test]
fn damaged_anyhow() {
    let mut met = [0; 19];
    for seed in seeds(14_000_000, 50_000) {
        let mut random = Random::new(seed);
        let columns = some(&mut random, 1, 4);
        let from = random.pick(&EVERY_KIND_OF_ROWS);
        let rows = random.between(1, 3);
        let table = table(&mut random, &columns, from, rows);
        let good = spelled(&mut random, &columns, from, &table);
        let input = damaged(&mut random, &good);
        for number in agree_to_every_kind(&mut random, &declarations(&columns), from, &input, seed) {
            assert!(number != 18 || from == Rows::TableData, "seed {seed}: bytes are never out of range");
            met[number as usize] += 1;
        }
    }
    // Not where a single seed is run again: the damage must lead to every refusal that rows can meet.
    if met.iter().sum::<u64>() > 1_000 {
        let unmet: Vec<usize> = [0].into_iter().chain(8..=18).filter(|number| met[*number] < 20).collect();
        assert!(unmet.is_empty(), "hardly ever met: {unmet:?} of {met:?}");
    }
}

/// Two rows of the small table in each kind, from one seed.
fn small(from: Rows, seed: u64) -> Vec<u8> {
    let mut random = Random::new(seed);
    let columns = crate::model::declarations::read(SMALL.as_bytes()).expect("good declarations");
    let table = table(&mut random, &columns, from, 2);
    spelled(&mut random, &columns, from, &table)
}

#[test]
fn cut_at_each_byte() {
    for seed in seeds(15_000_000, 30) {
        let mut random = Random::new(seed);
        for from in EVERY_KIND_OF_ROWS {
            let input = small(from, seed);
            for end in 0..=input.len() {
                agree_to_every_kind(&mut random, SMALL.as_bytes(), from, &input[..end], seed);
            }
        }
    }
}

#[test]
fn damaged_at_each_byte() {
    for seed in seeds(16_000_000, 2) {
        for from in EVERY_KIND_OF_ROWS {
            let input = small(from, seed);
            for at in 0..input.len() {
                let (before, after) = (&input[..at], &input[at + 1..]);
                let agree = |bytes: &[u8]| {
                    let to = EVERY_KIND_OF_ROWS[at % 3];
                    Case { declarations: SMALL.as_bytes(), from, to, input: bytes, seed }.agree(600);
                };
                agree(&[before, after].concat());
                agree(&[before, &[input[at]], &input[at..]].concat());
                for byte in TELLING {
                    agree(&[before, &[*byte], after].concat());
                    agree(&[before, &[*byte], &input[at..]].concat());
                }
            }
        }
    }
}

#[test]
fn random_bytes() {
    for seed in seeds(17_000_000, 60_000) {
        let mut random = Random::new(seed);
        let columns = some(&mut random, 1, 3);
        let size = random.below(80);
        // Mostly small bytes: a count is then often one that can be kept.
        let input: Vec<u8> = match random.below(3) {
            0 => random.bytes(size),
            1 => (0..size).map(|_| random.pick(b"\0\0\0\0\0\x01\x02\x03TF?0\x80")).collect(),
            _ => (0..size).map(|_| random.pick(TELLING)).collect(),
        };
        let from = random.pick(&EVERY_KIND_OF_ROWS);
        agree_to_every_kind(&mut random, &declarations(&columns), from, &input, seed);
    }
}

/// What rows of text are made of, and what comes near to it.
const PIECES: &[&str] = &[
    "<TR>",
    "<TR >",
    "</TR>",
    "</TR\n>",
    "<TD>",
    "<TD\t>",
    "</TD>",
    "</TD >",
    "<TD/>",
    "<TD />",
    "<TR/>",
    "<",
    ">",
    "/",
    " ",
    "\n",
    "\r",
    "\r\n",
    "<TD",
    "</TD",
    "<TR",
    "</TR",
    "<td>",
    "<TH>",
    "1",
    "0",
    "T",
    "true",
    "-5",
    "99999999999",
    "&amp;",
    "&lt;",
    "&#49;",
    "&#x31;",
    "&#0;",
    "&#10;",
    "&#13;",
    "&#128;",
    "&",
    ";",
    "&x;",
    "0x1f",
    "<!-- -->",
    "<![CDATA[1]]>",
    "<TD/ >",
    "<TD>1</TD>",
    "<TR><TD>1</TD></TR>",
    "\0",
    "é",
    "]]>",
    "<TD a='1'>",
    "?",
];

#[test]
fn pieces_of_text_in_any_order() {
    let columns = ["<FIELD datatype='int'/>", "<FIELD datatype='char' arraysize='*'/>", "<FIELD datatype='boolean'/>"];
    for seed in seeds(18_000_000, 150_000) {
        let mut random = Random::new(seed);
        let declarations = random.pick(&columns).repeat(random.between(1, 2));
        let mut input = if random.one_in(2) { "<TR><TD>".to_string() } else { String::new() };
        for _ in 0..random.between(1, 9) {
            input += random.pick(PIECES);
        }
        let to = random.pick(&EVERY_KIND_OF_ROWS);
        let (from, input) = (Rows::TableData, input.as_bytes());
        Case { declarations: declarations.as_bytes(), from, to, input, seed }.agree(100);
    }
}

#[test]
fn each_piece_of_text_dropped_doubled_or_moved() {
    let fields =
        ["int", "char", "boolean", "bit"].map(|first| format!("<FIELD datatype='{first}'/><FIELD datatype='char' arraysize='3*'/>"));
    for field in fields {
        for cell in ["1", " 0\n", "\r\n1\r", "&#49;", "\x0b"] {
            let first = ["<TR", ">", " ", "<TD", " ", ">", cell, "</TD", "\t", ">"];
            let rest = ["<TD", "/>", "</TR", "\r", ">", "\n", "<TR><TD/><TD>x</TD></TR>"];
            for text in rearranged(&[&first[..], &rest].concat()) {
                let (from, input) = (Rows::TableData, text.as_bytes());
                Case { declarations: field.as_bytes(), from, to: Rows::Binary2, input, seed: 0 }.agree(40);
            }
        }
    }
}

#[test]
fn text_to_binary2_and_back_keeps_every_cell() {
    for seed in seeds(19_000_000, 3_000) {
        let mut random = Random::new(seed);
        let columns = some(&mut random, 1, 6);
        let text = declarations(&columns);
        let table = table(&mut random, &columns, Rows::TableData, 3);
        let input = spelled(&mut random, &columns, Rows::TableData, &table);
        let convert = |from, to, input: &[u8], room| {
            let mut out = vec![0; room];
            let answer = sailmortar::convert(&text, from, to, input, &mut out);
            let answer = answer.unwrap_or_else(|refused| panic!("seed {seed}: {refused}"));
            assert_eq!(answer.rows, 3, "seed {seed}");
            out.truncate(answer.bytes as usize);
            out
        };
        let binary2 = convert(sailmortar::Rows::TableData, sailmortar::Rows::Binary2, &input, 1_000_000);
        assert_shown(&columns, Rows::Binary2, &binary2, &table, seed);
        let back = convert(sailmortar::Rows::Binary2, sailmortar::Rows::TableData, &binary2, 4_000_000);
        assert_shown(&columns, Rows::TableData, &back, &table, seed);
    }
}

#[test]
fn every_stream_of_two_bytes() {
    let fields = [
        "<FIELD datatype='boolean'/>",
        "<FIELD datatype='bit'/>",
        "<FIELD datatype='unsignedByte'><VALUES null='7'/></FIELD>",
        "<FIELD datatype='char'/>",
        "<FIELD datatype='bit' arraysize='9'/>",
        "<FIELD datatype='char' arraysize='2'/>",
    ];
    for (place, field) in fields.into_iter().enumerate() {
        for value in 0..=u16::MAX {
            let to = EVERY_KIND_OF_ROWS[(usize::from(value) + place) % 3];
            for from in [Rows::Binary, Rows::Binary2] {
                let input = &value.to_be_bytes();
                Case { declarations: field.as_bytes(), from, to, input, seed: 0 }.agree(60);
            }
        }
    }
}

#[test]
fn every_text_of_few_pieces() {
    let pieces = ["<TR>", "</TR>", "<TD>", "</TD>", "<TD/>", " ", "1", "<", "&#49;"];
    for field in ["<FIELD datatype='int'/>", "<FIELD datatype='bit'/><FIELD datatype='char'/>"] {
        for length in 0..=5 {
            for mut number in 0..pieces.len().pow(length) {
                let mut input = String::new();
                for _ in 0..length {
                    input += pieces[number % pieces.len()];
                    number /= pieces.len();
                }
                let (from, input) = (Rows::TableData, input.as_bytes());
                Case { declarations: field.as_bytes(), from, to: Rows::Binary2, input, seed: 0 }.agree(20);
            }
        }
    }
}
