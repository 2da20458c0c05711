//! Why an integer cell is refused: an element is not written as an integer of its kind (11), or lies outside its range (18). The first bad
//! element decides, behind the tags and references of the whole cell (10) and before the number of its elements (12).

use super::compare::{seeds, Case};
use super::rules::{accepts, refuses, says, td};
use crate::generate::columns::{column, datatype, declarations};
use crate::generate::Random;
use crate::model::converter::Rows::{Binary, Binary2, TableData};
use crate::model::converter::EVERY_KIND_OF_ROWS;
use crate::model::{Kind, Length};

/// Each integer kind with its least and its greatest value.
const INTEGERS: [(Kind, i128, i128); 4] = [
    (Kind::UnsignedByte, u8::MIN as i128, u8::MAX as i128),
    (Kind::Short, i16::MIN as i128, i16::MAX as i128),
    (Kind::Int, i32::MIN as i128, i32::MAX as i128),
    (Kind::Long, i64::MIN as i128, i64::MAX as i128),
];

const ARRAYS: [Length; 3] = [Length::Fixed(2), Length::Bounded(2), Length::Free];

fn field(kind: Kind, length: Length) -> String {
    String::from_utf8(declarations(&[column(kind, length)])).expect("text")
}

/// A row of one cell.
fn row(cell: &[u8]) -> Vec<u8> {
    [b"<TR><TD>", cell, b"</TD></TR>\n"].concat()
}

/// Holds a word to its value, or to the number of its refusal: alone, in arrays of every shape, and as a declared null.
fn word_is(kind: Kind, word: &str, value: Result<i128, u64>) {
    let scalar = field(kind, Length::Fixed(1));
    let null = format!("<FIELD datatype='{}'><VALUES null='{word}'/></FIELD>", datatype(kind));
    match value {
        Ok(value) => {
            accepts(&scalar, TableData, TableData, &td(word), &td(&value.to_string()));
            accepts(&null, TableData, TableData, &td(word), b"<TR><TD/></TR>\n");
        }
        Err(number) => {
            for to in EVERY_KIND_OF_ROWS {
                refuses(&scalar, TableData, to, &td(word), number);
            }
            refuses(&null, TableData, TableData, &td("7"), 4);
        }
    }
    for array in ARRAYS.map(|length| field(kind, length)) {
        for place in 0..2 {
            let cell = |word: &str| td(&["7", word, "7"][place..place + 2].join(" "));
            match value {
                Ok(value) => accepts(&array, TableData, TableData, &cell(word), &cell(&value.to_string())),
                Err(number) => refuses(&array, TableData, Binary2, &cell(word), number),
            }
        }
    }
}

/// Holds a decimal to what the rules say of it.
fn is_judged((kind, least, greatest): (Kind, i128, i128), sign: &str, digits: &str) {
    let word = format!("{sign}{digits}");
    let value = match word.parse().expect("a decimal") {
        _ if digits.len() > 20 || (kind == Kind::UnsignedByte && !sign.is_empty()) => Err(11),
        value if value < least || greatest < value => Err(18),
        value => Ok(value),
    };
    word_is(kind, &word, value);
}

#[test]
fn both_sides_of_both_ends_with_every_sign_and_with_leading_zeros() {
    for integers @ (_, least, greatest) in INTEGERS {
        for value in (least - 2..=least + 1).chain(greatest - 1..=greatest + 2) {
            let signs: &[&str] = if value < 0 { &["-"] } else { &["", "+"] };
            for sign in signs {
                for width in [1, 19, 20, 21] {
                    is_judged(integers, sign, &format!("{:0width$}", value.unsigned_abs()));
                }
            }
        }
    }
}

#[test]
fn one_to_twenty_five_digits() {
    for integers in INTEGERS {
        for count in 1..=25 {
            for digits in ["0", "1", "9"].map(|digit| digit.repeat(count)) {
                for sign in ["", "+", "-"] {
                    is_judged(integers, sign, &digits);
                }
            }
        }
    }
}

/// The two's complement of the kind's width.
fn of_hexadigits(kind: Kind, digits: &str) -> i128 {
    let bits = u64::from_str_radix(digits, 16).expect("hexadigits");
    match kind {
        Kind::Short => i128::from(bits as i16),
        Kind::Int => i128::from(bits as i32),
        Kind::Long => i128::from(bits as i64),
        _ => i128::from(bits),
    }
}

#[test]
fn hexadigits_are_too_many_and_never_out_of_range() {
    for (kind, ..) in INTEGERS {
        for count in 0..=20 {
            for digits in ["0", "1", "8", "f", "F"].map(|digit| digit.repeat(count)) {
                for sign in ["+", "-"] {
                    refuses(&field(kind, Length::Fixed(1)), TableData, Binary, &td(&format!("{sign}0x{digits}")), 11);
                }
                if (1..=2 * kind.width()).contains(&count) {
                    word_is(kind, &format!("0x{digits}"), Ok(of_hexadigits(kind, &digits)));
                } else {
                    word_is(kind, &format!("0x{digits}"), Err(11));
                }
            }
        }
    }
}

/// An element, and the number that it gives a cell in which it is the first bad one; 0 where it is good.
type Element = (Vec<u8>, u64);

/// Elements of every sort for a kind: good ones, ones outside its range, ones that are not written as an integer, and ones with a character
/// that no cell may hold, by itself or behind digits.
fn elements(kind: Kind, least: i128, greatest: i128) -> Vec<Element> {
    let over = (greatest + 1).to_string();
    let below = (least - 1).to_string();
    let of_below = if kind == Kind::UnsignedByte { 11 } else { 18 };
    let mut elements = vec![(b"7".to_vec(), 0), (b"&#55;".to_vec(), 0), (b"0x7f".to_vec(), 0)];
    elements.extend([(over.clone().into_bytes(), 18), (b"9".repeat(20), 18), (below.into_bytes(), of_below)]);
    elements.push((over.replace('9', "&#57;").replace('2', "&#x32;").into_bytes(), 18));
    for text in ["x", "1.5", "7,", "-", "0x", "0X7", "&amp;", "&lt;"] {
        elements.push((text.as_bytes().to_vec(), 11));
    }
    elements.push((b"9".repeat(21), 11));
    for character in [&b"\x01"[..], b"\0", b"\x0b", b"\xc8", b"\xff", b"&#1;", b"&#0;", b"&#200;", b"&#x10a;", b"&#xFFFFFFFF;"] {
        elements.extend([(character.to_vec(), 11), ([over.as_bytes(), character].concat(), 11), ([character, b"7"].concat(), 11)]);
    }
    elements
}

fn first_bad(elements: &[&Element]) -> Option<u64> {
    elements.iter().map(|(_, number)| *number).find(|number| *number != 0)
}

fn joined(elements: &[&Element], between: &[u8]) -> Vec<u8> {
    elements.iter().map(|(text, _)| &text[..]).collect::<Vec<_>>().join(between)
}

/// White space between two elements, as it stands or as references.
const SPACES: [&[u8]; 7] = [b" ", b"\t", b"\n", b"\r\n", b"&#32;", b"&#13;", b" \n "];

/// What is broken in the whole of a cell, wherever it stands.
const BROKEN: [&[u8]; 5] = [b"&", b"&nbsp;", b"&#;", b"<", b"</TD"];

#[test]
fn of_two_elements_the_first_bad_one_decides() {
    let lengths = [Length::Fixed(1), Length::Fixed(2), Length::Fixed(3), Length::Bounded(1), Length::Bounded(4), Length::Free];
    for (kind, least, greatest) in INTEGERS {
        let fields = lengths.map(|length| field(kind, length));
        let elements = elements(kind, least, greatest);
        for (place, (first, second)) in elements.iter().flat_map(|first| elements.iter().map(move |second| (first, second))).enumerate() {
            let Some(number) = first_bad(&[first, second]) else { continue };
            let between = SPACES[place % SPACES.len()];
            let cell = joined(&[first, second], between);
            for field in &fields {
                refuses(field, TableData, EVERY_KIND_OF_ROWS[place % 3], &row(&cell), number);
                let broken = BROKEN[place % BROKEN.len()];
                refuses(field, TableData, Binary2, &row(&[&cell, between, broken].concat()), 10);
            }
        }
    }
}

#[test]
fn of_many_elements_the_first_bad_one_decides() {
    let mut met = [0; 19];
    for seed in seeds(21_000_000, 20_000) {
        let mut random = Random::new(seed);
        let (kind, least, greatest) = random.pick(&INTEGERS);
        let elements = elements(kind, least, greatest);
        let (size, taken) = (random.between(1, 6), random.between(1, 6));
        // Every other one is the first, which is good: else hardly any cell would be.
        let chosen: Vec<&Element> = (0..size).map(|_| &elements[random.below(2) * random.below(elements.len())]).collect();
        let (length, fits) = random.pick(&[
            (Length::Fixed(taken), size == taken),
            (Length::Fixed(size), true),
            (Length::Bounded(taken), size <= taken),
            (Length::Free, true),
        ]);
        let number = first_bad(&chosen).unwrap_or(if fits { 0 } else { 12 });
        let (field, input) = (field(kind, length), row(&joined(&chosen, random.pick(&SPACES))));
        let case = Case { declarations: field.as_bytes(), from: TableData, to: Binary2, input: &input, seed };
        assert_eq!(case.agree_with_room_enough()[0], number, "seed {seed}: {field} {}", input.escape_ascii());
        met[number as usize] += 1;
    }
    // Not where a single seed is run again.
    if met.iter().sum::<u64>() > 1_000 {
        assert!([0, 11, 12, 18].iter().all(|number| met[*number] > 500), "{met:?}");
    }
}

/// Elements of the most that a cell may have, and more: the number of them is judged behind the last one.
#[test]
fn a_bad_element_behind_all_that_a_cell_may_have_decides() {
    for (kind, _, greatest) in INTEGERS {
        let over = (greatest + 1).to_string();
        for count in [4_095, 4_096, 5_000] {
            let good = "7 ".repeat(count);
            for (last, number) in
                [(format!("{over} x"), 18), (format!("x {over}"), 11), (format!("{over} &#1;"), 18), (format!("&#1; {over}"), 11)]
            {
                for length in [Length::Free, Length::Fixed(4_096), Length::Bounded(2)] {
                    refuses(&field(kind, length), TableData, Binary2, &td(&format!("{good}{last}")), number);
                }
            }
        }
    }
}

#[test]
fn cells_and_rows_before_come_first() {
    let fields = "<FIELD datatype='short'/><FIELD datatype='unsignedByte' arraysize='2'/>";
    let (good, written) = ("<TR><TD>7</TD><TD>1 2</TD></TR>", b"\0\x07\x01\x02");
    let cells = [
        ("<TD>32768</TD><TD>x</TD>", 18, 0),
        ("<TD>x</TD><TD>256 1</TD>", 11, 0),
        ("<TD>32768</TD><TD>&</TD>", 18, 0),
        ("<TD>32768</TD><td/>", 18, 0),
        ("<TD>32768</TD>", 18, 0),
        ("<TD/><TD>1 256</TD>", 18, 1),
        ("<TD>1 2</TD><TD>256 1</TD>", 12, 0),
        ("<TD>1 32768</TD><TD>256 1</TD>", 18, 0),
        ("<TD>7</TD><TD>255 256 257</TD>", 18, 1),
    ];
    for (cells, number, column) in cells {
        let input = format!("{good}\n<TR>{cells}</TR>{good}");
        says(fields, TableData, Binary, input.as_bytes(), [number, 1, column, 1, written.len() as u64], written);
    }
}

/// Whatever stands in it, no other cell gives 18: a number in a boolean or in a bit is no value, and in a text it is characters.
#[test]
fn in_other_kinds_nothing_is_out_of_range() {
    for (_, least, greatest) in INTEGERS {
        for number in [greatest + 1, least - 1].map(|value| value.to_string()) {
            for field in [Kind::Boolean, Kind::Bit].into_iter().flat_map(|kind| ARRAYS.map(|length| field(kind, length))) {
                refuses(&field, TableData, Binary2, &td(&number), 11);
            }
            accepts(&field(Kind::Char, Length::Free), TableData, TableData, &td(&number), &td(&number));
            refuses(&field(Kind::Char, Length::Fixed(1)), TableData, Binary2, &td(&number), 12);
        }
    }
}
