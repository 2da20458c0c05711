//! Single cells, gone through one by one rather than at random.

use super::compare::{seeds, Case};
use super::declarations::words;
use crate::generate::columns::{column, datatype, declarations, limits, EVERY_KIND};
use crate::generate::Random;
use crate::model::converter::{Rows, EVERY_KIND_OF_ROWS};
use crate::model::{Answer, Kind, Length};

fn agree_on_text(field: &[u8], cell: &[u8], seed: u64) -> Answer {
    let input = [b"<TR><TD>", cell, b"</TD></TR>"].concat();
    let to = EVERY_KIND_OF_ROWS[cell.len() % 3];
    Case { declarations: field, from: Rows::TableData, to, input: &input, seed }.agree(60)
}

#[test]
fn every_text_of_few_letters() {
    for kind in EVERY_KIND {
        let scalar = declarations(&[column(kind, Length::Fixed(1))]);
        let array = declarations(&[column(kind, Length::Bounded(2))]);
        for word in words(b"01 9-+xfT?&#;<>\n\r", 3) {
            agree_on_text(&scalar, &word, 0);
            agree_on_text(&array, &word, 0);
        }
        for word in words(b"01x+ f-", 5) {
            agree_on_text(&scalar, &word, 0);
        }
    }
}

#[test]
fn every_byte_and_every_reference_to_a_byte() {
    for kind in EVERY_KIND {
        let field = declarations(&[column(kind, Length::Bounded(2))]);
        for code in 0..=300u32 {
            let byte = [code as u8];
            agree_on_text(&field, &byte, 0);
            agree_on_text(&field, &[b"1", &byte[..]].concat(), 0);
            agree_on_text(&field, &[&byte[..], b"1"].concat(), 0);
            for reference in [format!("&#{code};"), format!("&#x{code:x};"), format!("&#x{code:08X};"), format!("&#{code:09};")] {
                agree_on_text(&field, reference.as_bytes(), 0);
                agree_on_text(&field, format!("1{reference}").as_bytes(), 0);
            }
        }
    }
}

#[test]
fn references_that_are_broken_or_nearly() {
    let field = b"<FIELD datatype='char' arraysize='*'/>";
    let names = ["amp", "lt", "gt", "quot", "apos", "AMP", "am", "ampe", "", "#", "#x", "#X41", "#x ", "# 49", "#-1", "#4a", "#x4g"];
    let numbers = ["#49", "#00000049", "#000000049", "#x31", "#x00000031", "#x000000031", "#xffffffff", "#99999999", "#4294967345"];
    for name in names.into_iter().chain(numbers) {
        for ending in [";", "", " ;", ";;", "<", "&"] {
            agree_on_text(field, format!("a&{name}{ending}b").as_bytes(), 0);
            agree_on_text(field, format!("&{name}{ending}").as_bytes(), 0);
        }
    }
    for word in words(b"&#x19;a", 6) {
        agree_on_text(field, &word, 0);
    }
}

#[test]
fn integers_near_every_power_and_end() {
    for kind in EVERY_KIND.into_iter().filter(|kind| kind.is_integer()) {
        let field = declarations(&[column(kind, Length::Fixed(1))]);
        let mut values = vec![];
        for power in 0..=66 {
            values.extend([1i128 << power, -(1i128 << power)]);
        }
        for digits in 0..=20 {
            values.extend([10i128.pow(digits), -(10i128.pow(digits))]);
        }
        for value in values.into_iter().flat_map(|value| value - 1..=value + 1) {
            let (sign, digits) = (if value < 0 { "-" } else { "" }, value.unsigned_abs());
            for word in [format!("{sign}{digits}"), format!("+{digits}"), format!("{sign}{digits:020}"), format!("{sign}{digits:021}")] {
                agree_on_text(&field, word.as_bytes(), 0);
            }
            for word in [
                format!("0x{digits:x}"),
                format!("0x{digits:016X}"),
                format!("0x{digits:017x}"),
                format!("-0x{digits:x}"),
                format!("0X{digits:x}"),
            ] {
                agree_on_text(&field, word.as_bytes(), 0);
            }
        }
    }
}

#[test]
fn integers_of_two_bytes_all_of_them() {
    let text = "<FIELD datatype='unsignedByte' arraysize='2'/><FIELD datatype='short'><VALUES null='-2'/></FIELD>";
    for value in (0..=u16::MAX).step_by(7).chain(0xff00..=u16::MAX) {
        let bytes = value.to_be_bytes();
        let input = [bytes, bytes].concat();
        for to in EVERY_KIND_OF_ROWS {
            Case { declarations: text.as_bytes(), from: Rows::Binary, to, input: &input, seed: 0 }.agree(60);
        }
    }
}

#[test]
fn every_byte_of_a_binary_cell() {
    for kind in EVERY_KIND {
        for elements in [1, 2, 8, 9] {
            let column = column(kind, Length::Fixed(elements));
            let text = declarations(&[column]);
            let size = column.content_size(elements);
            for byte in 0..=255u8 {
                for at in 0..size {
                    let mut input = vec![if kind == Kind::Boolean { b'T' } else { b'a' & 0xc0 }; size];
                    input[at] = byte;
                    for to in EVERY_KIND_OF_ROWS {
                        Case { declarations: &text, from: Rows::Binary, to, input: &input, seed: 0 }.agree(250);
                    }
                }
            }
        }
    }
}

#[test]
fn counts_around_every_bound() {
    for kind in EVERY_KIND {
        for length in [1, 2, 7, 8, 9, 255, 256, 4095, 4096].map(Length::Bounded).into_iter().chain([Length::Free]) {
            let column = column(kind, length);
            let text = declarations(&[column]);
            let bound = column.bound() as u32;
            for count in [0, 1, bound - 1, bound, bound + 1, 256 * bound, 1 << 24, 1 << 31, u32::MAX] {
                let room = column.content_size(count.min(5_000) as usize);
                for size in [room, room.saturating_sub(1), room + 4] {
                    let input = [&count.to_be_bytes()[..], &vec![b'1' & 0x30; size]].concat();
                    let flagged = [&[0x80][..], &input].concat();
                    for to in EVERY_KIND_OF_ROWS {
                        Case { declarations: &text, from: Rows::Binary, to, input: &input, seed: 0 }.agree_with_room_enough();
                        Case { declarations: &text, from: Rows::Binary2, to, input: &flagged, seed: 0 }.agree_with_room_enough();
                    }
                }
            }
        }
    }
}

#[test]
fn every_flag_byte() {
    for count in (1..=17usize).chain([63, 64]) {
        let text = "<FIELD datatype='char'/>".repeat(count);
        let flag_bytes = count.div_ceil(8);
        for flags in 0..=255u8 {
            for at in 0..flag_bytes {
                let mut input = vec![0; flag_bytes];
                input[at] = flags;
                input.extend((0..count).map(|place| b'!' + place as u8));
                for to in EVERY_KIND_OF_ROWS {
                    let case = Case { declarations: text.as_bytes(), from: Rows::Binary2, to, input: &input, seed: 0 };
                    case.agree(900);
                    // The same row, and a second one whose flags are cut off here.
                    Case { input: &[&input[..], &input[..at]].concat(), ..case }.agree(900);
                }
            }
        }
    }
}

/// Words that are values of some kind, that are out of another's range, or that come near to being one.
const WORDS: &str =
    "1 -1 0 +7 T f true ? 0x1F 256 99999 -3000000000 99999999999999999999 000000000000000000007 0x11111111111111111 101 x 1,2 \
    &#49; &#57;9999 &#32; - \x7f \x01 &#200; é";

#[test]
fn arrays_of_words_at_random() {
    let words: Vec<&str> = WORDS.split(' ').collect();
    let lengths = [Length::Fixed(3), Length::Bounded(4), Length::Free, Length::Fixed(1)];
    for seed in seeds(20_000_000, 120_000) {
        let mut random = Random::new(seed);
        let kind = random.pick(&EVERY_KIND);
        let field = declarations(&[column(kind, random.pick(&lengths))]);
        let (_, greatest) = if kind.is_integer() { limits(kind) } else { (0, 1) };
        let mut cell = random.white_space(2);
        for _ in 0..random.between(0, 5) {
            let most_often = random.pick(&["1", "0", datatype(kind)]);
            let word = if random.one_in(3) { random.pick(&words).to_string() } else { most_often.to_string() };
            cell.extend(if random.one_in(9) { greatest.to_string() } else { word }.as_bytes());
            cell.extend(random.white_space(2));
        }
        agree_on_text(&field, &cell, seed);
    }
}

#[test]
fn text_of_more_elements_than_any_cell_may_have() {
    for kind in EVERY_KIND {
        let separator = if matches!(kind, Kind::Bit | Kind::Char) { "" } else { " " };
        for length in [Length::Free, Length::Bounded(4_095), Length::Fixed(4_096)] {
            let field = declarations(&[column(kind, length)]);
            for elements in [4_094, 4_095, 4_096, 4_097, 5_000, 70_000] {
                let cell = ["1"].repeat(elements).join(separator);
                // What is wrong in the last element is told before the number of them.
                for cell in [cell.clone(), cell.clone() + "\x01", cell.clone() + "&", cell + separator + "x"] {
                    let input = format!("<TR><TD>{cell}</TD></TR>").into_bytes();
                    let case = Case { declarations: &field, from: Rows::TableData, to: Rows::Binary2, input: &input, seed: 0 };
                    case.agree_with_room_enough();
                }
            }
        }
    }
}

#[test]
fn words_and_white_space_without_end() {
    let field = b"<FIELD datatype='long'/>";
    for size in [20, 21, 1_000, 100_000] {
        for filling in ["0", "1", " ", "\n", "\r\n", "&#48;", "&#32;", "0x", "-", "&"] {
            agree_on_text(field, filling.repeat(size).as_bytes(), 0);
            agree_on_text(field, (filling.repeat(size) + "7").as_bytes(), 0);
            agree_on_text(field, ("7".to_string() + &filling.repeat(size)).as_bytes(), 0);
        }
    }
}
