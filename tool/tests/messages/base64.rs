//! What is said of refused base64, and that it is always found.

use sailmortar::base64_decode;

use super::said::of_base64;
use crate::generate::damage::damaged;
use crate::generate::Random;
use crate::letters::fault;
use crate::model::base64::encode;

#[test]
fn the_first_character_that_is_wrong_is_shown() {
    let cases: [(&[u8], &str); 12] = [
        (b"Zm9_", "in line 1, at byte 3: '_' is no letter of base64"),
        (b"Zm9v\nYm\xC3\xA9h", "in line 2, at byte 7: '\u{e9}' is no letter of base64"),
        (b"Zm9v\nYm\xE9h", "in line 2, at byte 7: '\\xE9' is no letter of base64"),
        (b"Zm9v\x1b", "in line 1, at byte 4: '\\u{1b}' is no letter of base64"),
        (b"====", "in line 1, at byte 0: '=' stands where a letter should"),
        (b"Z===", "in line 1, at byte 1: '=' stands where a letter should"),
        (b"Zg==Zg==", "in line 1, at byte 4: 'Z' stands behind the '=' that ends a text"),
        (b"Zg=\n\nA", "in line 3, at byte 5: 'A' stands behind the '=' that ends a text"),
        (b"Zg===", "in line 1, at byte 4: '=' stands behind the '=' that ends a text"),
        (b"Zh==", "in line 1, at byte 1: 'h' sets bits that stand for nothing and must be 0"),
        (b"Zm9vYg=\n", "in line 1, at byte 7: the text ends inside a group of four, behind 3 of them"),
        (b"\nZm9vY\n\n", "in line 2, at byte 6: the text ends inside a group of four, behind 1 of them"),
    ];
    for (text, words) in cases {
        let report = of_base64(text);
        assert_eq!(report.lines[0], format!("letters: refusal 7 in the base64 step, {words}: the base64 is not valid"));
        assert_eq!(report.lines[1], "no row was read and nothing is written; 'sailmortar explain 7' says more");
    }
}

#[test]
fn a_fault_behind_many_letters_is_found() {
    // Lines of 76 letters, more than are looked at as one block.
    let line = [&b"QUJD".repeat(19)[..], b"\r\n"].concat();
    let mut text = line.repeat(1000);
    text.extend(b"Zh==");
    let report = of_base64(&text);
    let words = "in line 1001, at byte 78001: 'h' sets bits that stand for nothing and must be 0";
    assert_eq!(report.lines[0], format!("letters: refusal 7 in the base64 step, {words}: the base64 is not valid"));
}

/// A place is found just where the proved decoder refuses, and with the letters before it no group was wrong yet.
fn agree(text: &[u8]) -> bool {
    let mut room = vec![0; text.len()];
    let is_refused = base64_decode(text, &mut room).is_err();
    let found = fault(text);
    assert_eq!(found.is_some(), is_refused, "{}", text.escape_ascii());
    if let Some(found) = found {
        assert!(found.byte <= text.len(), "{}", text.escape_ascii());
        let letters: Vec<u8> = text[..found.byte].iter().copied().filter(u8::is_ascii_alphanumeric).collect();
        let before = &letters[..letters.len() / 4 * 4];
        assert!(base64_decode(before, &mut room).is_ok(), "{}", text.escape_ascii());
    }
    is_refused
}

#[test]
fn a_place_is_found_for_every_text_that_is_refused_and_for_no_other() {
    let (mut refused, mut accepted) = (0, 0);
    for seed in 0..60_000 * super::damage::times() {
        let mut random = Random::new(70_000_000 + seed);
        let size = random.pick(&[3, 9, 40, 300]);
        let size = random.below(size);
        let mut letters = encode(&random.bytes(size), usize::MAX).bytes;
        for _ in 0..random.below(4) {
            letters.insert(random.below(letters.len() + 1), random.pick(b"\t\n\r "));
        }
        let text = if random.one_in(4) { letters } else { damaged(&mut random, &letters) };
        match agree(&text) {
            true => refused += 1,
            false => accepted += 1,
        }
    }
    assert!(refused > 10_000 && accepted > 10_000, "{refused} refused, {accepted} accepted");
}

#[test]
fn every_text_of_few_letters() {
    let letters = b"AQZg= !";
    for number in 0..7usize.pow(6) {
        let length = number % 6 + 1;
        let text: Vec<u8> = (0..length as u32).map(|place| letters[number / 7usize.pow(place) % 7]).collect();
        agree(&text);
    }
}
