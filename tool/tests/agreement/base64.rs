//! Base64 both ways. Decoding has quick ways over letters with nothing between them: lines of all lengths and ends, and what is wrong
//! at any place of them, have it leave these and take them up again.

use super::compare::{agree_on_decoding, agree_on_encoding, seeds};
use super::declarations::words;
use crate::generate::damage::damaged;
use crate::generate::Random;
use crate::model::base64::{decode, encode};

#[test]
fn every_group_of_few_letters() {
    for word in words(b"AQZg/+= !\x80", 5) {
        agree_on_decoding(&word, 4, 0);
    }
}

#[test]
fn every_byte_at_every_place_of_two_groups() {
    for good in [b"Zm9vYmFy", b"Zm9vYmE=", b"Zm9vYg=="] {
        for at in 0..good.len() {
            for byte in 0..=255 {
                let mut letters = good.to_vec();
                letters[at] = byte;
                agree_on_decoding(&letters, 6, 0);
                letters.insert(at, good[at]);
                agree_on_decoding(&letters, 6, 0);
            }
        }
    }
}

/// Letters of a line: multiples of four and of sixteen, and what is neither.
const LENGTHS: [usize; 8] = [4, 60, 64, 72, 75, 76, 77, 80];
/// What ends a line; nothing for letters without a break.
const ENDS: [&str; 6] = ["", "\n", "\r\n", " ", "\n\n", "\t"];

/// Bytes and their letters in lines, with no end behind the last one.
fn in_lines(size: usize, length: usize, end: &str) -> (Vec<u8>, Vec<u8>) {
    let plain = Random::new(size as u64).bytes(size);
    let letters = encode(&plain, usize::MAX).bytes;
    (plain, letters.chunks(length).collect::<Vec<_>>().join(end.as_bytes()))
}

#[test]
fn lines_of_any_length_and_end() {
    for (length, end) in LENGTHS.into_iter().flat_map(|length| ENDS.map(|end| (length, end))) {
        for size in (0..=200).chain([1_023, 3_000, 5_001, 9_998]) {
            let (plain, mut text) = in_lines(size, length, end);
            for _ in 0..2 {
                assert_eq!(decode(&text, usize::MAX).bytes, plain);
                for room in [size, size + 1, size + 40] {
                    assert_eq!(agree_on_decoding(&text, room, 0), [0, 0, 0, 0, size as u64]);
                }
                if size > 0 {
                    assert_eq!(agree_on_decoding(&text, size - 1, 0), [17, 0, 0, 0, 0]);
                }
                text.extend(end.as_bytes());
            }
        }
    }
}

/// The byte instead of what stands there, and before it; at the end behind all.
fn with_byte(text: &[u8], at: usize, byte: u8) -> [Vec<u8>; 2] {
    [at + 1, at].map(|behind| [&text[..at], &[byte], &text[behind.min(text.len())..]].concat())
}

#[test]
fn every_byte_at_places_of_lines() {
    for (length, end) in [(64, "\n"), (75, "\n"), (76, "\n"), (76, "\r\n"), (77, " "), (400, "")] {
        for size in [198, 199, 200] {
            let (_, text) = in_lines(size, length, end);
            let (first, last) = (length.min(text.len() / 2), text.len());
            let around_a_break = [0, 1, 2, 3, first / 2, first - 1, first, first + 1, first + 2, first + 17];
            for at in around_a_break.into_iter().chain(last - 5..=last) {
                for text in (0..=255).flat_map(|byte| with_byte(&text, at, byte)) {
                    // With more room for an `=` that became a letter.
                    agree_on_decoding(&text, size, 0);
                    agree_on_decoding(&text, size + 2, 0);
                }
            }
        }
    }
}

#[test]
fn telling_bytes_at_every_place_of_two_lines() {
    for (length, end) in [(64, "\n"), (75, "\n"), (76, "\r\n"), (76, "")] {
        let most = 2 * length / 4 * 3;
        for size in [most - 2, most - 1, most] {
            let (_, text) = in_lines(size, length, end);
            for at in 0..=text.len() {
                // What is cut off still stands behind the input.
                agree_on_decoding(&text[..at], size, 0);
                for byte in *b"=A-_ \n\0\x0b\x7f\x80\xc1\xff" {
                    for once in with_byte(&text, at, byte) {
                        agree_on_decoding(&once, size + 2, 0);
                        for twice in with_byte(&once, at + 1, byte) {
                            agree_on_decoding(&twice, size + 2, 0);
                        }
                    }
                }
            }
        }
    }
}

fn is_letter(byte: &u8) -> bool {
    byte.is_ascii_alphanumeric() || b"+/".contains(byte)
}

#[test]
fn loose_bits_in_the_last_letter() {
    for (length, end) in LENGTHS.into_iter().flat_map(|length| ENDS.map(|end| (length, end))) {
        for size in [1, 2, 46, 47, 55, 56, 58, 59, 115, 116, 3_001, 3_002] {
            let (_, text) = in_lines(size, length, end);
            let last = text.iter().rposition(is_letter).expect("a letter");
            let is_good = |letter: u8| agree_on_decoding(&with_byte(&text, last, letter)[0], size, 0)[0] == 0;
            // Four bits of the last letter belong to no byte where one byte is left, and two where two are.
            let good = (0..=255).filter(is_letter).filter(|letter| is_good(*letter)).count();
            assert_eq!(good, if size % 3 == 1 { 4 } else { 16 }, "{size} bytes in lines of {length}");
        }
    }
}

#[test]
fn no_letter_far_behind_good_lines() {
    let refused = |text: &[u8]| assert_eq!(agree_on_decoding(text, text.len(), 0), [7, 0, 0, 0, 0]);
    for (length, end) in [(64, "\n"), (75, "\n"), (76, "\r\n"), (usize::MAX, "")] {
        for size in [3_000, 3_001, 3_002] {
            let (_, text) = in_lines(size, length, end);
            for byte in 128..=255 {
                with_byte(&text, text.len() - 1, byte).iter().for_each(|text| refused(text));
                refused(&with_byte(&text, text.len(), byte)[0]);
            }
        }
        let (_, text) = in_lines(1_000_000, length, end);
        for byte in [b'-', b'=', 0, 0x80, 0xc1, 0xff] {
            refused(&with_byte(&text, text.len(), byte)[0]);
        }
    }
}

#[test]
fn every_pair_of_bytes_is_encoded() {
    for first in 0..=255 {
        agree_on_encoding(&[first], 4, 0);
        for second in 0..=255 {
            agree_on_encoding(&[first, second], 4, 0);
            agree_on_encoding(&[second, first, second ^ 0x5a], 5, 0);
        }
    }
}

#[test]
fn any_bytes_there_and_back() {
    for seed in seeds(60_000_000, 5_000) {
        let mut random = Random::new(seed);
        let size = random.below(300);
        let plain = random.bytes(size);
        let mut letters = encode(&plain, usize::MAX).bytes;
        agree_on_encoding(&plain, letters.len() + random.below(3), seed);
        for _ in 0..random.below(12) {
            let at = random.below(letters.len() + 1);
            letters.insert(at, random.pick(b"\t\n\r "));
        }
        assert_eq!(decode(&letters, usize::MAX).bytes, plain);
        agree_on_decoding(&letters, plain.len() + random.below(3), seed);
    }
}

#[test]
fn damaged_anyhow() {
    for seed in seeds(61_000_000, 40_000) {
        let mut random = Random::new(seed);
        let size = random.below(40);
        let plain = random.bytes(size);
        let letters = damaged(&mut random, &encode(&plain, usize::MAX).bytes);
        let room = random.below(plain.len() + 4);
        agree_on_decoding(&letters, room, seed);
    }
}

#[test]
fn random_bytes() {
    for seed in seeds(62_000_000, 20_000) {
        let mut random = Random::new(seed);
        let size = random.below(24);
        let letters: Vec<u8> = match random.below(2) {
            0 => random.bytes(size),
            _ => (0..size).map(|_| random.pick(b"ABYZabyz0189+/== \n")).collect(),
        };
        agree_on_decoding(&letters, 24, seed);
        agree_on_encoding(&letters, 32, seed);
    }
}
