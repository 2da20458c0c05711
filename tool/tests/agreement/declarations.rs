//! Declarations in every spelling, damaged, and at their sizes.

use super::compare::{agree_on_declarations, seeds};
use crate::generate::columns::{any, column, datatype, declarations, limits, some, spelled_declarations, EVERY_KIND};
use crate::generate::damage::{damaged, rearranged, TELLING};
use crate::generate::Random;
use crate::model::{self, Length};

/// A few texts that use every part of the shape.
const TEXTS: [&str; 4] = [
    "<FIELD datatype=\"int\"/>",
    " <FIELD\tname = 'a>b' datatype='short' >\n<VALUES null = \" -99 \" x='' /> </FIELD >\r",
    "<FIELD arraysize=\"4096*\" datatype=\"char\"></FIELD><FIELD datatype='bit' arraysize='*' />",
    "<FIELD datatype='unsignedByte' arraysize='1'><VALUES null='0xfF'/></FIELD><FIELD datatype=\"long\"/>",
];

#[test]
fn every_kind_and_length() {
    for kind in EVERY_KIND {
        for elements in [1, 2, 7, 8, 9, 10, 999, 1000, 4095, 4096] {
            for length in [Length::Fixed(elements), Length::Bounded(elements), Length::Free] {
                let columns = [column(kind, length)];
                let text = declarations(&columns);
                assert_eq!(model::declarations::read(&text).as_deref(), Ok(&columns[..]));
                assert_eq!(agree_on_declarations(&text, elements as u64), [0, 0, 0, 1, 0]);
            }
        }
    }
}

#[test]
fn one_to_sixty_six_columns() {
    let mut random = Random::new(1);
    for count in 1..=66 {
        let columns: Vec<_> = (0..count).map(|_| any(&mut random)).collect();
        let text = spelled_declarations(&mut random, &columns);
        let expected = if count <= 64 { [0, 0, 0, count, 0] } else { [5, 0, 64, 0, 0] };
        assert_eq!(agree_on_declarations(&text, count), expected);
    }
}

#[test]
fn the_sixty_fifth_is_judged_before_it_is_counted() {
    let sixty_four = "<FIELD datatype='bit'/>".repeat(64);
    let tails = [
        ("<FIELD datatype='int'/>", 5),
        ("<FIELD datatype='int'/><FIELD/>", 5),
        ("<FIELD datatype='int'>", 1),
        ("<FIELD datatype='ints'/>", 2),
        ("<FIELD datatype='ints' arraysize='0'/>", 2),
        ("<FIELD datatype='int' arraysize='0'/>", 3),
        ("<FIELD datatype='int'><VALUES null=''/></FIELD>", 4),
        ("x", 1),
        ("<", 1),
    ];
    for (tail, number) in tails {
        let text = format!("{sixty_four} {tail}");
        assert_eq!(agree_on_declarations(text.as_bytes(), 0), [number, 0, 64, 0, 0], "{tail}");
    }
}

#[test]
fn in_every_spelling() {
    for seed in seeds(1_000_000, 30_000) {
        let mut random = Random::new(seed);
        let most = if seed % 50 == 0 { 64 } else { 4 };
        let columns = some(&mut random, 1, most);
        let text = spelled_declarations(&mut random, &columns);
        let told = format!("seed {seed}: {}", text.escape_ascii());
        assert_eq!(model::declarations::read(&text).as_deref(), Ok(&columns[..]), "{told}");
        assert_eq!(agree_on_declarations(&text, seed), [0, 0, 0, columns.len() as u64, 0], "{told}");
    }
}

#[test]
fn damaged_at_each_byte() {
    for text in TEXTS.map(str::as_bytes) {
        for at in 0..text.len() {
            let (before, after) = (&text[..at], &text[at + 1..]);
            agree_on_declarations(before, 0);
            agree_on_declarations(after, 0);
            agree_on_declarations(&[before, after].concat(), 0);
            agree_on_declarations(&[before, &[text[at]], &text[at..]].concat(), 0);
            for byte in TELLING {
                agree_on_declarations(&[before, &[*byte], after].concat(), 0);
                agree_on_declarations(&[before, &[*byte], &text[at..]].concat(), 0);
            }
        }
    }
}

#[test]
fn damaged_anyhow() {
    for seed in seeds(2_000_000, 100_000) {
        let mut random = Random::new(seed);
        let columns = some(&mut random, 1, 3);
        let text = spelled_declarations(&mut random, &columns);
        agree_on_declarations(&damaged(&mut random, &text), seed);
    }
}

/// What declarations are made of, and what comes near to it.
const PIECES: &[&str] = &[
    "<FIELD",
    "<FIELD ",
    "</FIELD>",
    "</FIELD",
    "<VALUES",
    "<VALUES ",
    "/>",
    ">",
    "/",
    "<",
    " ",
    "\n",
    "=",
    "\"",
    "'",
    " datatype=\"int\"",
    " datatype='char'",
    " arraysize=\"3\"",
    " arraysize='*'",
    " null=\"7\"",
    " null='x'",
    " name='n'",
    "datatype",
    "arraysize='2*'",
    "null",
    "\"long\"",
    "<FIELD datatype='bit'/>",
    " datatype='float'",
    "<FIELD datatype='short'>",
    "<VALUES null='-1'/>",
    "<VALUES null='0x1' null='2'/>",
    "<VALUES/>",
    "é",
    "\0",
];

#[test]
fn pieces_in_any_order() {
    for seed in seeds(3_000_000, 150_000) {
        let mut random = Random::new(seed);
        let mut text = String::new();
        if random.one_in(2) {
            text += "<FIELD datatype='int'";
        }
        for _ in 0..random.between(1, 8) {
            text += random.pick(PIECES);
        }
        agree_on_declarations(text.as_bytes(), seed);
    }
}

#[test]
fn each_piece_dropped_doubled_or_moved() {
    for kind in EVERY_KIND {
        let datatype = format!(" datatype='{}'", datatype(kind));
        for arraysize in [" arraysize='1'", " arraysize=\"3*\"", " arraysize='0'"] {
            for null in [" null='1'", " null=' 0x7f '", " null='1 2'", " null='&#49;'"] {
                let first = ["<FIELD", &datatype, arraysize, " name='n'", ">"];
                let rest = ["\n", "<VALUES", null, " type='legal'", "/>", "</FIELD", " ", ">", "<FIELD datatype='bit'/>"];
                for text in rearranged(&[&first[..], &rest].concat()) {
                    agree_on_declarations(text.as_bytes(), 0);
                }
            }
        }
    }
}

#[test]
fn attributes_that_stand_twice() {
    let texts = [
        ("<FIELD datatype='int' datatype='int'/>", 1),
        ("<FIELD datatype='int' arraysize='2' arraysize='2'/>", 1),
        ("<FIELD datatype='int'><VALUES null='1' null='1'/></FIELD>", 1),
        ("<FIELD datatype='char'><VALUES null='1' null='x'/></FIELD>", 1),
        ("<FIELD datatype='int' arraysize='2'><VALUES null='1' null='1'/></FIELD>", 1),
        ("<FIELD name='a' null='1' name='b' datatype='int' null='2' name='a'/>", 0),
        ("<FIELD datatype='int'><VALUES datatype='a' arraysize='b' datatype='c' null='1' ref='' ref=''/></FIELD>", 0),
        ("<FIELD datatype='int'><VALUES/><VALUES/></FIELD>", 1),
        ("<FIELD datatype='int'><VALUES></VALUES></FIELD>", 1),
        ("<FIELD arraysize='2'/>", 1),
    ];
    for (text, number) in texts {
        assert_eq!(agree_on_declarations(text.as_bytes(), 0)[0], number, "{text}");
    }
}

/// Texts that use what the shape allows, and texts that come near to it, with the number and the place of the answer.
const SHAPES: &[(&str, u64, u64)] = &[
    ("<FIELD datatype=\"int\" note='\"' hint=\"'\"/>", 0, 0),
    ("<FIELD -='' .='' :='' _='' 9='' xml:lang-2.b_='en' DataType='x' datatype='int'/>", 0, 0),
    ("<FIELD a='&nonsense \0\u{ff}>&/=' datatype='int'/>", 0, 0),
    ("<FIELD datatype='int'><VALUES/></FIELD>", 0, 0),
    ("<FIELD datatype='char'><VALUES null=''/></FIELD><FIELD datatype='int' arraysize='1*'><VALUES null='x'/></FIELD>", 0, 0),
    ("<FIELD datatype='long'><VALUES null='000000000000000000001'/></FIELD>", 4, 0),
    ("<FIELD datatype='short'><VALUES null='0x00001'/></FIELD>", 4, 0),
    ("<FIELD datatype='int' arraysize='00001'/>", 3, 0),
    ("<FIELD datatype='int' arraysize='40960*'/>", 3, 0),
    ("<FIELD datatype='int' arraysize='3x4'/>", 3, 0),
    ("<FIELD><VALUES datatype='int'/></FIELD>", 1, 0),
    ("<FIELD datatype='int'></FIELD a='1'>", 1, 0),
    ("<FIELD datatype='int'>x</FIELD>", 1, 0),
    ("<FIELD datatype='int'/>x", 1, 1),
    ("<!-- --><FIELD datatype='int'/>", 1, 0),
    ("<PARAM datatype='int'/>", 1, 0),
    ("<FIELDS datatype='int'/>", 1, 0),
    ("<field datatype='int'/>", 1, 0),
    ("<FIELD a=''datatype='int'/>", 1, 0),
    ("<FIELD datatype='int'/ >", 1, 0),
    ("< FIELD datatype='int'/>", 1, 0),
    ("<FIELD datatype='int'></ FIELD>", 1, 0),
    ("<FIELD datatype=int/>", 1, 0),
    ("<FIELD datatype='int\"/>", 1, 0),
    ("<FIELD a='<' datatype='int'/>", 1, 0),
    ("<FIELD a datatype='int'/>", 1, 0),
    ("<FIELD ='1' datatype='int'/>", 1, 0),
    ("<FIELD ä='1' datatype='int'/>", 1, 0),
    ("<FIELD\x0cdatatype='int'/>", 1, 0),
    ("<FIELD datatype=' int'/>", 2, 0),
    ("<FIELD datatype=''/>", 2, 0),
    ("<FIELD datatype='integer'/>", 2, 0),
    ("<FIELD datatype='float'>", 1, 0),
    ("<FIELD datatype='float' arraysize='x'><VALUES null='x'/></FIELD>", 2, 0),
    ("<FIELD datatype='int' arraysize='x'><VALUES null='x'/></FIELD>", 3, 0),
    ("<FIELD datatype='int'><VALUES null='x'/></FIELD><FIELD", 4, 0),
    ("<FIELD datatype='int'/>\n<FIELD datatype='float'/>", 2, 1),
    ("<FIELD datatype='int'/><FIELD datatype='int'></FIELD><FIELD datatype='int' arraysize='0'/>", 3, 2),
];

#[test]
fn shapes_and_their_refusals() {
    for (text, number, place) in SHAPES {
        let answer = agree_on_declarations(text.as_bytes(), 0);
        assert_eq!((answer[0], answer[2]), (*number, *place), "{text}");
    }
}

#[test]
fn random_bytes() {
    for seed in seeds(4_000_000, 5_000) {
        let mut random = Random::new(seed);
        let size = random.below(60);
        let mut text = if random.one_in(2) { b"<FIELD ".to_vec() } else { Vec::new() };
        text.extend(random.bytes(size));
        agree_on_declarations(&text, seed);
    }
}

#[test]
fn every_arraysize_of_few_letters() {
    let agree = |value: &str| agree_on_declarations(format!("<FIELD datatype='char' arraysize='{value}'/>").as_bytes(), 0)[0];
    for number in 0..=10_000 {
        let expected = if (1..=4_096).contains(&number) { 0 } else { 3 };
        assert_eq!(agree(&number.to_string()), expected, "{number}");
        assert_eq!(agree(&format!("{number}*")), expected, "{number}*");
    }
    for word in words(b"0149*+ -ax\t", 3) {
        agree(std::str::from_utf8(&word).expect("ASCII"));
    }
}

/// Every word of up to `most` of these letters.
pub fn words(letters: &[u8], most: usize) -> Vec<Vec<u8>> {
    let mut words = vec![Vec::new()];
    let mut first = 0;
    for _ in 0..most {
        let last = words.len();
        for place in first..last {
            for letter in letters {
                let mut word = words[place].clone();
                word.push(*letter);
                words.push(word);
            }
        }
        first = last;
    }
    words
}

#[test]
fn every_null_of_few_letters() {
    for kind in EVERY_KIND {
        for arraysize in ["", "arraysize='1'", "arraysize='1*'", "arraysize='2'"] {
            for word in words(b"019+-xXf \n", 3) {
                let word = String::from_utf8(word).expect("ASCII");
                let text = format!("<FIELD datatype='{}' {arraysize}><VALUES null='{word}'/></FIELD>", datatype(kind));
                agree_on_declarations(text.as_bytes(), 0);
            }
        }
    }
}

#[test]
fn nulls_at_the_ends_of_their_kinds() {
    for kind in EVERY_KIND.into_iter().filter(|kind| kind.is_integer()) {
        let (least, greatest) = limits(kind);
        for end in [i128::from(least), i128::from(greatest)] {
            for value in end - 2..=end + 2 {
                let fits = i128::from(least) <= value && value <= i128::from(greatest);
                let text = format!("<FIELD datatype='{}'><VALUES null='{value}'/></FIELD>", datatype(kind));
                assert_eq!(agree_on_declarations(text.as_bytes(), 0)[0], if fits { 0 } else { 4 }, "{text}");
            }
        }
    }
}

#[test]
fn at_their_greatest_size() {
    let field = "<FIELD datatype='int'/>";
    for size in [65_535, 65_536, 65_537, 65_538, 131_072] {
        let fill = size - field.len();
        let name = format!("<FIELD datatype='int' name='{}'/>", "x".repeat(fill - 8));
        let texts = [field.to_string() + &" ".repeat(fill), " ".repeat(fill) + field, name];
        for text in texts {
            assert_eq!(text.len(), size);
            let expected = if size <= 65_536 { [0, 0, 0, 1, 0] } else { [6, 0, 0, 0, 0] };
            assert_eq!(agree_on_declarations(text.as_bytes(), 1), expected);
        }
        let expected = if size <= 65_536 { 1 } else { 6 };
        assert_eq!(agree_on_declarations(&vec![b'x'; size], 1)[0], expected);
        let expected = if size <= 65_536 { 5 } else { 6 };
        assert_eq!(agree_on_declarations(&vec![b' '; size], 1)[0], expected);
    }
}
