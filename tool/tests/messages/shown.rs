//! How text, bytes and numbers are shown.

use std::ffi::OsStr;
use std::os::unix::ffi::OsStrExt;

use crate::report;
use crate::shown::{counted, hexadigits, number, ordinal, plain, quoted};

#[test]
fn what_a_terminal_would_act_on_is_spelt_out() {
    assert_eq!(quoted("a\tb\r\n\x1b[2J\x7f\u{9b}".as_bytes()), "'a\\tb\\r\\n\\u{1b}[2J\\u{7f}\\u{9b}'");
    assert_eq!(quoted("\u{202e}right to left".as_bytes()), "'\\u{202e}right to left'");
    assert_eq!(quoted(b"a\\u{1b} \"'"), "'a\\\\u{1b} \"''");
    assert_eq!(quoted(b"\xE9t\xE9 \xC3\xA9t\xC3\xA9 \xC3"), "'\\xE9t\\xE9 \u{e9}t\u{e9} \\xC3'");
}

#[test]
fn long_texts_are_cut_at_forty_characters_and_never_inside_one() {
    let long = "x".repeat(100);
    assert_eq!(quoted(&long.as_bytes()[..40]), format!("'{}'", &long[..40]));
    assert_eq!(quoted(&long.as_bytes()[..41]), format!("'{}..'", &long[..40]));
    let accents = "\u{e9}".repeat(41);
    assert_eq!(quoted(accents.as_bytes()), format!("'{}..'", "\u{e9}".repeat(40)));
    // An escape of six characters does not fit behind 36.
    let escape = format!("{}\x1bx", &long[..36]);
    assert_eq!(quoted(escape.as_bytes()), format!("'{}..'", &long[..36]));
    assert_eq!(plain(escape.as_bytes()), format!("{}..", &long[..36]));
    assert_eq!(quoted(&[b"x".repeat(36), vec![0xE9, 0xE9]].concat()), format!("'{}\\xE9..'", &long[..36]));
    assert_eq!(hexadigits(&[0xAB; 13]), vec!["AB"; 13].join(" "));
    assert_eq!(hexadigits(&[0xAB; 14]), format!("{} ..", vec!["AB"; 13].join(" ")));
}

#[test]
fn file_names_are_escaped_and_whole() {
    let name = OsStr::from_bytes(b"it's \xE9\x1b[2J\n.fields");
    assert_eq!(report::shown(name), "it's \\xE9\\u{1b}[2J\\n.fields");
    let long = "night/".repeat(40);
    assert_eq!(report::shown(OsStr::new(&long)), long);
    let report = report::too_long(name, " in the base64 step");
    let line = "it's \\xE9\\u{1b}[2J\\n.fields: refusal 6 in the base64 step: the input is over 1,073,741,824 bytes (1 GiB)";
    assert_eq!(report.lines[0], line);
}

#[test]
fn numbers_are_written_as_people_write_them() {
    let numbers = [(0, "0"), (7, "7"), (999, "999"), (1000, "1,000"), (65_536, "65,536"), (1 << 30, "1,073,741,824")];
    for (value, words) in numbers {
        assert_eq!(number(value), words);
    }
    let ordinals = ["1st", "2nd", "3rd", "4th", "10th", "11th", "12th", "13th", "21st", "22nd", "23rd", "101st", "111th", "1,012th"];
    for words in ordinals {
        let digits: String = words.chars().filter(char::is_ascii_digit).collect();
        assert_eq!(ordinal(digits.parse().expect("digits")), words);
    }
    assert_eq!(counted(1, "byte", "bytes"), "1 byte");
    assert_eq!(counted(0, "byte", "bytes"), "0 bytes");
    assert_eq!(counted(4096, "byte", "bytes"), "4,096 bytes");
}
