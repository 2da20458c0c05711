//! What the rules themselves say of single inputs, byte by byte: both implementations are held to it.

use super::compare::{agree_on_decoding, agree_on_encoding, Case};
use crate::model::converter::{Rows, EVERY_KIND_OF_ROWS};
use crate::model::Answer;
use Rows::{Binary, Binary2, TableData};

/// Holds both implementations to this answer and, where it is acceptance, to these bytes.
pub fn says(field: &str, from: Rows, to: Rows, input: &[u8], answer: Answer, output: &[u8]) {
    let case = Case { declarations: field.as_bytes(), from, to, input, seed: 0 };
    let written = case.with_room_enough();
    let told = format!("{field} from {from:?} to {to:?}: {}", input.escape_ascii());
    assert_eq!(written.answer, answer, "{told}");
    assert_eq!(written.bytes, output, "{told}");
    case.agree(written.bytes.len() + 5);
}

pub fn accepts(field: &str, from: Rows, to: Rows, input: &[u8], output: &[u8]) {
    says(field, from, to, input, [0, 0, 0, 1, output.len() as u64], output);
}

pub fn refuses(field: &str, from: Rows, to: Rows, input: &[u8], number: u64) {
    says(field, from, to, input, [number, 0, 0, 0, 0], b"");
}

pub fn td(text: &str) -> Vec<u8> {
    format!("<TR><TD>{text}</TD></TR>\n").into_bytes()
}

#[test]
fn sample_night_in_all_nine_ways() {
    let fields = r#"<FIELD datatype="short"><VALUES null="-99"/></FIELD>
        <FIELD datatype="char" arraysize="4"/><FIELD datatype="boolean"/>"#;
    let night = |rows| match rows {
        TableData => "<TR><TD>7</TD><TD>a&amp;b</TD><TD>T</TD></TR>\n<TR><TD/><TD>dusk</TD><TD/></TR>\n".as_bytes(),
        Binary => b"\x00\x07\x61\x26\x62\x00\x54\xff\x9d\x64\x75\x73\x6b\x3f",
        Binary2 => b"\x00\x00\x07\x61\x26\x62\x00\x54\xa0\x00\x00\x64\x75\x73\x6b\x00",
    };
    for from in EVERY_KIND_OF_ROWS {
        for to in EVERY_KIND_OF_ROWS {
            let output = night(to);
            says(fields, from, to, night(from), [0, 0, 0, 2, output.len() as u64], output);
        }
    }
}

#[test]
fn integers_at_their_edges() {
    let (short, int, long) = (r#"<FIELD datatype="short"/>"#, r#"<FIELD datatype="int"/>"#, r#"<FIELD datatype="long"/>"#);
    let byte = r#"<FIELD datatype="unsignedByte"/>"#;
    accepts(short, TableData, Binary, &td("0xffff"), b"\xff\xff");
    accepts(short, TableData, TableData, &td("0xffff"), &td("-1"));
    accepts(short, TableData, TableData, &td("0xff"), &td("255"));
    refuses(short, TableData, Binary, &td("32768"), 18);
    accepts(short, TableData, Binary, &td("-32768"), b"\x80\x00");
    accepts(long, TableData, Binary, &td("-9223372036854775808"), b"\x80\0\0\0\0\0\0\0");
    accepts(long, Binary, TableData, b"\x80\0\0\0\0\0\0\0", &td("-9223372036854775808"));
    refuses(byte, TableData, Binary, &td("256"), 18);
    accepts(byte, TableData, Binary, &td("0xff"), b"\xff");
    accepts(int, TableData, Binary, &td("+5"), b"\0\0\0\x05");
    refuses(byte, TableData, Binary, &td("+5"), 11);
    refuses(byte, TableData, Binary, &td("-0"), 11);
    refuses(int, TableData, Binary, &td("0X1F"), 11);
}

#[test]
fn bits_counts_and_lengths() {
    let nine = r#"<FIELD datatype="bit" arraysize="9"/>"#;
    accepts(nine, Binary, TableData, b"\xff\x80", &td("111111111"));
    refuses(nine, Binary, TableData, b"\xff\x81", 13);
    let four = r#"<FIELD datatype="int" arraysize="4*"/>"#;
    let counted = |count: u8, elements: usize| [&[0, 0, 0, count][..], &vec![0; 4 * elements]].concat();
    accepts(four, Binary, TableData, &counted(4, 4), &td("0 0 0 0"));
    refuses(four, Binary, TableData, &counted(5, 5), 9);
    refuses(four, Binary, TableData, &counted(4, 3), 8);
    refuses(four, TableData, Binary, &td("1 2 3 4 5"), 12);
    refuses(r#"<FIELD datatype="int" arraysize="4"/>"#, TableData, Binary, &td("1 2 3"), 12);
    accepts(r#"<FIELD datatype="char" arraysize="4"/>"#, TableData, Binary, &td(" a"), b" a\0\0");
    refuses(r#"<FIELD datatype="char" arraysize="4"/>"#, TableData, Binary, &td("abcde"), 12);
}

#[test]
fn null_and_empty() {
    let int = r#"<FIELD datatype="int"/>"#;
    let text = r#"<FIELD datatype="char" arraysize="*"/>"#;
    accepts(int, TableData, Binary2, b"<TR><TD/></TR>", b"\x80\0\0\0\0");
    refuses(int, TableData, Binary, b"<TR><TD/></TR>", 15);
    accepts(int, Binary2, TableData, b"\x80\x12\x34\x56\x78", b"<TR><TD/></TR>\n");
    refuses(text, Binary2, TableData, b"\0\0\0\0\0", 14);
    refuses(text, Binary2, Binary, b"\0\0\0\0\0", 14);
    accepts(text, Binary2, Binary2, b"\0\0\0\0\x02\0\xff", b"\0\0\0\0\0");
    accepts(text, Binary, TableData, b"\0\0\0\0", b"<TR><TD/></TR>\n");
    refuses(text, Binary, TableData, b"\0\0\0\x01\x01", 16);
    refuses(int, Binary2, TableData, b"\x40\0\0\0\0", 13);
    refuses(r#"<FIELD datatype="bit"/>"#, Binary2, Binary, b"\x80\0", 15);
}

#[test]
fn declarations_are_refused_at_their_place() {
    let refused = |fields: &str, number, place| says(fields, Binary, Binary, b"x", [number, 0, place, 0, 0], b"");
    let int = r#"<FIELD datatype="int"/>"#;
    refused(&format!("{int}<FIELD/>"), 1, 1);
    refused(r#"<FIELD datatype="float"/>"#, 2, 0);
    refused(&format!(r#"{int}{int}<FIELD datatype="int" arraysize="4097"/>"#), 3, 2);
    refused(r#"<FIELD datatype="short"><VALUES null="32768"/></FIELD>"#, 4, 0);
    refused(" \n", 5, 0);
    refused(&int.repeat(65), 5, 64);
    refused(&format!("{}{}", int.repeat(64), r#"<FIELD datatype="Int"/>"#), 2, 64);
}

#[test]
fn base64_vectors() {
    let vectors =
        [("", ""), ("f", "Zg=="), ("fo", "Zm8="), ("foo", "Zm9v"), ("foob", "Zm9vYg=="), ("fooba", "Zm9vYmE="), ("foobar", "Zm9vYmFy")];
    for (plain, letters) in vectors {
        let (plain, letters) = (plain.as_bytes(), letters.as_bytes());
        assert_eq!(crate::model::base64::decode(letters, 6).bytes, plain);
        assert_eq!(crate::model::base64::encode(plain, 8).bytes, letters);
        assert_eq!(agree_on_decoding(letters, 6, 0), [0, 0, 0, 0, plain.len() as u64]);
        assert_eq!(agree_on_encoding(plain, 8, 0), [0, 0, 0, 0, letters.len() as u64]);
    }
    for broken in ["Zh==", "=", "====", "A===", "Zg==Zg==", "Zg=", "Z", "Zm9v!", "Zm9vYmF="] {
        assert_eq!(agree_on_decoding(broken.as_bytes(), 6, 0), [7, 0, 0, 0, 0], "{broken}");
    }
    assert_eq!(agree_on_decoding(b" Z g\t=\n=\r", 6, 0), [0, 0, 0, 0, 1]);
}
