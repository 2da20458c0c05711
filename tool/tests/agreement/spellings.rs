//! Spellings that the rules allow and those that come near, each with the rules' own answer: both implementations are held to it.

use super::rules::{accepts, refuses, says, td};
use crate::generate::columns::{column, datatype, declarations, limits, EVERY_KIND};
use crate::model::converter::Rows::{Binary, Binary2, TableData};
use crate::model::{Kind, Length};

/// A word, and what it is in an unsignedByte, a short, an int and a long: its value, `no` where it is not written as one (11), or `out`
/// where it is outside the range (18).
const WORDS: &str = "
    00 0 0 0 0
    000000000000000007 7 7 7 7
    0000000000000000007 7 7 7 7
    00000000000000000007 7 7 7 7
    000000000000000000007 no no no no
    -00000000000000000007 no -7 -7 -7
    +00000000000000000007 no 7 7 7
    -000000000000000000007 no no no no
    1234567890123456789 out out out 1234567890123456789
    18446744073709551623 out out out out
    +5 no 5 5 5
    -0 no 0 0 0
    +0 no 0 0 0
    + no no no no
    +-5 no no no no
    5- no no no no
    +255 no 255 255 255
    +32768 no out 32768 32768
    +9223372036854775808 no out out out
    255 255 255 255 255
    256 out 256 256 256
    00000000000000000256 out 256 256 256
    000000000000000000256 no no no no
    -1 no -1 -1 -1
    -5 no -5 -5 -5
    32767 out 32767 32767 32767
    32768 out out 32768 32768
    -32768 no -32768 -32768 -32768
    -32769 no out -32769 -32769
    2147483647 out out 2147483647 2147483647
    2147483648 out out out 2147483648
    -2147483648 no out -2147483648 -2147483648
    -2147483649 no out out -2147483649
    9223372036854775807 out out out 9223372036854775807
    9223372036854775808 out out out out
    -9223372036854775808 no out out -9223372036854775808
    -9223372036854775809 no out out out
    -00009223372036854775809 no no no no
    99999999999999999999 out out out out
    -99999999999999999999 no out out out
    +99999999999999999999 no out out out
    100000000000000000000 no no no no
    -100000000000000000000 no no no no
    0x no no no no
    0x100 no 256 256 256
    0x10000 no no 65536 65536
    0x100000000 no no no 4294967296
    0x10000000000000000 no no no no
    0xf 15 15 15 15
    0x80 128 128 128 128
    0xFF 255 255 255 255
    0x0ff no 255 255 255
    0x7FFF no 32767 32767 32767
    0x8000 no -32768 32768 32768
    0xffff no -1 65535 65535
    0xAbCd no -21555 43981 43981
    0x0ffff no no 65535 65535
    0x80000000 no no -2147483648 2147483648
    0x89abcdef no no -1985229329 2309737967
    0x0ffffffff no no no 4294967295
    0x8000000000000000 no no no -9223372036854775808
    0xFFFFFFFFFFFFFFFF no no no -1
    0x0123456789abcdef no no no 81985529216486895
    0xfedcba9876543210 no no no -81985529216486896
    0x00000000000000001 no no no no
    0x/ no no no no
    0x: no no no no
    0x@ no no no no
    0xG no no no no
    0x` no no no no
    0xg no no no no
    0X1F no no no no
    0x1x no no no no
    -0x1 no no no no
    0x-1 no no no no
    00x1 no no no no
    0b1 no no no no
    0o7 no no no no
    12a no no no no
    1,2 no no no no
    1.0 no no no no
    1e3 no no no no";

#[test]
fn words_as_integers() {
    for line in WORDS.trim().lines() {
        let mut parts = line.split_whitespace();
        let word = parts.next().expect("a word");
        for (kind, value) in EVERY_KIND.into_iter().filter(|kind| kind.is_integer()).zip(parts) {
            let scalar = format!("<FIELD datatype='{}'/>", datatype(kind));
            let null = format!("<FIELD datatype='{}'><VALUES null=' {word}'/></FIELD>", datatype(kind));
            let number = match value {
                "no" => 11,
                "out" => 18,
                _ => {
                    accepts(&scalar, TableData, TableData, &td(word), &td(value));
                    accepts(&null, TableData, TableData, &td(word), b"<TR><TD/></TR>\n");
                    continue;
                }
            };
            refuses(&scalar, TableData, TableData, &td(word), number);
            refuses(&null, TableData, TableData, &td(word), 4);
        }
    }
}

/// Both sides of every power of ten and of two, in each kind that has them: the shortest decimal and the big-endian bytes.
#[test]
fn integers_as_decimals_and_as_bytes() {
    let powers = (0..=18).map(|digits| 10i128.pow(digits)).chain((0..=63).map(|bits| 1i128 << bits));
    for value in powers.flat_map(|power| [power - 1, power, -power, 1 - power]) {
        for kind in EVERY_KIND.into_iter().filter(|kind| kind.is_integer()) {
            let (least, greatest) = limits(kind);
            let Some(value) = i64::try_from(value).ok().filter(|value| (least..=greatest).contains(value)) else { continue };
            let field = format!("<FIELD datatype='{}'/>", datatype(kind));
            let bytes = &value.to_be_bytes()[8 - kind.width()..];
            accepts(&field, Binary, TableData, bytes, &td(&value.to_string()));
            accepts(&field, TableData, Binary, &td(&value.to_string()), bytes);
        }
    }
}

#[test]
fn true_and_false_in_any_capitals() {
    for (word, letter) in [("true", "T"), ("false", "F")] {
        for capitals in 0..1 << word.len() {
            let spelled = word.char_indices().map(|(at, c)| if capitals >> at & 1 == 1 { c.to_ascii_uppercase() } else { c });
            accepts("<FIELD datatype='boolean'/>", TableData, TableData, &td(&spelled.collect::<String>()), &td(letter));
        }
    }
    accepts("<FIELD datatype='boolean' arraysize='*'/>", TableData, TableData, &td("T t 1 F f 0 ?"), &td("T T T F F F ?"));
    for word in ["TT", "yes", "tr", "tru", "truee", "truefalse", "false0", "T,F", "Y", "2", "??", "-1", "01"] {
        refuses("<FIELD datatype='boolean'/>", TableData, TableData, &td(word), 11);
        refuses("<FIELD datatype='boolean' arraysize='*'/>", TableData, TableData, &td(&format!("T {word}")), 11);
    }
}

/// Every byte in every place of a row where white space may stand, but those that make another tag.
#[test]
fn white_space_is_four_bytes() {
    let (field, row) = ("<FIELD datatype='char'/><FIELD datatype='bit'/>", b"<TR><TD>a</TD><TD/></TR>\n");
    let pieces = ["", "<TR", ">", "<TD", ">a</TD", ">", "<TD", "/>", "</TR", ">"];
    let columns = [0, 0, 0, 0, 0, 1, 1, 2, 2];
    for place in 1..=pieces.len() {
        for byte in (0..=255u8).filter(|byte| !b"/>".contains(byte)) {
            let input = [pieces[..place].concat().as_bytes(), &[byte], pieces[place..].concat().as_bytes()].concat();
            if b"\t\n\r ".contains(&byte) {
                accepts(field, TableData, TableData, &input, row);
            } else if let Some(column) = columns.get(place - 1) {
                says(field, TableData, TableData, &input, [10, 0, *column, 0, 0], b"");
            } else {
                says(field, TableData, TableData, &input, [10, 1, 0, 1, row.len() as u64], row);
            }
        }
    }
}

/// A column, and cells of it with what each is written as, or the number of its refusal.
const CELLS: &[(&str, &[(&str, &str)])] = &[
    (
        "<FIELD datatype='char' arraysize='*'/>",
        &[
            ("<TD></TD>", "<TD/>"),
            ("<TD / >x</TD>", "10"),
            ("<td>a</td>", "10"),
            ("< TD>a</TD>", "10"),
            ("<TD>a</ TD>", "10"),
            ("<TD a=''>a</TD>", "10"),
            ("<TD>a<b</TD>", "10"),
            ("<TD>a</TDx>", "10"),
            ("<TD>a</TR>", "10"),
            ("<TD>a", "10"),
            ("x<TD>a</TD>", "10"),
            ("<TD>a<!-- --></TD>", "10"),
            ("<TD>a]]>b</TD>", "<TD>a]]&gt;b</TD>"),
            ("<TD>&amp;&lt;&gt;&quot;&apos;</TD>", "<TD>&amp;&lt;&gt;\"'</TD>"),
            ("<TD>&#65;&#x41;&#x4a;&#x4A;</TD>", "<TD>AAJJ</TD>"),
            ("<TD>&#9;&#10;&#13;\r</TD>", "<TD>\t\n&#xD;\n</TD>"),
            ("<TD>a\r\nb\rc\nd</TD>", "<TD>a\nb\nc\nd</TD>"),
            ("<TD>&#127;</TD>", "<TD>\x7f</TD>"),
            ("<TD>&#;</TD>", "10"),
            ("<TD>&#x;</TD>", "10"),
            ("<TD>&#X41;</TD>", "10"),
            ("<TD>&#4a;</TD>", "10"),
            ("<TD>&#+65;</TD>", "10"),
            ("<TD>&;</TD>", "10"),
            ("<TD>& amp;</TD>", "10"),
            ("<TD>&AMP;</TD>", "10"),
            ("<TD>&amp</TD>", "10"),
            ("<TD>&ampamp;</TD>", "10"),
            ("<TD>&nbsp;</TD>", "10"),
            ("<TD>&a<mp;</TD>", "10"),
            ("<TD>&#0;</TD>", "11"),
            ("<TD>&#11;</TD>", "11"),
            ("<TD>&#128;</TD>", "11"),
            ("<TD>&#99999999;</TD>", "11"),
            ("<TD>&#xFFFFFFFF;</TD>", "11"),
        ],
    ),
    (
        "<FIELD datatype='char' arraysize='3'/>",
        &[
            ("<TD>  a</TD>", "<TD>  a</TD>"),
            ("<TD>   </TD>", "<TD>   </TD>"),
            ("<TD>a\r\nb</TD>", "<TD>a\nb</TD>"),
            ("<TD>abcd</TD>", "12"),
            ("<TD>abcd\x01</TD>", "11"),
            ("<TD>abcd\x01", "10"),
        ],
    ),
    (
        "<FIELD datatype='bit' arraysize='4'/>",
        &[
            ("<TD> 01&#49;0\n</TD>", "<TD>0110</TD>"),
            ("<TD> </TD>", "<TD/>"),
            ("<TD>01 10</TD>", "11"),
            ("<TD>0120</TD>", "11"),
            ("<TD>0x10</TD>", "11"),
            ("<TD>011</TD>", "12"),
            ("<TD>01100</TD>", "12"),
        ],
    ),
    (
        "<FIELD datatype='int' arraysize='3'><VALUES null='-99'/></FIELD>",
        &[
            ("<TD>1 -99 3</TD>", "<TD>1 -99 3</TD>"),
            ("<TD>1\r2&#32;3&#x9;</TD>", "<TD>1 2 3</TD>"),
            ("<TD>1 2</TD>", "12"),
            ("<TD>1 2 3 4</TD>", "12"),
            ("<TD>1 2 3 4 x</TD>", "11"),
            ("<TD>1 2 3 4 x &;</TD>", "10"),
            ("<TD>1 2 3 4 2147483648</TD>", "18"),
            ("<TD>2147483648</TD>", "18"),
            ("<TD>2147483648 x</TD>", "18"),
            ("<TD>x 2147483648</TD>", "11"),
            ("<TD>2147483648 \x01 3</TD>", "18"),
            ("<TD>\x01 2147483648 3</TD>", "11"),
            ("<TD>2147483648\x01 2 3</TD>", "11"),
            ("<TD>2147483648 2 &;</TD>", "10"),
            ("<TD>1\x0c2\x0c3</TD>", "11"),
        ],
    ),
    (
        "<FIELD datatype='short'><VALUES null='-99'/></FIELD>",
        &[
            ("<TD>-99</TD>", "<TD/>"),
            ("<TD>0xff9d</TD>", "<TD/>"),
            ("<TD>99</TD>", "<TD>99</TD>"),
            ("<TD>7 8</TD>", "12"),
            ("<TD>99999</TD>", "18"),
            ("<TD>-99 99999</TD>", "18"),
        ],
    ),
];

#[test]
fn cells_and_what_they_are_written_as() {
    for (field, cells) in CELLS {
        for (cell, written) in *cells {
            let row = |cell: &str| format!("<TR>{cell}</TR>\n").into_bytes();
            match written.parse() {
                Ok(number) => refuses(field, TableData, TableData, &row(cell), number),
                Err(_) => accepts(field, TableData, TableData, &row(cell), &row(written)),
            }
        }
    }
}

#[test]
fn references_of_one_to_nine_digits() {
    for digits in 1..=9 {
        for reference in [format!("&#{:0digits$};", 9), format!("&#x{:0digits$x};", 10)] {
            let shown = if reference.contains('x') { "\n" } else { "\t" };
            if digits <= 8 {
                accepts("<FIELD datatype='char'/>", TableData, TableData, &td(&reference), &td(shown));
            } else {
                refuses("<FIELD datatype='char'/>", TableData, TableData, &td(&reference), 10);
            }
        }
    }
}

/// Null in BINARY: the attributes of a column, the bytes of a null cell in BINARY2, and those in BINARY, or 15.
#[test]
fn null_in_every_kind_and_length() {
    let none = &[][..];
    let cells = [
        ("boolean", "1", "", 1, &b"?"[..]),
        ("boolean", "3", "", 3, none),
        ("boolean", "1*", "", 4, &[0; 4]),
        ("bit", "1", "", 1, none),
        ("bit", "9", "", 2, none),
        ("bit", "*", "", 4, &[0; 4]),
        ("unsignedByte", "1", "99", 1, &[99]),
        ("unsignedByte", "2", "99", 2, none),
        ("short", "1", "-99", 2, &[0xff, 0x9d]),
        ("short", "2*", "-99", 4, &[0; 4]),
        ("int", "1", "", 4, none),
        ("int", "1", "-99", 4, &[0xff, 0xff, 0xff, 0x9d]),
        ("long", "1", "-99", 8, &[0xff, 0xff, 0xff, 0xff, 0xff, 0xff, 0xff, 0x9d]),
        ("long", "2", "-99", 16, none),
        ("char", "1", "", 1, &[0]),
        ("char", "4", "", 4, &[0; 4]),
        ("char", "4*", "", 4, &[0; 4]),
    ];
    for (datatype, arraysize, null, size, binary) in cells {
        let values = if null.is_empty() { String::new() } else { format!("<VALUES null='{null}'/>") };
        let field = format!("<FIELD datatype='{datatype}' arraysize='{arraysize}'>{values}</FIELD>");
        let flagged = [&[0x80][..], &vec![0; size]].concat();
        accepts(&field, TableData, Binary2, b"<TR><TD/></TR>", &flagged);
        accepts(&field, Binary2, Binary2, &flagged, &flagged);
        accepts(&field, Binary2, TableData, &flagged, b"<TR><TD/></TR>\n");
        refuses(&field, Binary2, TableData, &flagged[..size], 8);
        if binary.is_empty() {
            refuses(&field, Binary2, Binary, &flagged, 15);
        } else {
            accepts(&field, Binary2, Binary, &flagged, binary);
            accepts(&field, Binary, Binary2, binary, &flagged);
        }
    }
}

/// Empty, not null, is told from null in BINARY2 alone.
#[test]
fn empty_in_every_kind() {
    for kind in EVERY_KIND {
        let field = String::from_utf8(declarations(&[column(kind, Length::Bounded(2))])).expect("text");
        accepts(&field, Binary2, Binary2, &[0; 5], &[0; 5]);
        refuses(&field, Binary2, Binary, &[0; 5], 14);
        refuses(&field, Binary2, TableData, &[0; 5], 14);
    }
    for field in [column(Kind::Char, Length::Fixed(1)), column(Kind::Char, Length::Fixed(3)), column(Kind::Char, Length::Bounded(4))] {
        let text = String::from_utf8(declarations(&[field])).expect("text");
        let cell: &[u8] = match field.length {
            Length::Fixed(1) => b"\0",
            Length::Fixed(_) => b"\0ab",
            _ => b"\0\0\0\x02\0\xff",
        };
        let written: &[u8] = if let Length::Fixed(size) = field.length { &[0; 4][..=size] } else { &[0; 5] };
        let input = [&[0], cell].concat();
        accepts(&text, Binary2, Binary2, &input, written);
        refuses(&text, Binary2, Binary, &input, 14);
        accepts(&text, Binary, TableData, cell, b"<TR><TD/></TR>\n");
    }
}
