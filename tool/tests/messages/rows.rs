//! What is said of refused rows.

use std::ffi::OsStr;

use sailmortar::{columns, meaning, Rows};

use super::said::{of_rows, refused, Way, STANDS};
use crate::generate::Random;
use crate::report::{self, Stream, Value};
use crate::shown::ordinal;
use crate::window::Window;

const FIELDS: &str = concat!(
    "<FIELD name='sky' datatype='short'><VALUES null='-99'/></FIELD>\n",
    "<FIELD name='note' datatype='char' arraysize='4'/>\n",
    "<FIELD datatype='boolean'/>\n"
);
const ARRAYS: &str = concat!(
    "<FIELD name='counts' datatype='int' arraysize='3*'/>",
    "<FIELD name='pair' datatype='short' arraysize='2'/>",
    "<FIELD name='remark' datatype='char' arraysize='*'/>",
    "<FIELD name='open' datatype='bit' arraysize='9'/>",
    "<FIELD name='clear' datatype='boolean' arraysize='3'/>"
);
/// A row, and another that is cut in its second cell.
const TWO: &[u8] = b"\x00\x00\x07a&b\x00T\xA0\x00\x00du";
const TEXT: Way = Way { from: Rows::TableData, to: Rows::Binary };
const BINARY: Way = Way { from: Rows::Binary, to: Rows::TableData };
const BINARY2: Way = Way { from: Rows::Binary2, to: Rows::TableData };

/// Each input with what its message says between the number and the meaning.
fn say(fields: &str, way: Way, number: u64, cases: &[(&[u8], &str)]) {
    for (input, words) in cases {
        let report = of_rows(fields, way, input);
        let line = format!("night: refusal {number} {words}: {}", meaning(number).expect("a meaning"));
        assert_eq!(report.lines[0], line);
        assert_eq!(report.lines[1], STANDS);
    }
}

#[test]
fn a_cut_stream_says_how_much_is_left() {
    let row = b"\x00\x00\x07a&b\x00T";
    let cut = |bytes: &[u8]| [row, bytes].concat();
    say(
        FIELDS,
        BINARY2,
        8,
        &[
            (&cut(b"\xA0\x00\x00du"), "at row 1, column 1 (note): char 4, 2 of its 4 bytes are left (64 75)"),
            (&cut(b"\xA0\x00\x00d"), "at row 1, column 1 (note): char 4, 1 of its 4 bytes is left (64)"),
            (&cut(b"\xA0\x00\x00"), "at row 1, column 1 (note): char 4, nothing is left of its 4 bytes"),
            (&cut(b"\xA0\x00"), "at row 1, column 0 (sky): short, 1 of its 2 bytes is left (00)"),
            (&cut(b"\xA0"), "at row 1, column 0 (sky): short, nothing is left of its 2 bytes"),
            (&cut(b"\xA0\x00\x00dusk"), "at row 1, column 2: boolean, nothing is left of its 1 byte"),
        ],
    );
    say(
        ARRAYS,
        BINARY2,
        8,
        &[
            (b"\x00\x00\x00\x01", "at row 0, column 0 (counts): int 3*, 3 of the 4 bytes of its count are left (00 00 01)"),
            (b"\x00\x00\x00\x00\x01", "at row 0, column 0 (counts): int 3*, nothing is left of the 4 bytes of its 1 element"),
            (
                b"\x00\x00\x00\x00\x03\x01\x02\x03\x04\x05\x06\x07\x08\x09\x0A\x0B",
                "at row 0, column 0 (counts): int 3*, 11 of the 12 bytes of its 3 elements are left (01 02 03 04 05 06 07 08 09 0A 0B)",
            ),
            (
                b"\x00\x00\x00\x00\x00\x00\x01\x00\x02\x00\x00\x00\x11abcdefghijklmnop",
                "at row 0, column 2 (remark): char *, 16 of the 17 bytes of its 17 characters are left \
                 (61 62 63 64 65 66 67 68 69 6A 6B 6C 6D ..)",
            ),
        ],
    );
}

#[test]
fn flags_are_not_put_down_to_a_column() {
    say(
        FIELDS,
        BINARY2,
        13,
        &[(b"\xFF", "at row 0, column 0 (the flags of the row): 3 columns, byte FF, the 5 lowest bits of FF should be 0")],
    );
    let nine = "<FIELD name='sky' datatype='short'/>".repeat(9);
    let row = [0; 20];
    let cut = |bytes: &[u8]| [&row, bytes].concat();
    say(
        &nine,
        BINARY2,
        8,
        &[(&cut(b"\x80"), "at row 1, column 0 (the flags of the row): 9 columns, 1 of the 2 bytes of flags is left (80)")],
    );
    say(
        &nine,
        BINARY2,
        13,
        &[(&cut(b"\x80\x81"), "at row 1, column 0 (the flags of the row): 9 columns, bytes 80 81, the 7 lowest bits of 81 should be 0")],
    );
    let fifteen = "<FIELD datatype='short'/>".repeat(15);
    say(
        &fifteen,
        BINARY2,
        13,
        &[(b"\x00\x01", "at row 0, column 0 (the flags of the row): 15 columns, bytes 00 01, the lowest bit of 01 should be 0")],
    );
    let report = of_rows(FIELDS, BINARY2, b"\xFF");
    assert_eq!((report.number_of("column"), report.text_of("place"), report.text_of("name")), (Some(0), Some("flags"), None));
}

#[test]
fn a_count_over_the_bound_is_said_with_the_bound() {
    say(
        ARRAYS,
        BINARY,
        9,
        &[
            (b"\x00\x00\x00\x04", "at row 0, column 0 (counts): int 3*, its count is 4 (00 00 00 04), its bound 3"),
            (
                b"\x00\x00\x00\x00\x00\x01\x00\x02\xFF\xFF\xFF\xFF",
                "at row 0, column 2 (remark): char *, its count is 4,294,967,295 (FF FF FF FF), its bound 4,096",
            ),
        ],
    );
}

#[test]
fn a_text_that_is_no_value_is_shown() {
    say(
        FIELDS,
        TEXT,
        11,
        &[
            (b"<TR><TD>seven</TD><TD/><TD/></TR>", "at row 0, column 0 (sky): short 'seven'"),
            (b"<TR><TD> 7.5 </TD><TD/><TD/></TR>", "at row 0, column 0 (sky): short ' 7.5 ', its 1st element is '7.5'"),
            (b"<TR><TD>&#49;x</TD><TD/><TD/></TR>", "at row 0, column 0 (sky): short '&#49;x'"),
            (b"<TR><TD>1\x1b[2J</TD><TD/><TD/></TR>", "at row 0, column 0 (sky): short '1\\u{1b}[2J'"),
            (b"<TR><TD/><TD>a\xC3\xB3</TD><TD/></TR>", "at row 0, column 1 (note): char 4 'a\u{f3}', its 2nd character is '\u{f3}'"),
            (b"<TR><TD/><TD>1&lt;\xB0C</TD><TD/></TR>", "at row 0, column 1 (note): char 4 '1&lt;\\xB0C', its 3rd character is '\\xB0'"),
            (b"<TR><TD/><TD>a&#0;</TD><TD/></TR>", "at row 0, column 1 (note): char 4 'a&#0;', its 2nd character is '&#0;'"),
            (b"<TR><TD/><TD/><TD>maybe</TD></TR>", "at row 0, column 2: boolean 'maybe'"),
        ],
    );
    say(
        ARRAYS,
        TEXT,
        11,
        &[
            (b"<TR><TD>1 2 x 4 y</TD>", "at row 0, column 0 (counts): int 3* '1 2 x 4 y', its 3rd element is 'x'"),
            (b"<TR><TD>1 x 2147483648</TD>", "at row 0, column 0 (counts): int 3* '1 x 2147483648', its 2nd element is 'x'"),
            (b"<TR><TD/><TD>1 2</TD><TD/><TD>1012</TD></TR>", "at row 0, column 3 (open): bit 9 '1012', its 4th bit is '2'"),
            (
                b"<TR><TD>1 2 3 4 5 6 7 8 9 10 11 12 13 14 15 16 17 18 x</TD>",
                "at row 0, column 0 (counts): int 3* '1 2 3 4 5 6 7 8 9 10 11 12 13 14 15 16 1..', its 19th element is 'x'",
            ),
        ],
    );
}

#[test]
fn an_integer_outside_its_range_is_said_with_the_range() {
    let cases: [(&[u8], &str); 4] = [
        (b"<TR><TD>32768</TD><TD/><TD/></TR>", "'32768'"),
        (b"<TR><TD> -32769\n</TD><TD/><TD/></TR>", "' -32769\\n', its 1st element is '-32769'"),
        (b"<TR><TD>&#57;9999</TD><TD/><TD/></TR>", "'&#57;9999'"),
        (b"<TR><TD>7 99999</TD><TD/><TD/></TR>", "'7 99999', its 2nd element is '99999'"),
    ];
    for (input, shown) in cases {
        let words = format!("at row 0, column 0 (sky): short {shown} where a short goes from -32768 to 32767");
        say(FIELDS, TEXT, 18, &[(input, &words)]);
    }
    say(
        ARRAYS,
        TEXT,
        18,
        &[(
            b"<TR><TD>1 2147483648 x</TD>",
            "at row 0, column 0 (counts): int 3* '1 2147483648 x', its 2nd element is '2147483648' \
             where an int goes from -2147483648 to 2147483647",
        )],
    );
    let ends = [
        ("unsignedByte", "256", "an unsignedByte goes from 0 to 255"),
        ("long", "-9223372036854775809", "a long goes from -9223372036854775808 to 9223372036854775807"),
    ];
    for (datatype, over, goes) in ends {
        let (fields, input) = (format!("<FIELD datatype='{datatype}'/>"), format!("<TR><TD>{over}</TD></TR>"));
        say(&fields, TEXT, 18, &[(input.as_bytes(), &format!("at row 0, column 0: {datatype} '{over}' where {goes}"))]);
    }
}

/// Whatever else is bad in a cell, the element that is named is the first bad one, which decided the number.
#[test]
fn the_element_that_decided_is_the_one_that_is_named() {
    let words = [("7", 0), ("+8", 0), ("x", 11), ("\u{b0}", 11), ("99999", 18), ("-40000", 18)];
    let mut met = [0; 19];
    for seed in 0..2_000 {
        let mut random = Random::new(83_000_000 + seed);
        let cell: Vec<(&str, usize)> = (0..random.between(2, 5)).map(|_| random.pick(&words)).collect();
        let Some(place) = cell.iter().position(|(_, number)| *number != 0) else { continue };
        let text = cell.iter().map(|(word, _)| *word).collect::<Vec<_>>().join(" ");
        let report = of_rows("<FIELD datatype='short' arraysize='*'/>", TEXT, format!("<TR><TD>{text}</TD></TR>").as_bytes());
        let (word, number) = cell[place];
        let named = format!("short * '{text}', its {} element is '{word}'", ordinal(place as u64 + 1));
        assert!(report.lines[0].contains(&named), "{named} in {}", report.lines[0]);
        assert_eq!(report.number_of("number"), Some(number as u64), "{text}");
        met[number] += 1;
    }
    assert!(met[11] > 200 && met[18] > 200, "{met:?}");
}

#[test]
fn bytes_that_are_no_value_are_shown() {
    say(
        FIELDS,
        BINARY,
        11,
        &[
            (b"\x00\x07abcdY", "at row 0, column 2: boolean, byte 59"),
            (b"\x00\x07a\xB0\x00\xFFT", "at row 0, column 1 (note): char 4, bytes 61 B0 00 FF, its 2nd character is B0"),
        ],
    );
    let arrays = b"\x00\x00\x00\x00\x00\x01\x00\x02\x00\x00\x00\x00\xFF\x80";
    let clear = [&arrays[..], b"TX?"].concat();
    say(ARRAYS, BINARY, 11, &[(&clear, "at row 0, column 4 (clear): boolean 3, bytes 54 58 3F, its 2nd element is 58")]);
}

#[test]
fn a_wrong_number_of_elements_is_said_with_what_the_column_takes() {
    say(
        FIELDS,
        TEXT,
        12,
        &[
            (b"<TR><TD>1 2</TD>", "at row 0, column 0 (sky): short '1 2', 2 elements where the column takes 1"),
            (b"<TR><TD>1&#32;2</TD>", "at row 0, column 0 (sky): short '1&#32;2', 2 elements where the column takes 1"),
            (b"<TR><TD/><TD>dawns</TD>", "at row 0, column 1 (note): char 4 'dawns', 5 characters where the column takes at most 4"),
            (
                b"<TR><TD/><TD>&lt;&gt;abc</TD>",
                "at row 0, column 1 (note): char 4 '&lt;&gt;abc', 5 characters where the column takes at most 4",
            ),
        ],
    );
    let long = [b"<TR><TD/><TD>1 2</TD><TD>", &b"x".repeat(4097)[..], b"</TD>"].concat();
    let shown = "x".repeat(40);
    say(
        ARRAYS,
        TEXT,
        12,
        &[
            (b"<TR><TD>1 2 3 4</TD>", "at row 0, column 0 (counts): int 3* '1 2 3 4', 4 elements where the column takes at most 3"),
            (b"<TR><TD/><TD>1</TD>", "at row 0, column 1 (pair): short 2 '1', 1 element where the column takes 2"),
            (b"<TR><TD/><TD/><TD/><TD>10</TD>", "at row 0, column 3 (open): bit 9 '10', 2 bits where the column takes 9"),
            (
                &long,
                &format!(
                    "at row 0, column 2 (remark): char * '{shown}..', more than 4,096 characters where the column takes at most 4,096"
                ),
            ),
        ],
    );
}

/// A text that is shown with its \r\n, of which each is one character: else a reader who counts finds another number.
#[test]
fn a_line_end_is_counted_as_one_character_and_that_is_said() {
    say(
        FIELDS,
        TEXT,
        12,
        &[
            (
                b"<TR><TD/><TD>ab\r\ncd</TD>",
                "at row 0, column 1 (note): char 4 'ab\\r\\ncd', 5 characters where the column takes at most 4 \
                 (a line end \\r\\n counts as one)",
            ),
            (b"<TR><TD/><TD>ab\rcd</TD>", "at row 0, column 1 (note): char 4 'ab\\rcd', 5 characters where the column takes at most 4"),
            (
                b"<TR><TD/><TD>ab&#13;\nc</TD>",
                "at row 0, column 1 (note): char 4 'ab&#13;\\nc', 5 characters where the column takes at most 4",
            ),
            (b"<TR><TD>1\r\n2</TD>", "at row 0, column 0 (sky): short '1\\r\\n2', 2 elements where the column takes 1"),
        ],
    );
    say(
        FIELDS,
        TEXT,
        11,
        &[
            (
                b"<TR><TD/><TD>\r\n\r\r\n\xB0</TD>",
                "at row 0, column 1 (note): char 4 '\\r\\n\\r\\r\\n\\xB0', its 4th character is '\\xB0' (a line end \\r\\n counts as one)",
            ),
            (b"<TR><TD/><TD>a\xB0\r\n</TD>", "at row 0, column 1 (note): char 4 'a\\xB0\\r\\n', its 2nd character is '\\xB0'"),
            (b"<TR><TD/><TD>a\r\xB0</TD>", "at row 0, column 1 (note): char 4 'a\\r\\xB0', its 3rd character is '\\xB0'"),
            (b"<TR><TD>1\r\nx</TD>", "at row 0, column 0 (sky): short '1\\r\\nx', its 2nd element is 'x'"),
        ],
    );
    let long = [b"<TR><TD/><TD>1 2</TD><TD>", &b"\r\n".repeat(4097)[..], b"</TD>"].concat();
    let words = format!(
        "at row 0, column 2 (remark): char * '{}..', more than 4,096 characters where the column takes at most 4,096 \
         (a line end \\r\\n counts as one)",
        "\\r\\n".repeat(10)
    );
    say(ARRAYS, TEXT, 12, &[(&long, &words)]);
    let reference = b"<TR><TD/><TD>a&#1\r\n3;</TD>";
    say(FIELDS, TEXT, 10, &[(reference, "at row 0, column 1 (note): char 4, '&#1\\r\\n3;' where a reference should stand")]);
}

#[test]
fn a_padding_bit_is_said_with_its_byte() {
    let arrays = b"\x00\x00\x00\x00\x00\x01\x00\x02\x00\x00\x00\x00\xFF\x81";
    say(ARRAYS, BINARY, 13, &[(arrays, "at row 0, column 3 (open): bit 9, bytes FF 81, the 7 lowest bits of 81 should be 0")]);
    let seven = "<FIELD datatype='bit' arraysize='7'/>";
    say(seven, BINARY, 13, &[(b"\x03", "at row 0, column 0: bit 7, byte 03, the lowest bit of 03 should be 0")]);
    // The first cell of BINARY2 is told from the flags before it.
    say(seven, BINARY2, 13, &[(b"\x00\x03", "at row 0, column 0: bit 7, byte 03, the lowest bit of 03 should be 0")]);
}

#[test]
fn a_cell_that_the_target_has_no_form_for_is_said_with_the_target() {
    let text = "<FIELD name='remark' datatype='char' arraysize='*'/>";
    let to_binary = Way { from: Rows::Binary2, to: Rows::Binary };
    say(text, BINARY2, 14, &[(b"\x00\x00\x00\x00\x00", "at row 0, column 0 (remark): char *, shows an empty text and goes to TABLEDATA")]);
    say(text, to_binary, 14, &[(b"\x00\x00\x00\x00\x00", "at row 0, column 0 (remark): char *, shows an empty text and goes to BINARY")]);
    let many = "<FIELD datatype='int' arraysize='*'/>";
    say(many, to_binary, 14, &[(b"\x00\x00\x00\x00\x00", "at row 0, column 0: int *, shows no element and goes to BINARY")]);
    say("<FIELD datatype='int'/>", TEXT, 15, &[(b"<TR><TD/></TR>", "at row 0, column 0: int, shows null and goes to BINARY")]);
    say("<FIELD datatype='int'/>", to_binary, 15, &[(b"\x80\0\0\0\0", "at row 0, column 0: int, shows null and goes to BINARY")]);
    say(
        text,
        BINARY,
        16,
        &[(
            b"\x00\x00\x00\x05a<\x01\x00\xFF",
            "at row 0, column 0 (remark): char * 'a<\\u{1}', its 3rd character is '\\u{1}', and goes to TABLEDATA",
        )],
    );
}

#[test]
fn broken_tags_are_said_with_what_should_stand_there() {
    let cases: [(&[u8], &str); 16] = [
        (b"<tr>", "at row 0, column 0 (the start of the row): '<tr>' where <TR> should stand"),
        (b"<TR/>", "at row 0, column 0 (the start of the row): '<TR/>' where <TR> should stand"),
        (b"<TR", "at row 0, column 0 (the start of the row): '<TR' where <TR> should stand"),
        (b" rows <TR>", "at row 0, column 0 (the start of the row): 'rows ' where <TR> should stand"),
        (b"<TR><TD/><TD/><TD/></TR></DATA>", "at row 1, column 0 (the start of the row): '</DATA>' where <TR> should stand"),
        (b"<TR>", "at row 0, column 0 (sky): short, the input ends where <TD> should stand"),
        (b"<TR><TD>7</TD>\n</TR>", "at row 0, column 1 (note): char 4, '</TR>' where <TD> should stand"),
        (b"<TR><TD/>;<TD/>", "at row 0, column 1 (note): char 4, ';' where <TD> should stand"),
        (b"<TR><TD unit='m'>7</TD>", "at row 0, column 0 (sky): short, '<TD unit='m'>' where <TD> should stand"),
        (b"<TR><TD>7", "at row 0, column 0 (sky): short, the input ends where </TD> should stand"),
        (b"<TR><TD>7<BR/></TD>", "at row 0, column 0 (sky): short, '<BR/>' where </TD> should stand"),
        (b"<TR><TD/><TD>a</TR>", "at row 0, column 1 (note): char 4, '</TR>' where </TD> should stand"),
        (b"<TR><TD/><TD>a&nbsp;b</TD>", "at row 0, column 1 (note): char 4, '&nbsp;' where a reference should stand"),
        (b"<TR><TD/><TD>&#0;&lt;A&B</TD>", "at row 0, column 1 (note): char 4, '&B' where a reference should stand"),
        (b"<TR><TD/><TD/><TD/><TD/></TR>", "at row 0, column 3 (after the last cell): '<TD/>' where </TR> should stand"),
        (b"<TR><TD/><TD/><TD/>", "at row 0, column 3 (after the last cell): the input ends where </TR> should stand"),
    ];
    say(FIELDS, TEXT, 10, &cases);
    let report = of_rows(FIELDS, TEXT, b"<tr>");
    assert_eq!((report.text_of("place"), report.text_of("name"), report.text_of("shown")), (Some("start"), None, Some("<tr>")));
}

#[test]
fn the_last_line_says_where_the_row_and_the_cell_begin() {
    let says = |way, input: &[u8], number: u64, spot: &str| {
        let line = format!("rows and columns count from 0; {spot}; 'sailmortar explain {number}' says more");
        assert_eq!(of_rows(FIELDS, way, input).lines[2], line);
    };
    says(BINARY2, TWO, 8, "row 1 begins at byte 8, column 1 at byte 11");
    says(BINARY2, b"\xFF", 13, "row 0 begins at byte 0");
    let text = b"<TR><TD/><TD/><TD/></TR>\n\n  <TR>\n<TD/>\n  <TD>dawns";
    says(TEXT, text, 10, "row 1 begins in line 3, at byte 28, column 1 in line 5, at byte 41");
    says(TEXT, b"<TR><TD/><TD/><TD/></TR>\n\n  <tr>", 10, "row 1 begins in line 3, at byte 28");
}

#[test]
fn places_in_decoded_bytes_are_said_to_be_such() {
    let columns = columns(FIELDS.as_bytes()).expect("the fields are good");
    let refused = refused(FIELDS.as_bytes(), BINARY2, TWO).expect("the second row is cut");
    let (from, to) = (Rows::Binary2, Rows::TableData);
    let stream = Stream {
        input_name: OsStr::new("night"),
        columns: &columns,
        from,
        to,
        decoded: true,
        is_second: false,
        window: Window::whole(TWO),
    };
    let spot = "row 1 begins at byte 8, column 1 at byte 11 of the decoded stream";
    let line = format!("rows and columns count from 0; {spot}; 'sailmortar explain 8' says more");
    assert_eq!(report::row(&stream, &refused, STANDS).lines[2], line);
}

#[test]
fn programs_are_told_the_facts_in_order() {
    let number = |name, value| (name, Value::Number(value));
    let text = |name, value: &str| (name, Value::Text(value.to_string()));
    let report = of_rows(FIELDS, TEXT, b"<TR><TD/><TD/><TD/></TR>\n<TR><TD/>\n<TD>d\xC3\xB3\n</TD><TD/></TR>");
    let facts = [
        text("file", "night"),
        number("number", 11),
        text("meaning", meaning(11).expect("a meaning")),
        number("row", 1),
        number("column", 1),
        text("place", "cell"),
        text("name", "note"),
        text("datatype", "char"),
        text("arraysize", "4"),
        text("shown", "d\u{f3}\n"),
        number("rows", 1),
        number("bytes", 7),
        number("offset", 25),
        number("byte", 35),
        number("line", 3),
    ];
    assert_eq!(report.facts, facts);
    let report = of_rows(FIELDS, BINARY, b"AAAHYSZiAFSgAABkdXNrAA==");
    let facts = [
        text("file", "night"),
        number("number", 11),
        text("meaning", meaning(11).expect("a meaning")),
        number("row", 0),
        number("column", 2),
        text("place", "cell"),
        text("datatype", "boolean"),
        text("arraysize", "1"),
        text("shown", "5A"),
        number("rows", 0),
        number("bytes", 0),
        number("offset", 0),
        number("byte", 6),
        text("hint", "this looks like base64: is --base64-in missing?"),
    ];
    assert_eq!(report.facts, facts);
}
