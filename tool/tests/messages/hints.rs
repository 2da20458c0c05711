//! Hints: what an input most likely is, told by how it begins.

use sailmortar::Rows;

use super::said::{of_base64, of_declarations, of_rows, of_seen, refused, Way};
use crate::window::Window;

const FIELDS: &str = "<FIELD datatype='short'/><FIELD datatype='boolean'/>";
const TEXT: Way = Way { from: Rows::TableData, to: Rows::Binary2 };
const BINARY2: Way = Way { from: Rows::Binary2, to: Rows::TableData };
const BINARY: Way = Way { from: Rows::Binary, to: Rows::TableData };

const DOCUMENT: &str = "this is a whole document: the rows alone are wanted, without the tags around them";
const ROWS_ALONE: &str = "the rows alone are wanted: take out the tags around them";
const MARK: &str = "a byte order mark (EF BB BF) stands before the text: take it out";
const GZIP: &str = "this is a gzip file: unpack it first, with gunzip";
const CAPITALS: &str = "tags are wanted in capitals: <TR> and <TD>";
const ATTRIBUTES: &str = "<TR> and <TD> are carried without attributes";
const BASE64: &str = "this looks like base64: is --base64-in missing?";

#[test]
fn what_stands_where_a_row_of_text_should() {
    let cases: [(&[u8], Option<&str>); 22] = [
        (b"\xEF\xBB\xBF<TR>", Some(MARK)),
        (b"\xFF\xFE<\0T\0", Some("this looks like UTF-16: ASCII is wanted")),
        (b"\xFE\xFF\0<\0T", Some("this looks like UTF-16: ASCII is wanted")),
        (b"\n<?xml version='1.0'?>", Some(DOCUMENT)),
        (b"<VOTABLE version='1.4'>", Some(DOCUMENT)),
        (b"<TABLEDATA>\n<TR>", Some(ROWS_ALONE)),
        (b"<DATA><TABLEDATA>", Some(ROWS_ALONE)),
        (b"<TR><TD/><TD/></TR></TABLEDATA>", Some(ROWS_ALONE)),
        (b"<FIELD datatype='int'/>", Some("FIELD elements belong into the file that --fields names")),
        (b"<!-- the night -->", Some("comments are not carried: take them out")),
        (b"<TR><TD/><!-- sky --><TD/></TR>", Some("comments are not carried: take them out")),
        (b"<TR><TD><![CDATA[7]]></TD>", Some("CDATA is not carried: write the text itself, with &amp; and &lt;")),
        (b"<TR ID='a'><TD/>", Some(ATTRIBUTES)),
        (b"<TR><TD encoding='base64'>", Some(ATTRIBUTES)),
        (b"<tr><td/>", Some(CAPITALS)),
        (b"<TR><td>7</td>", Some(CAPITALS)),
        (b"\x1F\x8B\x08\0\0\0", Some(GZIP)),
        (b"\x00\x00\x07T", Some("these are bytes and no text: are the rows BINARY or BINARY2 (--from)?")),
        (b"AAAHVAAACEY=", Some("is this the base64 of BINARY or BINARY2 rows (--base64-in, and another --from)?")),
        (b"<TR ", None),
        (b"7 T\n8 F\n", None),
        (b"<TR><TD>7</TD></TR>", None),
    ];
    for (input, hint) in cases {
        assert_eq!(of_rows(FIELDS, TEXT, input).hint_of(), hint, "{}", input.escape_ascii());
    }
}

#[test]
fn what_stands_where_rows_of_bytes_should() {
    let cases: [(&[u8], Option<&str>); 9] = [
        (b"<TR><TD>7</TD><TD>T</TD></TR>", Some("this looks like TABLEDATA: is --from right?")),
        (b"\n<tr><td>7</td>", Some("this looks like TABLEDATA: is --from right?")),
        (b"<?xml version='1.0'?>", Some("this is a whole document: the bytes of its stream alone are wanted")),
        (b"\x1F\x8B\x08\0\0", Some(GZIP)),
        (b"AAAHVAAACEY=", Some(BASE64)),
        (b"\n  AAAHVAAA\n  CEY=\n", Some(BASE64)),
        (b"\x00\x00\x07X", None),
        (b"\xFF", None),
        (b"sky sky ", None),
    ];
    for (input, hint) in cases {
        assert_eq!(of_rows(FIELDS, BINARY2, input).hint_of(), hint, "{}", input.escape_ascii());
    }
}

/// What --long holds of a row ends in the middle of it, or behind a fault that would be there in any case.
#[test]
fn a_row_that_is_cut_is_told_from_one_that_is_broken() {
    let long = "with --long a row of TABLEDATA is judged by its first 64 MiB, and this one goes on behind them";
    let cases: [(&[u8], &str, Option<&str>); 5] = [
        (b"<TR><TD>7   ", "short, the first 64 MiB of the row end where </TD> should stand", Some(long)),
        (b"<TR><TD>7</TD", "short, '</TD' where </TD> should stand", Some(long)),
        (b"<TR><TD>7</TD>", "boolean, the first 64 MiB of the row end where <TD> should stand", Some(long)),
        (b"<TR><TD>7</TD><TD>&#x", "boolean, '&#x' where a reference should stand", Some(long)),
        (b"<TR><td>7</td><td>T</td>", "short, '<td>' where <TD> should stand", Some(CAPITALS)),
    ];
    for (input, words, hint) in cases {
        let refused = refused(FIELDS.as_bytes(), TEXT, input).expect("it is refused");
        let report = of_seen(FIELDS.as_bytes(), TEXT, Window { goes_on: true, ..Window::whole(input) }, &refused);
        assert!(report.lines[0].contains(words), "{}", report.lines[0]);
        assert_eq!(report.hint_of(), hint, "{}", input.escape_ascii());
    }
}

#[test]
fn texts_are_not_taken_for_base64() {
    let texts = "<FIELD datatype='char' arraysize='8'/>";
    assert_eq!(of_rows(texts, BINARY, b"NGC00001NGC00002NGC").hint_of(), None);
    let counted = "<FIELD datatype='char' arraysize='*'/>";
    assert_eq!(of_rows(counted, BINARY, b"AAAABGRhd24AAAAEZHVzaw==").hint_of(), Some(BASE64));
    // Far into a stream it is the stream that is broken.
    let late = [&b"aaT".repeat(30)[..], b"aaX"].concat();
    assert_eq!(of_rows(FIELDS, BINARY, &late).hint_of(), None);
}

#[test]
fn what_stands_where_fields_should() {
    let cases: [(&[u8], Option<&str>); 6] = [
        (b"<?xml version='1.0'?>", Some("the FIELD elements alone are wanted, without a tag around them")),
        (b"<TABLE name='night'>", Some("the FIELD elements alone are wanted, without a tag around them")),
        (b"\xEF\xBB\xBF<FIELD datatype='int'/>", Some(MARK)),
        (b"\x1F\x8B\x08\0", Some(GZIP)),
        (b"<TR><TD/></TR>", Some("these are rows: are the file of the fields and INPUT exchanged?")),
        (b"<FIELD/>", None),
    ];
    for (fields, hint) in cases {
        assert_eq!(of_declarations(fields).hint_of(), hint, "{}", fields.escape_ascii());
    }
}

#[test]
fn what_stands_where_base64_should() {
    let cases: [(&[u8], Option<&str>); 7] = [
        (b"\n<STREAM encoding='base64'>", Some("tags stand around the text, or this is TABLEDATA: the base64 alone is wanted")),
        (b"\xEF\xBB\xBFZm9v", Some(MARK)),
        (b"\x1F\x8B\x08\0", Some(GZIP)),
        (b"\x00\x00\x07T", Some("these are bytes and no letters: is it base64 at all?")),
        (b"Zm9_YmFy", Some("this is the alphabet with - and _: put + for - and / for _")),
        (b"-----BEGIN", None),
        (b"Zm9v!", None),
    ];
    for (text, hint) in cases {
        assert_eq!(of_base64(text).hint_of(), hint, "{}", text.escape_ascii());
    }
}
