//! The line of a cell that differs: what stands in it, in words, in escapes, and of long cells where they begin to differ.

use crate::shell::{Said, Scratch};

const NAMES: &str = "a b";

/// Compares one cell of either file; hands out the line of it.
fn line(test: &str, field: &str, from: &str, first: &[u8], and: &str, second: &[u8]) -> String {
    let scratch = Scratch::new(test);
    for (name, bytes) in [("f", field.as_bytes()), ("a", first), ("b", second)] {
        scratch.put(name, bytes);
    }
    let said = scratch.run(&format!("compare --fields f --from {from} --and {and} {NAMES}"));
    assert_eq!((said.status, &said.err[..]), (1, ""), "{said:?}");
    let out = String::from_utf8(said.out).expect("text");
    let rest = "a and b: 1 cell differs in the 1 row that both have\n";
    out.strip_suffix(rest).and_then(|out| out.strip_suffix('\n')).unwrap_or_else(|| panic!("{out}")).to_string()
}

/// The same for two cells of text.
fn of_texts(test: &str, field: &str, first: &str, second: &str) -> String {
    let [first, second] = [first, second].map(|cell| format!("<TR><TD>{cell}</TD></TR>"));
    line(test, field, "tabledata", first.as_bytes(), "tabledata", second.as_bytes())
}

const TEXT: &str = "<FIELD datatype='char' arraysize='*' name='note'/>";
const NUMBERS: &str = "<FIELD datatype='long' arraysize='*' name='counts'/>";

#[test]
fn values_are_shown_as_tabledata_writes_them() {
    let cases = [
        ("<FIELD datatype='short'/>", "+7", "0xffff", "row 0, column 0: 7 in a, -1 in b"),
        ("<FIELD datatype='short' name='sky'><VALUES null='5'/></FIELD>", "7", "5", "row 0, column 0 (sky): 7 in a, null in b"),
        ("<FIELD datatype='boolean' arraysize='2'/>", "true 0", "T ?", "row 0, column 0: T F in a, T ? in b"),
        ("<FIELD datatype='boolean'/>", "1", "?", "row 0, column 0: T in a, null in b"),
        ("<FIELD datatype='bit' arraysize='4'/>", "0101", " 0111 ", "row 0, column 0: 0101 in a, 0111 in b"),
        (NUMBERS, "1\n2", "1", "row 0, column 0 (counts): 1 2 in a, 1 in b"),
        (TEXT, "a&#38;b", "null", "row 0, column 0 (note): 'a&amp;b' in a, 'null' in b"),
        (TEXT, "", " ", "row 0, column 0 (note): null in a, ' ' in b"),
        (TEXT, "it's", "&lt;&gt;\"", "row 0, column 0 (note): 'it's' in a, '&lt;&gt;\"' in b"),
    ];
    for (place, (field, first, second, expected)) in cases.into_iter().enumerate() {
        assert_eq!(of_texts(&format!("compare_values_{place}"), field, first, second), expected);
    }
}

#[test]
fn null_and_empty_are_words() {
    let (empty, null, text) = (b"\0\0\0\0\0", b"\x80\0\0\0\0", b"<TR><TD>empty</TD></TR>");
    assert_eq!(line("compare_empty", TEXT, "binary2", empty, "binary2", null), "row 0, column 0 (note): empty in a, null in b");
    assert_eq!(line("compare_null", TEXT, "binary2", null, "binary2", empty), "row 0, column 0 (note): null in a, empty in b");
    assert_eq!(line("compare_text", TEXT, "binary2", empty, "tabledata", text), "row 0, column 0 (note): empty in a, 'empty' in b");
    let counts = line("compare_counts", NUMBERS, "binary2", empty, "tabledata", b"<TR><TD>0</TD></TR>");
    assert_eq!(counts, "row 0, column 0 (counts): empty in a, 0 in b");
}

#[test]
fn a_line_is_one_line_whatever_the_cell_holds() {
    let text = of_texts("compare_line_ends", TEXT, "a\r\nb&#9;c", "a&#13;\nb\\");
    assert_eq!(text, "row 0, column 0 (note): 'a\\nb\\tc' in a, 'a&#xD;\\nb\\\\' in b");
    // Characters that have no form in TABLEDATA, beside some that have.
    let with_count = |text: &[u8]| [&b"\0\0\0\0"[..], &[text.len() as u8], text].concat();
    let bytes = line("compare_bytes", TEXT, "binary2", &with_count(b"a&\x01\x1b[2J\n"), "binary2", &with_count(b"a&\x7f"));
    assert_eq!(bytes, "row 0, column 0 (note): 'a&amp;\\u{1}\\u{1b}[2J\\n' in a, 'a&amp;\\u{7f}' in b");
    let field = "<FIELD datatype='char' arraysize='3'/>";
    assert_eq!(line("compare_fixed", field, "binary", b"\x02\0\0", "binary", b"ab\0"), "row 0, column 0: '\\u{2}' in a, 'ab' in b");
}

#[test]
fn a_name_that_a_terminal_would_act_on_is_spelt_out() {
    let field = "<FIELD datatype='short' name='a\x1b[2Jb'/>";
    assert_eq!(of_texts("compare_name", field, "1", "2"), "row 0, column 0 (a\\u{1b}[2Jb): 1 in a, 2 in b");
}

#[test]
fn of_long_texts_the_part_is_shown_where_they_begin_to_differ() {
    let long = "abcdefghij".repeat(409);
    let place = ", from its 4,091st character on";
    let at_the_end = of_texts("compare_text_end", TEXT, &format!("{long}X"), &format!("{long}Y"));
    assert_eq!(at_the_end, format!("row 0, column 0 (note){place}: '..efghijabcdefghijX' in a, '..efghijabcdefghijY' in b"));
    let shorter = of_texts("compare_text_shorter", TEXT, &long, &format!("{long}Y"));
    assert_eq!(shorter, format!("row 0, column 0 (note){place}: '..efghijabcdefghij' in a, '..efghijabcdefghijY' in b"));
    let (forty, rest) = ("b".repeat(40), "b".repeat(24));
    let at_the_start = of_texts("compare_text_start", TEXT, &format!("X{}", "b".repeat(900)), &forty);
    assert_eq!(at_the_start, format!("row 0, column 0 (note): 'X{}..' in a, '{forty}' in b", "b".repeat(39)));
    let middle = |letter: &str| format!("{}{letter}{}", "a".repeat(100), "b".repeat(100));
    let in_the_middle = of_texts("compare_text_middle", TEXT, &middle("X"), &middle("Y"));
    let part = |letter: &str| format!("'..{}{letter}{}..'", "a".repeat(16), &rest[..23]);
    let expected = format!("row 0, column 0 (note), from its 101st character on: {} in a, {} in b", part("X"), part("Y"));
    assert_eq!(in_the_middle, expected);
    // What fits is whole, and neither a reference nor an escape is cut.
    assert_eq!(
        of_texts("compare_text_fits", TEXT, &forty, &forty[1..]),
        format!("row 0, column 0 (note): '{forty}' in a, '{}' in b", &forty[1..])
    );
    let references = of_texts("compare_references", TEXT, &"&amp;".repeat(50), &format!("{}&#9;\t", "&#38;".repeat(49)));
    let same = "&amp;".repeat(3);
    assert_eq!(references, format!("row 0, column 0 (note), from its 50th character on: '..{same}&amp;' in a, '..{same}\\t\\t' in b"));
}

#[test]
fn of_long_arrays_the_elements_are_shown_where_they_begin_to_differ() {
    let numbers = |change: Option<usize>| {
        let numbers = (0..4_096).map(|number| if Some(number) == change { "-9223372036854775808".to_string() } else { number.to_string() });
        numbers.collect::<Vec<_>>().join(" ")
    };
    let said = of_texts("compare_array", NUMBERS, &numbers(None), &numbers(Some(2_999)));
    let first = ".. 2996 2997 2998 2999 3000 3001 3002 3003 ..";
    let second = ".. 2996 2997 2998 -9223372036854775808 3000 ..";
    assert_eq!(said, format!("row 0, column 0 (counts), from its 3,000th element on: {first} in a, {second} in b"));
    let bits = "<FIELD datatype='bit' arraysize='*'/>";
    let said = of_texts("compare_bits", bits, &"01".repeat(2_000), &format!("{}1", "01".repeat(1_999)));
    let same = "01".repeat(8);
    assert_eq!(said, format!("row 0, column 0, from its 3,999th bit on: ..{same}01 in a, ..{same}1 in b"));
    let null = of_texts("compare_array_null", NUMBERS, &numbers(None), "");
    assert_eq!(null, "row 0, column 0 (counts): 0 1 2 3 4 5 6 7 8 9 10 11 12 13 14 15 16 .. in a, null in b");
}

#[test]
fn objects_have_the_whole_cell() {
    let scratch = Scratch::new("compare_objects");
    let long = "abcdefghij".repeat(400);
    scratch.put("f", b"<FIELD datatype='char' arraysize='*' name='n\"ote'/><FIELD datatype='int' arraysize='*'/>");
    let with_count = |text: &[u8]| [&(text.len() as u32).to_be_bytes()[..], text].concat();
    let row = |flags: u8, text: &[u8]| [&[flags][..], &with_count(text), b"\0\0\0\0"].concat();
    scratch.put("a", &[row(0, b"a&\x01\n"), row(0x80, b""), row(0, long.as_bytes())].concat());
    scratch.put("b", &[row(0x40, b""), row(0, b"null"), row(0, b"")].concat());
    let said = scratch.run("compare --fields f --from binary2 a b --json");
    let lines = [
        "{\"row\":0,\"column\":0,\"name\":\"n\\\"ote\",\"first\":\"a&amp;\\u0001\\u000a\",\"second\":\"\"}\n",
        "{\"row\":0,\"column\":1,\"first\":\"\",\"second\":null}\n",
        "{\"row\":1,\"column\":0,\"name\":\"n\\\"ote\",\"first\":null,\"second\":\"null\"}\n",
        &format!("{{\"row\":2,\"column\":0,\"name\":\"n\\\"ote\",\"first\":\"{long}\",\"second\":\"\"}}\n"),
    ];
    let err =
        "{\"status\":1,\"first\":\"a\",\"second\":\"b\",\"rows\":3,\"differing\":4,\"first_beyond\":0,\"second_beyond\":0,\"listed\":4}\n";
    assert_eq!(said, Said { status: 1, out: lines.concat().into_bytes(), err: err.to_string() });
}
