//! Line ends in rows of text. XML 1.0, section 2.11: before a text is read, "translating both the two-character sequence
//! #xD #xA and any #xD that is not followed by #xA to a single #xA character". Only a numeric reference gives 13.

use super::compare::{seeds, Case};
use super::declarations::words;
use super::rules::{accepts, refuses, says, td};
use crate::generate::columns::{column, datatype, declarations, EVERY_KIND};
use crate::generate::damage::{damaged, with_line_ends};
use crate::generate::rows::{spelled, table};
use crate::generate::Random;
use crate::model::converter::Rows::{Binary, Binary2, TableData};
use crate::model::converter::EVERY_KIND_OF_ROWS;
use crate::model::{Kind, Length};

/// A text with its line ends translated: of a 13 10 the 10 is left, any other 13 becomes one.
pub fn translated(text: &[u8]) -> Vec<u8> {
    let next = text.iter().skip(1).copied().map(Some).chain([None]);
    let kept = text.iter().copied().zip(next).filter(|pair| *pair != (13, Some(10)));
    kept.map(|(byte, _)| if byte == 13 { 10 } else { byte }).collect()
}

#[test]
fn translation_is_as_section_2_11_has_it() {
    let texts = [
        ("", ""),
        ("a\nb", "a\nb"),
        ("a\r\nb", "a\nb"),
        ("a\rb", "a\nb"),
        ("\r", "\n"),
        ("\r\r\n", "\n\n"),
        ("\r\n\n\r", "\n\n\n"),
        ("\n\r\n\r\r", "\n\n\n\n"),
        ("\r&#10;&#13;\n", "\n&#10;&#13;\n"),
    ];
    for (text, read) in texts {
        assert_eq!(translated(text.as_bytes()), read.as_bytes(), "{text:?}");
        assert_eq!(translated(read.as_bytes()), read.as_bytes(), "{text:?}");
    }
}

/// The text of a char cell, and the characters that it shows.
const TEXTS: &[(&str, &str)] = &[
    ("a\r\nb", "a\nb"),
    ("a\rb", "a\nb"),
    ("\r", "\n"),
    ("\r\n", "\n"),
    ("a\r", "a\n"),
    ("a\r\n", "a\n"),
    ("\r\r", "\n\n"),
    ("\r\r\n", "\n\n"),
    ("\r\n\n", "\n\n"),
    ("\r\n\r\n", "\n\n"),
    ("\n\r", "\n\n"),
    ("\n\r\n", "\n\n"),
    ("\r \n", "\n \n"),
    ("\r\t\r\n", "\n\t\n"),
    ("&amp;\r\n&lt;", "&\n<"),
    // Literal bytes first, references after.
    ("\r&#10;", "\n\n"),
    ("\r&#xA;\n", "\n\n\n"),
    ("\r\n&#10;", "\n\n"),
    ("&#10;\r", "\n\n"),
    ("&#13;", "\r"),
    ("&#xD;", "\r"),
    ("&#xd;", "\r"),
    ("&#00000013;", "\r"),
    ("&#x0000000d;", "\r"),
    ("&#13;\n", "\r\n"),
    ("&#13;\r", "\r\n"),
    ("&#13;\r\n", "\r\n"),
    ("&#13;&#10;", "\r\n"),
    ("&#13;&#13;\n", "\r\r\n"),
    ("\r&#13;", "\n\r"),
    ("\r&#13;\n", "\n\r\n"),
    ("\r\n&#13;", "\n\r"),
];

#[test]
fn a_line_end_is_one_character_10_and_a_reference_alone_gives_13() {
    for (text, shown) in TEXTS {
        let written = td(&shown.replace('&', "&amp;").replace('<', "&lt;").replace('\r', "&#xD;"));
        let length = shown.len();
        for arraysize in ["*".to_string(), "9*".to_string(), format!("{length}*"), "9".to_string(), length.to_string()] {
            let field = format!("<FIELD datatype='char' arraysize='{arraysize}'/>");
            accepts(&field, TableData, TableData, &td(text), &written);
            accepts(&field, TableData, TableData, &written, &written);
        }
        let counted = [&(length as u32).to_be_bytes(), shown.as_bytes()].concat();
        accepts("<FIELD datatype='char' arraysize='*'/>", TableData, Binary, &td(text), &counted);
        accepts("<FIELD datatype='char' arraysize='*'/>", TableData, Binary2, &td(text), &[&[0], &counted[..]].concat());
    }
}

#[test]
fn lengths_are_counted_after_line_ends() {
    let lengths: [(&str, &[&str], &[&str]); 4] = [
        ("1", &["\r\n", "\r", "\n"], &["\r\r", "\r\n\n", "\n\r\n", "\r&#10;", "&#13;\n", "&#13;\r\n", "a\r\n"]),
        ("3", &["a\r\nb", "\r\n\r\n\r\n", "\r\r\r\n", "a\r", "&#13;\r\n\r"], &["a\r\nbc", "\r\r\r\r\n", "ab\r\n&#10;", "a&#13;\nb"]),
        ("2*", &["\r\n\r\n", "\r\r\n", "\r&#10;"], &["\r\n\r\n\r", "a\r\nb", "&#13;\r\n\n"]),
        ("3*", &["a\r\nb", "\r\r\r"], &["a\r\nb\r\n"]),
    ];
    for (arraysize, fitting, too_long) in lengths {
        let field = format!("<FIELD datatype='char' arraysize='{arraysize}'/>");
        for text in fitting {
            says(&field, TableData, Binary2, &td(text), [0, 0, 0, 1, size(arraysize, text)], &binary2(arraysize, text));
        }
        for text in too_long {
            refuses(&field, TableData, Binary2, &td(text), 12);
        }
    }
    let field = "<FIELD datatype='char' arraysize='3'/>";
    refuses(field, TableData, Binary, &td("a\r\nbc\x01"), 11);
    refuses(field, TableData, Binary, &td("a\r\nbc\x01&"), 10);
}

/// A cell of BINARY2 behind its flags, of a text without references but for these two.
fn binary2(arraysize: &str, text: &str) -> Vec<u8> {
    let mut shown = translated(text.as_bytes());
    shown = String::from_utf8(shown).expect("ASCII").replace("&#10;", "\n").replace("&#13;", "\r").into_bytes();
    match arraysize.parse() {
        Ok(elements) => shown.resize(elements, 0),
        Err(_) => shown = [&(shown.len() as u32).to_be_bytes(), &shown[..]].concat(),
    }
    [&[0], &shown[..]].concat()
}

fn size(arraysize: &str, text: &str) -> u64 {
    binary2(arraysize, text).len() as u64
}

#[test]
fn as_many_line_ends_as_a_cell_may_have_characters() {
    for line_end in ["\r\n", "\r", "\n", "&#13;"] {
        for (arraysize, most) in [("*", 4_096), ("4095*", 4_095), ("4096", 4_096), ("4095", 4_095)] {
            let field = format!("<FIELD datatype='char' arraysize='{arraysize}'/>");
            let written = td(&if line_end == "&#13;" { "&#xD;" } else { "\n" }.repeat(most));
            accepts(&field, TableData, TableData, &td(&line_end.repeat(most)), &written);
            refuses(&field, TableData, TableData, &td(&line_end.repeat(most + 1)), 12);
            refuses(&field, TableData, TableData, &td(&(line_end.repeat(most) + "&#10;")), 12);
        }
    }
}

#[test]
fn a_reference_with_a_line_end_in_it_is_broken() {
    for kind in EVERY_KIND {
        let field = format!("<FIELD datatype='{}' arraysize='*'/>", datatype(kind));
        for line_end in ["\r\n", "\r", "\n"] {
            for broken in ["&|amp;", "&a|mp;", "&amp|;", "&|#13;", "&#|13;", "&#1|3;", "&#13|;", "&#x|D;", "&#xD|;", "&#1|", "&|"] {
                let text = broken.replace('|', line_end);
                refuses(&field, TableData, TableData, &td(&text), 10);
                refuses(&field, TableData, TableData, &td(&format!("\r\n1{text}")), 10);
            }
        }
    }
}

#[test]
fn an_input_that_ends_at_a_line_end() {
    let field = "<FIELD datatype='char' arraysize='*'/>";
    for line_end in ["\r", "\r\n", "\r\r\n", "\n"] {
        for (text, column) in [
            ("<TR", 0),
            ("<TR>", 0),
            ("<TR><TD", 0),
            ("<TR><TD>", 0),
            ("<TR><TD>a", 0),
            ("<TR><TD>a&", 0),
            ("<TR><TD>a&#13", 0),
            ("<TR><TD>a&#13;", 0),
            ("<TR><TD>a</TD", 0),
            ("<TR><TD>a</TD>", 1),
            ("<TR><TD>a</TD></TR", 1),
        ] {
            says(field, TableData, Binary, format!("{text}{line_end}").as_bytes(), [10, 0, column, 0, 0], b"");
        }
        accepts(field, TableData, Binary, format!("<TR><TD>a</TD></TR>{line_end}").as_bytes(), b"\0\0\0\x01a");
        says(field, TableData, Binary, line_end.as_bytes(), [0; 5], b"");
    }
}

#[test]
fn in_cells_of_other_kinds_a_line_end_is_white_space() {
    let cells = [
        ("int", "3", "|1|2||3|", "1 2 3"),
        ("int", "*", "1|0x1f|+7", "1 31 7"),
        ("short", "1", "|7|", "7"),
        ("unsignedByte", "3*", "1|2 | 3", "1 2 3"),
        ("long", "2", "-1| |9223372036854775807|", "-1 9223372036854775807"),
        ("boolean", "1", "|true", "T"),
        ("boolean", "4", "T|F|?|1|", "T F ? T"),
        ("bit", "4", "|0110|", "0110"),
        ("bit", "*", "1||", "1"),
    ];
    for (datatype, arraysize, cell, written) in cells {
        let field = format!("<FIELD datatype='{datatype}' arraysize='{arraysize}'/>");
        for line_end in ["\r\n", "\r", "\r\r\n", "\n", "&#13;", "&#13;\n", "\r&#10;"] {
            accepts(&field, TableData, TableData, &td(&cell.replace('|', line_end)), &td(written));
            accepts(&field, TableData, TableData, &td(line_end), b"<TR><TD/></TR>\n");
        }
    }
    for line_end in ["\r\n", "\r", "&#13;"] {
        let refused = |field: &str, cell: &str, number| refuses(field, TableData, TableData, &td(&cell.replace('|', line_end)), number);
        refused("<FIELD datatype='bit' arraysize='4'/>", "01|10", 11);
        refused("<FIELD datatype='int'/>", "1|2", 12);
        refused("<FIELD datatype='int'/>", "-|2", 11);
        refused("<FIELD datatype='boolean' arraysize='2'/>", "tr|ue", 11);
        let null = format!("<FIELD datatype='short'><VALUES null='{}'/></FIELD>", "|-99|".replace('|', line_end));
        if line_end == "&#13;" {
            refused(&null, "7", 4);
        } else {
            accepts(&null, TableData, TableData, &td(&format!("{line_end}-99{line_end}")), b"<TR><TD/></TR>\n");
        }
    }
}

#[test]
fn a_line_end_stands_wherever_white_space_may() {
    let (field, row) = ("<FIELD datatype='char'/><FIELD datatype='bit'/>", b"<TR><TD>a</TD><TD/></TR>\n");
    let pieces = ["", "<TR", ">", "<TD", ">a</TD", ">", "<TD", "/>", "</TR", ">", ""];
    for line_end in ["\r\n", "\r", "\r\r\n", "\n\r"] {
        accepts(field, TableData, TableData, pieces.join(line_end).as_bytes(), row);
        for place in 1..pieces.len() {
            let input = [pieces[..place].concat(), pieces[place..].concat()].join(line_end);
            accepts(field, TableData, TableData, input.as_bytes(), row);
        }
        for broken in ["<|TR", "<T|R", "<|/TR>", "<TR><TD/|>", "<TR><TD><|/TD>", "<TR><TD></|TD>", "<TR><TD></T|D>"] {
            refuses(field, TableData, TableData, broken.replace('|', line_end).as_bytes(), 10);
        }
    }
}

/// Every text of few pieces, among them each spelling of 10 and of 13.
#[test]
fn every_text_of_line_ends() {
    let pieces = ["\r", "\n", "&#13;", "&#10;", "a"];
    let lengths = [Length::Fixed(3), Length::Bounded(3), Length::Free];
    let fields = lengths.map(|length| declarations(&[column(Kind::Char, length)]));
    for word in words(b"01234", 6) {
        let text: String = word.iter().map(|digit| pieces[usize::from(digit - b'0')]).collect();
        for (field, to) in fields.iter().zip(EVERY_KIND_OF_ROWS) {
            Case { declarations: field, from: TableData, to, input: &td(&text), seed: 0 }.agree(60);
        }
    }
}

/// What is written of 10 and 13 is read as what it was written of.
#[test]
fn every_text_of_10_and_13_comes_back_from_rows_of_text() {
    let field = "<FIELD datatype='char' arraysize='*'/>";
    for word in words(b"\r\na", 7).into_iter().filter(|word| !word.is_empty()) {
        let bytes = [&(word.len() as u32).to_be_bytes(), &word[..]].concat();
        let text = String::from_utf8(word).expect("ASCII").replace('\r', "&#xD;");
        accepts(field, Binary, TableData, &bytes, &td(&text));
        accepts(field, TableData, Binary, &td(&text), &bytes);
        accepts(field, TableData, TableData, &td(&text), &td(&text));
    }
}

/// Files as they come from one system to the other: every 10 of a good table, also inside its cells, as another line end.
#[test]
fn a_table_with_the_line_ends_of_another_system_reads_as_before() {
    let mut changed = 0;
    for seed in seeds(90_000_000, 3_000) {
        let mut random = Random::new(seed);
        let columns = crate::generate::columns::some(&mut random, 1, 6);
        let text = declarations(&columns);
        let table = table(&mut random, &columns, TableData, 3);
        let input = translated(&spelled(&mut random, &columns, TableData, &table));
        for to in EVERY_KIND_OF_ROWS {
            let case = Case { declarations: &text, from: TableData, to, input: &input, seed };
            let written = case.with_room_enough();
            for line_end in [&b"\r\n"[..], b"\r"] {
                let other = Case { input: &with_line_ends(&input, line_end), ..case };
                changed += usize::from(other.input != input);
                assert_eq!(other.with_room_enough(), written, "seed {seed}: {}", input.escape_ascii());
                other.agree_with_room_enough();
            }
        }
    }
    // Not where a single seed is run again.
    assert!(changed > 1_000 || seeds(0, 2).len() == 1, "only {changed} tables had a line end: the test shows nothing");
}

/// Line ends side by side, beside references, at the end of a cell, inside a tag and between two.
const SORTS: [&str; 13] =
    ["\r\n", "\r\r", "\r\r\n", "\n\r\n", "\r\n\n", "\r\n\r\n", "\r&#10;", "&#13;\n", "&#13;\r\n", "\r</TD", "\r\n</TD", "<TR\r", ">\r\n<"];

/// Whether a 13 stands in the text of a cell.
fn has_13_in_a_cell(text: &str) -> bool {
    let behind_tags = text.split("<TD").skip(1).filter_map(|cell| cell.split_once('>'));
    behind_tags.into_iter().any(|(_, rest)| rest.split('<').next().is_some_and(|cell| cell.contains('\r')))
}

/// The inputs that the other tests are made of, good and damaged, have line ends of every sort in cells of every kind.
#[test]
fn inputs_have_line_ends_of_every_sort() {
    let mut met = [[0; 2]; SORTS.len()];
    let mut met_in_kinds = [[0; 2]; EVERY_KIND.len()];
    for seed in 91_000_000..91_020_000 {
        let mut random = Random::new(seed);
        let kind = seed as usize % EVERY_KIND.len();
        let columns = [column(EVERY_KIND[kind], Length::Bounded(9))];
        let table = table(&mut random, &columns, TableData, 3);
        let good = spelled(&mut random, &columns, TableData, &table);
        let bad = damaged(&mut random, &good);
        for (which, input) in [&good, &bad].into_iter().enumerate() {
            let text = String::from_utf8_lossy(input);
            SORTS.iter().zip(&mut met).for_each(|(sort, met)| met[which] += usize::from(text.contains(sort)));
            met_in_kinds[kind][which] += usize::from(has_13_in_a_cell(&text));
        }
    }
    for (sort, met) in SORTS.iter().zip(met) {
        assert!(met.iter().all(|times| *times > 20), "{sort:?} is met {met:?} times");
    }
    for (kind, met) in EVERY_KIND.iter().zip(met_in_kinds) {
        assert!(met.iter().all(|times| *times > 200), "13 is met {met:?} times in {kind:?}");
    }
}
