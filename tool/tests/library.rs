//! The library's functions: the sample night, room that grows, conversion in pieces, columns read off, refusals in words.

use std::io::{self, Read, Write};

use sailmortar::{
    base64_decode, base64_decode_stream, base64_decode_to_vec, base64_encode, base64_encode_stream, base64_encode_to_vec, columns, convert,
    convert_pieces, convert_stream, convert_to_vec, declare, element, meaning, read_input, Base64Writer, Column, Done, Error, Kind, Length,
    Refused, Rows, INPUT_LIMIT, NUMBERS,
};

const FIELDS: &[u8] = include_bytes!("../../examples/night.fields");
const TABLEDATA: &[u8] = b"<TR><TD>7</TD><TD>a&amp;b</TD><TD>T</TD></TR>\n<TR><TD/><TD>dusk</TD><TD/></TR>\n";
const BINARY: &[u8] = &[0x00, 0x07, 0x61, 0x26, 0x62, 0x00, 0x54, 0xFF, 0x9D, 0x64, 0x75, 0x73, 0x6B, 0x3F];
const BINARY2: &[u8] = &[0x00, 0x00, 0x07, 0x61, 0x26, 0x62, 0x00, 0x54, 0xA0, 0x00, 0x00, 0x64, 0x75, 0x73, 0x6B, 0x00];

fn night(rows: Rows) -> &'static [u8] {
    match rows {
        Rows::TableData => TABLEDATA,
        Rows::Binary => BINARY,
        Rows::Binary2 => BINARY2,
        other => panic!("there is no night in {other}"),
    }
}

fn ways() -> impl Iterator<Item = (Rows, Rows)> {
    Rows::ALL.iter().flat_map(|from| Rows::ALL.iter().map(move |to| (*from, *to)))
}

/// Number, row, column, rows and bytes, as C has them.
type Five = [u64; 5];

fn five(answer: Result<Done, Refused>) -> Five {
    match answer {
        Ok(done) => [0, 0, 0, done.rows, done.bytes],
        Err(refused) => [refused.number, refused.row, refused.column, refused.rows, refused.bytes],
    }
}

fn refused(answer: Result<Done, Error>) -> Refused {
    match answer {
        Err(Error::Refused(refused)) => refused,
        other => panic!("a refusal, and not {other:?}"),
    }
}

fn five_of(answer: Result<Done, Error>) -> Five {
    five(answer.map_err(|error| refused(Err(error))))
}

/// What one call of the proved converter answers and writes with room enough.
fn in_one_call(decls: &[u8], from: Rows, to: Rows, input: &[u8]) -> (Result<Done, Refused>, Vec<u8>) {
    let mut out = vec![0; 4096];
    loop {
        let answer = convert(decls, from, to, input, &mut out);
        if !matches!(answer, Err(refused) if refused.number == 17) {
            out.truncate(five(answer)[4] as usize);
            return (answer, out);
        }
        out = vec![0; 2 * out.len()];
    }
}

/// Bytes that the sample night or another good input becomes.
fn good(decls: &[u8], from: Rows, to: Rows, input: &[u8]) -> Vec<u8> {
    let mut bytes = Vec::new();
    convert_to_vec(decls, from, to, input, &mut bytes).expect("the rows are good");
    bytes
}

#[test]
fn the_sample_night_goes_all_nine_ways() {
    for (from, to) in ways() {
        let mut bytes = Vec::new();
        let done = convert_to_vec(FIELDS, from, to, night(from), &mut bytes).expect("the night is good");
        assert_eq!((done.rows, done.bytes, &bytes[..]), (2, night(to).len() as u64, night(to)), "{from} to {to}");
    }
}

#[test]
fn a_row_that_does_not_fit_is_refused_and_the_rest_is_untouched() {
    let mut out = [0xEE; 15];
    let refused = convert(FIELDS, Rows::TableData, Rows::Binary2, TABLEDATA, &mut out).expect_err("16 bytes do not fit");
    assert_eq!(five(Err(refused)), [17, 1, 0, 1, 8]);
    assert_eq!(refused.offset, 45, "the first row and not the line feed behind it");
    assert_eq!(out[..8], BINARY2[..8]);
    assert_eq!(out[8..], [0xEE; 7]);
}

#[test]
fn empty_slices_are_fine() {
    assert_eq!(five(convert(FIELDS, Rows::Binary, Rows::TableData, &[], &mut [])), [0; 5]);
    assert_eq!(five(convert(&[], Rows::Binary, Rows::TableData, &[], &mut [])), [5, 0, 0, 0, 0]);
    assert_eq!(five(base64_decode(&[], &mut [])), [0; 5]);
    assert_eq!(five(base64_encode(&[], &mut [])), [0; 5]);
    assert_eq!(declare(&[]).map_err(|refused| (refused.number, refused.column)), Err((5, 0)));
}

#[test]
fn the_question_mark_works() {
    fn night_and_back() -> Result<u64, Box<dyn std::error::Error>> {
        let (mut binary2, mut text) = (Vec::new(), [0; 100]);
        convert_to_vec(FIELDS, Rows::TableData, Rows::Binary2, TABLEDATA, &mut binary2)?;
        declare(FIELDS)?;
        Ok(convert(FIELDS, Rows::Binary2, Rows::TableData, &binary2, &mut text)?.rows)
    }
    assert_eq!(night_and_back().expect("the night is good"), 2);
}

#[test]
fn the_room_grows_as_needed() {
    let input = [255; 3000];
    let mut text = b"before".to_vec();
    let done = convert_to_vec(b"<FIELD datatype='unsignedByte'/>", Rows::Binary, Rows::TableData, &input, &mut text);
    assert_eq!(five_of(done), [0, 0, 0, 3000, 66_000]);
    assert_eq!(text, [b"before".to_vec(), b"<TR><TD>255</TD></TR>\n".repeat(3000)].concat());
    let filled = good(b"<FIELD datatype='char' arraysize='4096'/>", Rows::TableData, Rows::Binary, b"<TR><TD/></TR>");
    assert_eq!(filled, vec![0; 4096]);
}

#[test]
fn base64_by_the_vectors_of_rfc_4648() {
    let vectors =
        [("", ""), ("f", "Zg=="), ("fo", "Zm8="), ("foo", "Zm9v"), ("foob", "Zm9vYg=="), ("fooba", "Zm9vYmE="), ("foobar", "Zm9vYmFy")];
    for (bytes, letters) in vectors {
        let mut encoded = Vec::new();
        assert_eq!(five_of(base64_encode_to_vec(bytes.as_bytes(), &mut encoded)), [0, 0, 0, 0, letters.len() as u64]);
        assert_eq!(encoded, letters.as_bytes());
        let mut decoded = b"so: ".to_vec();
        assert_eq!(five_of(base64_decode_to_vec(letters.as_bytes(), &mut decoded)), [0, 0, 0, 0, bytes.len() as u64]);
        assert_eq!(decoded, format!("so: {bytes}").as_bytes());
    }
    let mut decoded = Vec::new();
    assert_eq!(five_of(base64_decode_to_vec(b"Zh==", &mut decoded)), [7, 0, 0, 0, 0]);
    assert_eq!(decoded, b"");
}

#[test]
fn base64_in_pieces_is_base64_in_one() {
    let bytes: Vec<u8> = (0..200_000).map(|number: u32| (number / 7) as u8).collect();
    for length in [0, 1, 2, 3, 50, 49_151, 49_152, 49_153, 200_000] {
        for step in [1, 2, 7, 48, 5000] {
            let mut whole = Vec::new();
            base64_encode_to_vec(&bytes[..length], &mut whole).expect("it is short");
            for wrap in [0, 1, 3, 76, 300_000] {
                let mut letters = Base64Writer::new(Vec::new(), wrap).expect("memory");
                bytes[..length].chunks(step).for_each(|piece| letters.write_all(piece).expect("a Vec takes all"));
                let lines = if wrap == 0 { whole.clone() } else { whole.chunks(wrap).flat_map(|line| [line, b"\n"].concat()).collect() };
                assert!(letters.finish().expect("a Vec takes all") == lines, "{length} bytes, {step} at a time, lines of {wrap}");
            }
        }
    }
}

#[test]
fn declarations_are_judged_alone() {
    assert_eq!(declare(FIELDS), Ok(3));
    let refused = declare(b"<FIELD datatype='int'/><FIELD datatype='float'/>").expect_err("float is not carried");
    assert_eq!((refused.number, refused.row, refused.column, refused.rows, refused.bytes, refused.offset), (2, 0, 1, 0, 0, 0));
    assert_eq!(refused.to_string(), "refusal 2 in the declarations, at the element after 1 whole FIELD: a datatype that is not carried");
}

/// A column's name, kind, length and null.
type Facts<'a> = (Option<&'a str>, Kind, Length, Option<i64>);

fn read_off(columns: &[Column]) -> Vec<Facts<'_>> {
    columns.iter().map(|column| (column.name.as_deref(), column.kind, column.length, column.null)).collect()
}

#[test]
fn columns_are_read_off_in_any_spelling() {
    let decls = b"\n<FIELD name = 'a>b/ c' ID='x' datatype=\"char\" arraysize='*' />\
        <FIELD datatype='bit' arraysize = \"12*\" name=\"\" name='second' ><VALUES datatype='long' null='1'/></FIELD>\
        <FIELD datatype='long' name='t\xFF' arraysize='4096'></FIELD  ><FIELD\tdatatype='unsignedByte'\n/>\
        <FIELD datatype='boolean'/><FIELD datatype='short'/><FIELD datatype='int' arraysize='1*'/>";
    let read = columns(decls).expect("they are good");
    assert_eq!(
        read_off(&read),
        [
            (Some("a>b/ c"), Kind::Char, Length::Free, None),
            (Some(""), Kind::Bit, Length::Bounded(12), None),
            (Some("t\u{FFFD}"), Kind::Long, Length::Fixed(4096), None),
            (None, Kind::UnsignedByte, Length::Fixed(1), None),
            (None, Kind::Boolean, Length::Fixed(1), None),
            (None, Kind::Short, Length::Fixed(1), None),
            (None, Kind::Int, Length::Bounded(1), None),
        ]
    );
    let refused = columns(b"<FIELD datatype='int' arraysize='0'/>").expect_err("0 is no length");
    assert_eq!((refused.number, refused.column), (3, 0));
}

#[test]
fn nulls_are_read_off_as_the_cells_of_their_kind() {
    let cases = [
        ("short", "", "-99", Some(-99)),
        ("short", "", " +7\n", Some(7)),
        ("short", "", "0xffff", Some(-1)),
        ("short", " arraysize='1'", "5", Some(5)),
        ("short", " arraysize='2'", "5", None),
        ("short", " arraysize='1*'", "no number", None),
        ("unsignedByte", "", "0xff", Some(255)),
        ("int", "", "0x80000000", Some(i64::from(i32::MIN))),
        ("long", "", "-9223372036854775808", Some(i64::MIN)),
        ("long", "", "0xfffffffffffffffe", Some(-2)),
        ("boolean", "", "T", None),
        ("bit", "", "1", None),
        ("char", "", "x", None),
    ];
    for (datatype, arraysize, null, value) in cases {
        let decls = format!("<FIELD datatype='{datatype}'{arraysize}><VALUES ref='0' null=\"{null}\" /></FIELD>");
        assert_eq!(columns(decls.as_bytes()).expect("it is good")[0].null, value, "{decls}");
    }
}

#[test]
fn the_refused_element_is_found() {
    let decls =
        b" <FIELD datatype='int' name='/>'/>\n<FIELD datatype='int' ><VALUES null='1'/> </FIELD > <FIELD name='mag' datatype='float'/>";
    let place = declare(decls).expect_err("float is not carried").column;
    let found = element(decls, place).expect("two whole FIELDs stand before it");
    assert_eq!((found.attribute("datatype"), found.name()), (Some(&b"float"[..]), Some("mag".to_string())));
    assert!(found.text == &decls[found.start..] && found.text.starts_with(b"<FIELD name='mag'"));
    assert_eq!(element(decls, 1).expect("a whole FIELD stands before it").null(), Some(&b"1"[..]));
    assert!(element(decls, 3).is_some_and(|end| end.text.is_empty()), "behind the last there is nothing");
    assert!(element(b"<FIELD datatype='int'", 1).is_none());
}

/// The next of a row of numbers that look like chance and are the same each time.
fn next(state: &mut u64, below: u64) -> usize {
    *state = state.wrapping_mul(6364136223846793005).wrapping_add(1442695040888963407);
    ((*state >> 33) % below) as usize
}

/// Attributes that say nothing of the column, in spellings that could lead a reader astray.
const SKIPPED: [&str; 8] = [
    "ID='datatype=\"long\"'",
    "xdatatype = \"int\"",
    "datatype2='/>'",
    "a.b-c:d_e\n=\n'>'",
    "FIELD='FIELD datatype'",
    "null='\"'",
    "name2=''",
    "description='the null=\"1\" / > = name'",
];

fn odd_field(state: &mut u64) -> (String, Facts<'static>) {
    let kinds = [
        ("boolean", Kind::Boolean),
        ("bit", Kind::Bit),
        ("unsignedByte", Kind::UnsignedByte),
        ("short", Kind::Short),
        ("int", Kind::Int),
        ("long", Kind::Long),
        ("char", Kind::Char),
    ];
    let lengths =
        [(None, Length::Fixed(1)), (Some("7"), Length::Fixed(7)), (Some("4096*"), Length::Bounded(4096)), (Some("*"), Length::Free)];
    let (datatype, kind) = kinds[next(state, 7)];
    let (arraysize, length) = lengths[next(state, 4)];
    let name = ["sky", "a b", "/>", "x='y", ""][next(state, 5)];
    let mut attributes = vec![format!("datatype='{datatype}'"), format!("name{}\"{name}\"", [" = ", "="][next(state, 2)])];
    attributes.extend(arraysize.map(|size| format!("arraysize=\t\"{size}\"")));
    attributes.extend((0..next(state, 4)).map(|_| SKIPPED[next(state, 8)].to_string()));
    let turn = next(state, attributes.len() as u64);
    attributes.rotate_left(turn);
    let ends = ["/>", " />\n", "></FIELD>", "\n> <VALUES datatype='x>' null='1'/> </FIELD\t>", "><VALUES/></FIELD>"];
    let end = next(state, 5);
    let integer = matches!(kind, Kind::UnsignedByte | Kind::Short | Kind::Int | Kind::Long);
    let null = (end == 3 && integer && length == Length::Fixed(1)).then_some(1);
    let end = ends[end];
    (format!("<FIELD {}{end}", attributes.join(["  ", "\n", "\t"][next(state, 3)])), (Some(name), kind, length, null))
}

#[test]
fn columns_are_read_off_where_values_look_like_tags() {
    let mut state = 5;
    for _ in 0..2000 {
        let (texts, declared): (Vec<_>, Vec<_>) = (0..1 + next(&mut state, 6)).map(|_| odd_field(&mut state)).unzip();
        let text = texts.join([" ", "", "\n\n"][next(&mut state, 3)]);
        assert_eq!(read_off(&columns(text.as_bytes()).expect("they are good")), declared, "{text}");
    }
}

#[test]
fn refusals_say_what_they_mean() {
    let numbers: Vec<u64> = NUMBERS.iter().map(|known| known.number).collect();
    assert_eq!(numbers, (1..=18).chain([20, 255]).collect::<Vec<u64>>(), "every number of the rules, in order");
    for known in NUMBERS {
        assert_eq!(meaning(known.number), Some(known.meaning));
        assert!(
            known.meaning.len() > 10 && known.name.bytes().all(|letter| matches!(letter, b'A'..=b'Z' | b'0'..=b'9' | b'_')),
            "{known:?}"
        );
    }
    assert_eq!((meaning(0), meaning(19), meaning(254)), (None, None, None));
    let cut = convert_to_vec(FIELDS, Rows::Binary2, Rows::TableData, &BINARY2[..15], &mut Vec::new());
    let cut = cut.expect_err("it is cut");
    assert_eq!(cut.refused().map(|cut| (cut.number, cut.row, cut.column, cut.offset)), Some((8, 1, 2, 8)));
    assert_eq!(cut.to_string(), "refusal 8 at row 1, column 2: the BINARY or BINARY2 stream ends inside a row");
}

/// Columns of every shape; each can be null in all three kinds of rows.
const SHAPES: &[u8] = b"<FIELD datatype='short'><VALUES null='-99'/></FIELD><FIELD datatype='char' arraysize='5'/>\
    <FIELD datatype='char' arraysize='*'/><FIELD datatype='bit' arraysize='20*'/><FIELD datatype='boolean'/>\
    <FIELD datatype='long' arraysize='3*'/><FIELD datatype='int' arraysize='*'/><FIELD datatype='unsignedByte' arraysize='7*'/>\
    <FIELD datatype='boolean' arraysize='9*'/>";

/// The count of a variable cell and the bytes of its content, for a column of SHAPES; a fixed cell has no count.
fn cell(column: usize, number: u64) -> (Option<u32>, Vec<u8>) {
    let some = |most: u64| (1 + number % most) as usize;
    let letters = |length: usize| (0..length).map(|place| b"<&>a]\r\n z"[(number as usize + place) % 9]).collect::<Vec<u8>>();
    let counted = |count: usize, content| (Some(count as u32), content);
    match column {
        0 => (None, vec![0, number as u8]),
        1 => (None, letters(5)),
        2 => counted(some(9), letters(some(9))),
        3 => counted(some(20), (0..some(20)).step_by(8).map(|_| 0).collect()),
        4 => (None, vec![b"TF1"[number as usize % 3]]),
        5 => counted(some(3), vec![number as u8; 8 * some(3)]),
        6 => counted(some(12), vec![number as u8; 4 * some(12)]),
        7 => counted(some(7), vec![number as u8; some(7)]),
        _ => counted(some(9), vec![b'?'; some(9)]),
    }
}

/// BINARY2 rows with nulls, whose cells hold bytes of no kind under the flag, and where each row begins.
fn rows_of_shapes(count: u64) -> (Vec<u8>, Vec<usize>) {
    let (mut stream, mut starts) = (Vec::new(), Vec::new());
    let mut state: u64 = 11;
    for _ in 0..count {
        starts.push(stream.len());
        next(&mut state, 1);
        let flags = (state >> 40) as u16 & (state >> 20) as u16 & 0xFF80;
        stream.extend(flags.to_be_bytes());
        for column in 0..9 {
            let (elements, mut content) = cell(column, state >> (33 + column));
            if flags & (0x8000 >> column) != 0 {
                content.fill(0xFE);
            }
            stream.extend(elements.map(u32::to_be_bytes).into_iter().flatten());
            stream.extend(content);
        }
    }
    (stream, starts)
}

/// What a conversion in pieces answers and writes, and how much of the input it has read.
fn in_pieces(decls: &[u8], from: Rows, to: Rows, input: &[u8], room: usize) -> (Five, usize, Vec<u8>) {
    let (mut bytes, mut rows, mut read) = (Vec::new(), 0, 0);
    let converted = convert_pieces(decls, from, to, input, room, |piece| {
        assert!(piece.rows > rows && piece.read > read, "each piece has a row");
        (rows, read) = (piece.rows, piece.read);
        bytes.extend_from_slice(piece.bytes);
        Ok(())
    });
    let read = converted.as_ref().map_or_else(|error| error.refused().map_or(0, |refused| refused.offset), |_| input.len());
    (five_of(converted), read, bytes)
}

/// Pieces, a Vec and a stream give what one call gives; answers that, with how much of the input was read.
fn assert_same(decls: &[u8], from: Rows, to: Rows, input: &[u8], room: usize) -> (Five, usize) {
    let (answer, whole) = in_one_call(decls, from, to, input);
    let (converted, read, pieces) = in_pieces(decls, from, to, input, room);
    let told = format!("{from} to {to}, room {room}, {} bytes", input.len());
    assert_eq!(converted, five(answer), "{told}");
    assert!(pieces == whole, "{told}: other bytes");
    assert_eq!(read, answer.map_or_else(|refused| refused.offset, |_| input.len()), "{told}");
    let mut bytes = Vec::new();
    assert_eq!((five_of(convert_to_vec(decls, from, to, input, &mut bytes)), &bytes), (converted, &whole), "{told}");
    bytes.clear();
    assert_eq!((five_of(convert_stream(decls, from, to, input, &mut bytes)), &bytes), (converted, &whole), "{told}");
    (converted, read)
}

#[test]
fn pieces_are_what_one_call_writes() {
    let (stream, _) = rows_of_shapes(300);
    for (from, to) in ways() {
        let input = good(SHAPES, Rows::Binary2, from, &stream);
        for room in [0, 1, 60, 100, 500, 1000, 10_000, 1 << 20] {
            let ([number, _, _, rows, _], read) = assert_same(SHAPES, from, to, &input, room);
            assert_eq!((number, rows, read), (0, 300, input.len()));
        }
    }
    // The same with bytes of no kind under the flags.
    for to in Rows::ALL {
        assert_eq!(assert_same(SHAPES, Rows::Binary2, *to, &stream, 700).0[3], 300);
    }
}

#[test]
fn pieces_of_even_rows_are_what_one_call_writes() {
    let decls = b"<FIELD datatype='int'/><FIELD datatype='bit' arraysize='9'/><FIELD datatype='char' arraysize='3'/>";
    let binary: Vec<u8> = (0..500u32).flat_map(|row| [&row.to_be_bytes()[..], &[0x5A, 0x80], b"a&b"].concat()).collect();
    for (from, to) in ways() {
        let input = good(decls, Rows::Binary, from, &binary);
        for room in [1, 30, 77, 4000] {
            assert_eq!(assert_same(decls, from, to, &input, room).0[3], 500);
        }
    }
}

#[test]
fn pieces_of_an_input_cut_at_each_byte() {
    let (stream, starts) = rows_of_shapes(12);
    for (from, to) in ways() {
        let input = if from == Rows::Binary2 { stream.clone() } else { good(SHAPES, Rows::Binary2, from, &stream) };
        for cut in 0..input.len() {
            let ([number, row, ..], read) = assert_same(SHAPES, from, to, &input[..cut], 150);
            if from == Rows::Binary2 && number != 0 {
                assert_eq!(read, starts[row as usize], "where the cut row begins");
            }
        }
    }
}

#[test]
fn pieces_with_a_damaged_row_in_the_middle() {
    let decls = b"<FIELD datatype='int'/><FIELD datatype='char' arraysize='*'/>";
    let good = "<TR><TD>1</TD><TD>fog</TD></TR>\n";
    let bad = [
        ("<TR><TD>1.5</TD><TD>fog</TD></TR>", 11, 0),
        ("<TR><TD>2147483648</TD><TD>fog</TD></TR>", 18, 0),
        ("<TR><TD>1</TD></TR>", 10, 1),
        ("<TR><TD>1</TD><TD>a</TD><TD/></TR>", 10, 2),
        ("<TR><TD>1</TD><TD>a</TD></TS>", 10, 2),
        ("<TR><TD>1 2</TD><TD>a</TD></TR>", 12, 0),
        ("</TR>", 10, 0),
        ("<TR><TD/><TD/></TR>", 15, 0),
    ];
    for (row, number, column) in bad {
        for before in [0, 1, 40] {
            let input = [good.repeat(before), row.to_string(), good.repeat(40)].concat();
            for room in [1, 20, 90, 5000] {
                let (answer, read) = assert_same(decls, Rows::TableData, Rows::Binary, input.as_bytes(), room);
                assert_eq!(answer[..3], [number, before as u64, column], "{row}");
                // The line feed behind a row belongs to the next.
                assert_eq!(read, (good.len() * before).saturating_sub(1), "{row}");
            }
        }
    }
}

#[test]
fn pieces_of_text_with_white_space_everywhere() {
    let decls = b"<FIELD datatype='int'/><FIELD datatype='char' arraysize='*'/>";
    let row = "\r\n<TR\t>\n <TD >1</TD\n> <TD>/TR>&#38; </TD>\n</TR \t\n> \n";
    let input = row.repeat(50) + "   \n\t\r\n";
    for to in Rows::ALL {
        for room in [1, 33, 1000] {
            let ([number, _, _, rows, _], read) = assert_same(decls, Rows::TableData, *to, input.as_bytes(), room);
            assert_eq!((number, rows, read), (0, 50, input.len()));
        }
    }
}

/// Rows as a logger on Windows writes them: every line ends in 13 10, in a text and among numbers, too.
const WINDOWS_FIELDS: &[u8] = b"<FIELD name='sky' datatype='short'><VALUES null='-99'/></FIELD>\r\n\
    <FIELD name='note' datatype='char' arraysize='*'/>\r\n<FIELD name='site' datatype='char' arraysize='3'/>\r\n\
    <FIELD name='counts' datatype='int' arraysize='3*'/>\r\n<FIELD name='open' datatype='bit' arraysize='4'/>\r\n\
    <FIELD name='clear' datatype='boolean' arraysize='2'/>\r\n";
const WINDOWS: &str = "<TR>\r\n  <TD>7</TD>\r\n  <TD>wind\r\n\r\nfrom west\r\n</TD>\r\n  <TD>a\r\nb</TD>\r\n\
    <TD>1\r\n2\r\n3</TD>\r\n  <TD>\r\n0110\r\n</TD>\r\n  <TD>T\r\n?</TD>\r\n</TR>\r\n\
    <TR\r\n><TD>\r\n-99\r\n</TD><TD>&#13;\r\n</TD><TD/><TD>\r\n</TD><TD/><TD/></TR>\r\n";
const WINDOWS_BINARY2: &[u8] = b"\x00\x00\x07\x00\x00\x00\x10wind\n\nfrom west\na\nb\
    \x00\x00\x00\x03\x00\x00\x00\x01\x00\x00\x00\x02\x00\x00\x00\x03\x60T?\
    \xBC\x00\x00\x00\x00\x00\x02\r\n\x00\x00\x00\x00\x00\x00\x00\x00\x00\x00";
const WINDOWS_BACK: &str = "<TR><TD>7</TD><TD>wind\n\nfrom west\n</TD><TD>a\nb</TD><TD>1 2 3</TD><TD>0110</TD><TD>T ?</TD></TR>\n\
    <TR><TD/><TD>&#xD;\n</TD><TD/><TD/><TD/><TD/></TR>\n";

#[test]
fn a_night_as_windows_writes_it_goes_to_binary2_and_back() {
    // Each line end as it stands, as a 10, and as a 13.
    for line_end in ["\r\n", "\n", "\r"] {
        let input = WINDOWS.replace("\r\n", line_end);
        assert_eq!(good(WINDOWS_FIELDS, Rows::TableData, Rows::Binary2, input.as_bytes()), WINDOWS_BINARY2, "{input:?}");
        assert_eq!(good(WINDOWS_FIELDS, Rows::TableData, Rows::TableData, input.as_bytes()), WINDOWS_BACK.as_bytes(), "{input:?}");
    }
    for (input, to) in [(WINDOWS_BINARY2, Rows::TableData), (WINDOWS_BACK.as_bytes(), Rows::Binary2)] {
        let (from, output) =
            if to == Rows::TableData { (Rows::Binary2, WINDOWS_BACK.as_bytes()) } else { (Rows::TableData, WINDOWS_BINARY2) };
        assert_eq!(good(WINDOWS_FIELDS, from, to, input), output, "{from} to {to}");
    }
}

#[test]
fn pieces_of_a_night_as_windows_writes_it() {
    let (input, rows) = (WINDOWS.repeat(20), 40);
    for room in [1, 33, 60, 100, 1000] {
        for to in [Rows::TableData, Rows::Binary2] {
            let (answer, read) = assert_same(WINDOWS_FIELDS, Rows::TableData, to, input.as_bytes(), room);
            let output = if to == Rows::TableData { WINDOWS_BACK.as_bytes() } else { WINDOWS_BINARY2 }.repeat(20);
            assert_eq!((answer, read), ([0, 0, 0, rows, output.len() as u64], input.len()));
            assert_eq!(in_pieces(WINDOWS_FIELDS, Rows::TableData, to, input.as_bytes(), room).2, output);
        }
    }
    // Cut anywhere, between 13 and 10 too, the rows before stand and the rest goes on from the row that is cut.
    let whole = good(WINDOWS_FIELDS, Rows::TableData, Rows::Binary2, WINDOWS.as_bytes());
    for cut in 0..WINDOWS.len() {
        let (_, read, mut bytes) = in_pieces(WINDOWS_FIELDS, Rows::TableData, Rows::Binary2, &WINDOWS.as_bytes()[..cut], 1);
        bytes.extend(good(WINDOWS_FIELDS, Rows::TableData, Rows::Binary2, &WINDOWS.as_bytes()[read..]));
        assert_eq!(bytes, whole, "cut at {cut}");
    }
}

#[test]
fn pieces_where_nothing_is_read() {
    for (decls, input, number) in [(&b"<FIELD/>"[..], BINARY, 1), (FIELDS, b"", 0), (b"", b"", 5)] {
        let (converted, read, bytes) = in_pieces(decls, Rows::Binary, Rows::TableData, input, 1);
        assert_eq!((converted, read, bytes.len()), ([number, 0, 0, 0, 0], 0, 0));
    }
}

#[test]
fn an_error_of_the_sink_ends_the_conversion() {
    let mut pieces = 0;
    let ended = convert_pieces(FIELDS, Rows::Binary, Rows::Binary2, BINARY, 8, |_| {
        pieces += 1;
        Err(io::Error::from(io::ErrorKind::StorageFull))
    });
    assert!(matches!(ended, Err(Error::System(cause)) if cause.kind() == io::ErrorKind::StorageFull));
    assert_eq!(pieces, 1);
}

/// A reader that hands out at most `step` bytes at a time and counts what it handed out.
struct Slow<'a> {
    bytes: &'a [u8],
    step: usize,
    read: usize,
}

impl Read for Slow<'_> {
    fn read(&mut self, out: &mut [u8]) -> io::Result<usize> {
        let most = self.step.min(out.len());
        let count = (&self.bytes[self.read..]).read(&mut out[..most])?;
        self.read += count;
        Ok(count)
    }
}

#[test]
fn a_reader_is_read_whole_but_no_further_than_its_limit() {
    let bytes: Vec<u8> = (0..300_000).map(|number: u32| (number / 11) as u8).collect();
    for step in [1000, 70_000, 1 << 20] {
        for expected in [0, 5, 299_999, 300_000, 400_000] {
            for limit in [300_001, 300_000, 299_999, 65_536, 10, 0] {
                let mut slow = Slow { bytes: &bytes, step, read: 0 };
                let read = read_input(&mut slow, expected, limit).expect("memory");
                assert!(read == bytes[..(limit + 1).min(bytes.len())], "step {step}, expected {expected}, limit {limit}");
                assert_eq!(slow.read, read.len(), "nothing is read and thrown away");
            }
        }
    }
}

#[test]
fn streams_go_from_readers_to_writers() {
    let mut text = Vec::new();
    let done = convert_stream(FIELDS, Rows::Binary2, Rows::TableData, Slow { bytes: BINARY2, step: 3, read: 0 }, &mut text);
    assert_eq!((five_of(done), &text[..]), ([0, 0, 0, 2, 79], TABLEDATA));
    let mut letters = Vec::new();
    assert_eq!(five_of(base64_encode_stream(BINARY2, &mut letters, 0)), [0, 0, 0, 0, 24]);
    assert_eq!(letters, b"AAAHYSZiAFSgAABkdXNrAA==");
    let mut lines = Vec::new();
    assert_eq!(five_of(base64_encode_stream(BINARY2, &mut lines, 10)), [0, 0, 0, 0, 27]);
    assert_eq!(lines, b"AAAHYSZiAF\nSgAABkdXNr\nAA==\n");
    let mut bytes = Vec::new();
    assert_eq!(five_of(base64_decode_stream(&lines[..], &mut bytes)), [0, 0, 0, 0, 16]);
    assert_eq!(bytes, BINARY2);
    assert_eq!(five_of(base64_decode_stream(&lines[1..], &mut bytes)), [7, 0, 0, 0, 0]);
    assert_eq!(bytes, BINARY2, "a refusal writes nothing");
}

#[test]
fn a_stream_over_its_size_is_refused() {
    let long = || io::repeat(b'A').take(INPUT_LIMIT as u64 + 5);
    let mut written = Vec::new();
    assert_eq!(five_of(convert_stream(FIELDS, Rows::Binary, Rows::Binary2, long(), &mut written)), [6, 0, 0, 0, 0]);
    assert_eq!(five_of(base64_encode_stream(long(), &mut written, 0)), [6, 0, 0, 0, 0]);
    assert_eq!(five_of(base64_decode_stream(long(), &mut written)), [6, 0, 0, 0, 0]);
    assert_eq!(written, b"");
}

#[test]
fn a_reader_or_a_writer_that_fails_is_told_from_a_refusal() {
    struct Broken;
    impl Read for Broken {
        fn read(&mut self, _: &mut [u8]) -> io::Result<usize> {
            Err(io::ErrorKind::ConnectionReset.into())
        }
    }
    impl Write for Broken {
        fn write(&mut self, _: &[u8]) -> io::Result<usize> {
            Err(io::ErrorKind::StorageFull.into())
        }
        fn flush(&mut self) -> io::Result<()> {
            Ok(())
        }
    }
    let kind = |ended: Result<Done, Error>| match ended {
        Err(Error::System(cause)) => cause.kind(),
        other => panic!("trouble, and not {other:?}"),
    };
    assert_eq!(kind(convert_stream(FIELDS, Rows::Binary, Rows::Binary2, Broken, Vec::new())), io::ErrorKind::ConnectionReset);
    assert_eq!(kind(convert_stream(FIELDS, Rows::Binary, Rows::Binary2, BINARY, Broken)), io::ErrorKind::StorageFull);
    assert_eq!(kind(base64_encode_stream(BINARY, Broken, 76)), io::ErrorKind::StorageFull);
}

/// Takes so many bytes, fails once, and takes everything from then on.
struct Stumbling {
    taken: Vec<u8>,
    good: usize,
    failed: bool,
}

impl Write for Stumbling {
    fn write(&mut self, bytes: &[u8]) -> io::Result<usize> {
        let room = if self.failed { bytes.len() } else { bytes.len().min(self.good - self.taken.len()) };
        if room == 0 {
            self.failed = true;
            return Err(io::ErrorKind::WouldBlock.into());
        }
        self.taken.extend_from_slice(&bytes[..room]);
        Ok(room)
    }

    fn flush(&mut self) -> io::Result<()> {
        Ok(())
    }
}

#[test]
fn base64_whose_writer_has_failed_once_does_not_end_well() {
    for wrap in [0, 76] {
        for good in [0, 500, 70_000] {
            let mut letters = Base64Writer::new(Stumbling { taken: vec![], good, failed: false }, wrap).expect("memory");
            let written = (0..200).try_for_each(|_| letters.write_all(&[7; 1000]));
            assert_eq!(written.map_err(|cause| cause.kind()), Err(io::ErrorKind::WouldBlock), "{good}");
            assert!(letters.write(&[7]).is_err() && letters.finish().is_err(), "{good}");
        }
    }
}

#[test]
fn an_error_is_shown_once() {
    let mut said = Vec::new();
    let error = convert_to_vec(FIELDS, Rows::Binary, Rows::Binary2, b"cut", &mut Vec::new()).expect_err("it is cut");
    let mut next: Option<&dyn std::error::Error> = Some(&error);
    while let Some(error) = next {
        said.push(error.to_string());
        next = error.source();
    }
    assert_eq!(said, ["refusal 8 at row 0, column 1: the BINARY or BINARY2 stream ends inside a row"]);
}
