//! Tables of several megabytes, and the greatest input there may be.

use super::archive;
use super::compare::{agree_on_decoding, agree_on_encoding, seeds, Case};
use crate::generate::columns::{declarations, some};
use crate::generate::rows::{spelled, table};
use crate::generate::Random;
use crate::model::converter::{Rows, EVERY_KIND_OF_ROWS};
use crate::model::{Column, MOST_INPUT};

/// Twenty columns whose cells have a form everywhere, so that every way goes through to the end.
fn wide(random: &mut Random) -> Vec<Column> {
    let mut columns = some(random, 80, 80);
    columns.retain(crate::generate::cells::null_has_a_form_in_binary);
    columns.truncate(20);
    columns
}

#[test]
fn several_megabytes_in_all_nine_ways() {
    for seed in seeds(50_000_000, 1) {
        let mut random = Random::new(seed);
        let columns = wide(&mut random);
        let text = declarations(&columns);
        let mut table = table(&mut random, &columns, Rows::TableData, 500);
        while spelled(&mut Random::new(seed), &columns, Rows::Binary, &table).len() < 3_000_000 {
            table.extend(table.clone());
        }
        for from in EVERY_KIND_OF_ROWS {
            let input = spelled(&mut random, &columns, from, &table);
            for to in EVERY_KIND_OF_ROWS {
                let case = Case { declarations: &text, from, to, input: &input, seed };
                let needed = case.with_room_enough().bytes.len();
                assert_eq!(case.agree(needed), [0, 0, 0, table.len() as u64, needed as u64], "{from:?} to {to:?}");
            }
        }
    }
}

#[test]
fn megabytes_of_base64() {
    for size in [3_000_000, 3_000_001, 3_000_002] {
        let plain = Random::new(size).bytes(size as usize);
        let letters = crate::model::base64::encode(&plain, usize::MAX).bytes;
        assert_eq!(agree_on_encoding(&plain, letters.len(), size)[0], 0);
        assert_eq!(agree_on_decoding(&letters, plain.len(), size)[0], 0);
        // As it stands in a document: lines of 76 letters.
        let lines: Vec<u8> = letters.chunks(76).flat_map(|line| [line, b"\n"].concat()).collect();
        assert_eq!(agree_on_decoding(&lines, plain.len() + 9, size)[0], 0);
        assert_eq!(agree_on_decoding(&lines[..lines.len() - 2], plain.len(), size)[0], 7);
    }
}

/// Zeros that take no memory until they are written to.
fn zeros(size: usize) -> Vec<u8> {
    vec![0; size]
}

/// Calls with a small room; what is not written must stay.
fn in_room<const N: usize>(room: usize, call: impl Fn(&mut [u8]) -> [u64; N]) -> ([u64; N], Vec<u8>) {
    let mut out = vec![0xab; room];
    let answer = call(&mut out);
    let written = answer[4] as usize;
    assert!(out[written..].iter().all(|byte| *byte == 0xab));
    out.truncate(written);
    (answer, out)
}

#[test]
fn one_byte_over_the_greatest_input_is_refused() {
    let input = zeros(MOST_INPUT + 1);
    let over_size = ([6, 0, 0, 0, 0], Vec::new());
    let field = b"<FIELD datatype='char' arraysize='4096'/>";
    for from in 0..3 {
        for to in 0..3 {
            assert_eq!(in_room(9_000, |out| archive::convert(field, from, to, &input, out)), over_size);
            assert_eq!(in_room(9_000, |out| archive::convert_piece(field, from, to, &input, out)), ([6, 0, 0, 0, 0, 0], Vec::new()));
            // The declarations are judged first, whatever the input.
            assert_eq!(in_room(9, |out| archive::convert(b"<FIELD", from, to, &input, out)), ([1, 0, 0, 0, 0], Vec::new()));
            assert_eq!(in_room(9, |out| archive::convert_piece(b"<FIELD", from, to, &input, out)), ([1, 0, 0, 0, 0, 0], Vec::new()));
        }
    }
    for from in [1, 2] {
        let mut starts = [77; 3];
        assert_eq!(archive::index(field, from, &input, &mut starts), [6, 0, 0, 0, 0]);
        assert_eq!(archive::index(b"<FIELD", from, &input, &mut starts), [1, 0, 0, 0, 0]);
        assert_eq!(starts, [77; 3]);
        // Before the row is judged, be there one or not.
        for row in [0, 9] {
            assert_eq!(in_room(90, |out| archive::fetch(field, from, &input, &[0], 5, row, out)), over_size);
        }
    }
    assert_eq!(in_room(100, |out| archive::base64_encode(&input, out)), over_size);
    assert_eq!(in_room(100, |out| archive::base64_decode(&input, out)), over_size);
}

#[test]
fn one_byte_over_the_greatest_input_is_refused_as_either_of_two() {
    let (input, field) = (zeros(MOST_INPUT + 1), b"<FIELD datatype='short'/>");
    let mut places = [77; 4];
    let mut compare = |decls: &[u8], from, inputs| {
        let answer = archive::compare(decls, from, inputs, &mut places);
        assert_eq!(places, [77; 4]);
        answer
    };
    for from in (0..9).map(|pair| [pair / 3, pair % 3]) {
        let bad: &[u8] = if from[0] == 0 { b"<TR><TD>x" } else { b"\0" };
        let answer = if from[0] == 0 { [10, 0, 0, 0, 0, 0, 0, 0] } else { [8, 0, 0, 0, 0, 0, 0, 0] };
        assert_eq!(compare(field, from, [&input, b""]), [6, 0, 0, 0, 0, 0, 0, 0]);
        assert_eq!(compare(field, from, [&input, &input]), [6, 0, 0, 0, 0, 0, 0, 0]);
        assert_eq!(compare(field, from, [b"", &input]), [6, 0, 0, 1, 0, 0, 0, 0]);
        // The first is judged to its last row before the second's size is.
        assert_eq!(compare(field, from, [bad, &input]), answer);
        assert_eq!(compare(field, from, [&input, bad]), [6, 0, 0, 0, 0, 0, 0, 0]);
        assert_eq!(compare(b"<FIELD", from, [&input, &input]), [1, 0, 0, 0, 0, 0, 0, 0]);
    }
    assert_eq!(compare(field, [0, 3], [&input, &input]), [255, 0, 0, 0, 0, 0, 0, 0]);
}

#[test]
fn the_greatest_inputs_are_compared() {
    let (mut input, field) = (zeros(MOST_INPUT), b"<FIELD datatype='char' arraysize='4096'/>");
    let (night, rows) = (zeros(MOST_INPUT), MOST_INPUT / 4096);
    let mut places = [77; 5];
    assert_eq!(archive::compare(field, [1, 1], [&night, &input], &mut places), [0; 8]);
    assert_eq!(places, [77; 5]);
    // The first and the last row, and what stands behind a NUL of another.
    [0, 4096 + 5, MOST_INPUT - 4096].into_iter().for_each(|byte| input[byte] = b'x');
    assert_eq!(archive::compare(field, [1, 1], [&night, &input], &mut places), [0, 0, 0, 0, 2, 0, 0, 2]);
    assert_eq!(places, [0, 0, rows as u32 - 1, 0, 77]);
    assert_eq!(archive::compare(field, [1, 1], [&night[4096..], &input], &mut places[..1]), [0, 0, 0, 0, 1, 0, 1, 0]);
}

#[test]
fn the_greatest_input_is_indexed() {
    let (input, field) = (zeros(MOST_INPUT), b"<FIELD datatype='char' arraysize='4096'/>");
    let rows = MOST_INPUT / 4096;
    let mut starts = vec![77; rows / 64 + 1];
    assert_eq!(archive::index(field, 1, &input, &mut starts), [0, 0, 0, rows as u64, 0]);
    assert!(starts[..rows / 64].iter().enumerate().all(|(place, start)| *start as usize == place * 64 * 4096) && starts[rows / 64] == 77);
    for row in [0, 1, 63, 64, rows - 65, rows - 64, rows - 1] {
        let call = |out: &mut [u8]| archive::fetch(field, 1, &input, &starts, rows as u64, row as u64, out);
        assert_eq!(in_room(20, call), ([0, 0, 0, 1, 15], b"<TR><TD/></TR>\n".to_vec()));
    }
    let rows = rows as u64;
    assert_eq!(in_room(20, |out| archive::fetch(field, 1, &input, &starts, rows, rows, out)), ([20, rows, 0, 0, 0], Vec::new()));
}

#[test]
fn the_greatest_input_is_taken() {
    let input = zeros(MOST_INPUT);
    // 262,144 rows, each one fixed text of NULs: null in BINARY.
    let field = b"<FIELD datatype='char' arraysize='4096'/>";
    let rows = MOST_INPUT / 4096;
    let line = b"<TR><TD/></TR>\n";
    let call = |out: &mut [u8]| archive::convert_piece(field, 1, 0, &input, out);
    let (answer, out) = in_room(rows * line.len() + 3, call);
    assert_eq!(answer, [0, 0, 0, rows as u64, (rows * line.len()) as u64, MOST_INPUT as u64]);
    assert!(out == line.repeat(rows));
    let (answer, _) = in_room(10 * line.len() + 3, call);
    assert_eq!(answer, [17, 10, 0, 10, 150, 40_960]);
    assert_eq!(in_room(100, |out| archive::base64_encode(&input, out)).0, [17, 0, 0, 0, 0]);
    assert_eq!(in_room(100, |out| archive::base64_decode(&input, out)).0, [7, 0, 0, 0, 0]);
}
