//! Where the rows done end, and that a table goes on from there: with new room, or with what has come since.

use super::compare::{agree_by_numbers, seeds, Case};
use crate::generate::columns::{column, declarations, some, EVERY_KIND};
use crate::generate::damage::damaged;
use crate::generate::rows::{spelled, table};
use crate::generate::Random;
use crate::model::converter::{Piece, Rows, EVERY_KIND_OF_ROWS};
use crate::model::text::is_white_space;
use crate::model::{Length, Written};
use Rows::{Binary, Binary2, TableData};

const SHORT: &str = "<FIELD datatype='short'/>";
const TEXT: &str = "<FIELD datatype='char' arraysize='*'/>";

/// Holds both implementations to these six numbers.
fn tells(fields: &str, from: Rows, to: Rows, input: &[u8], room: usize, six: [u64; 6]) {
    let case = Case { declarations: fields.as_bytes(), from, to, input, seed: 0 };
    let told = format!("{fields} from {from:?} to {to:?} in {room}: {}", input.escape_ascii());
    assert_eq!(case.agree_on_piece(room).six(), six, "{told}");
}

#[test]
fn white_space_before_a_refused_row_belongs_to_it() {
    let refused = [
        ("<TR><TD>x</TD></TR>", 11, 0),
        ("<TR><TD>99999</TD></TR>", 18, 0),
        ("<td>", 10, 0),
        ("<TR><TD>7</TD>\n</TR", 10, 1),
        ("<TR>\n<TD>7 8</TD></TR>", 12, 0),
    ];
    for (to, bytes) in [(TableData, 20), (Binary, 2), (Binary2, 3)] {
        for (space, before) in [("", 0), (" \t", 2), ("\r\n\r\n ", 5)] {
            for (row, number, column) in refused {
                tells(SHORT, TableData, to, format!("{space}{row}").as_bytes(), 90, [number, 0, column, 0, 0, 0]);
                let input = format!("{space}<TR><TD>7</TD></TR\n>{space}{row}{space}");
                tells(SHORT, TableData, to, input.as_bytes(), 90, [number, 1, column, 1, bytes, before + 20]);
            }
        }
    }
}

#[test]
fn white_space_behind_the_last_row_is_read_with_it() {
    for space in ["", "\n", "\t \r\n "] {
        let input = format!("<TR><TD>7</TD></TR>{space}");
        tells(SHORT, TableData, Binary, input.as_bytes(), 2, [0, 0, 0, 1, 2, input.len() as u64]);
        tells(SHORT, TableData, Binary, space.as_bytes(), 2, [0, 0, 0, 0, 0, space.len() as u64]);
    }
}

#[test]
fn a_row_without_room_begins_where_the_rows_before_it_end() {
    let row = b"<TR><TD>7</TD></TR>";
    for (room, six) in [(0, [17, 0, 0, 0, 0, 0]), (19, [17, 0, 0, 0, 0, 0]), (20, [17, 1, 0, 1, 20, 2]), (39, [17, 1, 0, 1, 20, 2])] {
        tells(SHORT, Binary, TableData, b"\0\x07\0\x08\0\x09", room, six);
    }
    tells(SHORT, Binary, TableData, b"\0\x07\0\x08\0\x09", 40, [17, 2, 0, 2, 40, 4]);
    tells(SHORT, Binary, TableData, b"\0\x07\0\x08\0\x09", 60, [0, 0, 0, 3, 60, 6]);
    let rows = [&b"\n"[..], row, b" \n", row, b"\t", row, b"\n"].concat();
    for (room, six) in [(1, [17, 0, 0, 0, 0, 0]), (2, [17, 1, 0, 1, 2, 20]), (5, [17, 2, 0, 2, 4, 41]), (6, [0, 0, 0, 3, 6, 62])] {
        tells(SHORT, TableData, Binary, &rows, room, six);
    }
    // A row is read whole before it is written: where the last one is cut, that is its refusal, in any room.
    for room in [4, 5] {
        tells(SHORT, TableData, Binary, &rows[..60], room, [10, 2, 1, 2, 4, 41]);
    }
}

#[test]
fn a_row_without_a_form_begins_where_the_rows_before_it_end() {
    tells(SHORT, TableData, Binary, b"<TR><TD>7</TD></TR> <TR><TD/></TR> <TR><TD>8</TD></TR>", 99, [15, 1, 0, 1, 2, 19]);
    tells(TEXT, Binary2, TableData, b"\0\0\0\0\x01a\0\0\0\0\0\0\0\0\0\x01b", 99, [14, 1, 0, 1, 20, 6]);
    tells(TEXT, Binary2, Binary, b"\0\0\0\0\x01a\0\0\0\0\0\0\0\0\0\x01b", 99, [14, 1, 0, 1, 5, 6]);
    tells(TEXT, Binary, TableData, b"\0\0\0\x01a\0\0\0\x02\x1fc\0\0\0\x01b", 99, [16, 1, 0, 1, 20, 5]);
}

#[test]
fn before_any_row_the_place_is_0() {
    for from in EVERY_KIND_OF_ROWS {
        for to in EVERY_KIND_OF_ROWS {
            for input in [&b""[..], b" <TR><TD>7</TD></TR>", b"\0\x07", b"\0\0\x07"] {
                tells("<FIELD", from, to, input, 40, [1, 0, 0, 0, 0, 0]);
                tells("", from, to, input, 40, [5, 0, 0, 0, 0, 0]);
                tells(&format!("{SHORT}<FIELD datatype='float'/>"), from, to, input, 40, [2, 0, 1, 0, 0, 0]);
                tells(&" ".repeat(65_537), from, to, input, 40, [6, 0, 0, 0, 0, 0]);
            }
            for room in [0, 40] {
                tells(SHORT, from, to, b"", room, [0; 6]);
            }
        }
    }
}

#[test]
fn a_number_of_no_kind_of_rows_is_refused_before_all_else() {
    for (from, to) in [(3, 0), (0, 3), (2, 255), (u32::MAX, 1), (3, 4), (1 << 8, 1 << 16)] {
        for declarations in [SHORT, "", "<FIELD"] {
            for input in [&b""[..], b"<TR><TD>7</TD></TR>", b"\0\x07"] {
                let piece = agree_by_numbers(declarations.as_bytes(), from, to, input, 40, 0);
                assert_eq!(piece.six(), [255, 0, 0, 0, 0, 0]);
            }
        }
    }
    assert_eq!(agree_by_numbers(SHORT.as_bytes(), 1, 2, b"\0\x07\0", 40, 0).six(), [8, 1, 0, 1, 3, 2]);
}

/// What two calls answer and write together, the second on the input behind the place of the first.
fn together(first: Piece, second: Piece) -> Piece {
    let ([.., rows, _], [number, row, column, more, _]) = (first.written.answer, second.written.answer);
    let bytes = [first.written.bytes, second.written.bytes].concat();
    let row = if number == 0 { 0 } else { rows + row };
    let answer = [number, row, column, rows + more, bytes.len() as u64];
    Piece { written: Written { answer, bytes }, place: first.place + second.place }
}

/// Calls again and again, each time behind the rows done and with so much new room, or room for all where a row needs more.
fn in_rooms(case: Case, room: usize, enough: usize) -> Piece {
    let mut all = case.agree_on_piece(room);
    let mut done = all.written.answer[3];
    while all.written.answer[0] == 17 {
        let next = Case { input: &case.input[all.place..], ..case }.agree_on_piece(if done == 0 { enough } else { room });
        done = next.written.answer[3];
        all = together(all, next);
    }
    all
}

/// Four short rows, in some of the seeds damaged, in every kind that they can be in; handed out with what one call says.
fn small_nights(seed: u64, each: impl Fn(Case, Piece)) {
    let mut random = Random::new(seed);
    let mut columns = some(&mut random, 1, 3);
    columns.retain(|column| column.bound() < 20);
    columns.push(column(random.pick(&EVERY_KIND), Length::Bounded(9)));
    let text = declarations(&columns);
    for from in EVERY_KIND_OF_ROWS {
        let table = table(&mut random, &columns, from, 4);
        let good = spelled(&mut random, &columns, from, &table);
        let input = if seed.is_multiple_of(3) { damaged(&mut random, &good) } else { good };
        for to in EVERY_KIND_OF_ROWS {
            let case = Case { declarations: &text, from, to, input: &input, seed };
            let whole = case.agree_on_piece(case.with_room_enough().bytes.len());
            each(case, whole);
        }
    }
}

#[test]
fn new_room_of_any_size_goes_on_to_what_one_call_gives() {
    for seed in seeds(80_000_000, 20) {
        small_nights(seed, |case, whole| {
            let enough = whole.written.bytes.len();
            for room in 0..=enough {
                assert_eq!(in_rooms(case, room, enough), whole, "seed {seed}, room {room}: {}", case.input.escape_ascii());
            }
        });
    }
}

#[test]
fn a_table_that_comes_in_two_parts_goes_on_to_what_one_call_gives() {
    for seed in seeds(81_000_000, 40) {
        small_nights(seed, |case, whole| {
            let enough = whole.written.bytes.len();
            for cut in 0..=case.input.len() {
                let front = Case { input: &case.input[..cut], ..case }.agree_on_piece(enough);
                let rest = Case { input: &case.input[front.place..], ..case }.agree_on_piece(enough - front.written.bytes.len());
                let both = together(front, rest);
                let told = format!("seed {seed}, cut at {cut}: {}", case.input.escape_ascii());
                assert_eq!(both.written, whole.written, "{told}");
                // A front that ends in white space is accepted with it, and the refused row behind it begins without.
                assert!(case.input[whole.place..both.place].iter().all(|byte| is_white_space(*byte)), "{told}");
            }
        });
    }
}
