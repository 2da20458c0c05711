//! Indexing a stream, and fetching a row by an index: by its own, by others, and by none that any stream has.

use super::archive;
use super::compare::{seeds, Case, Night};
use crate::generate::columns::{column, declarations, some, EVERY_KIND};
use crate::generate::damage::damaged;
use crate::generate::rows::{spelled, table};
use crate::generate::Random;
use crate::model::converter::{self, Rows};
use crate::model::index::Indexed;
use crate::model::{Column, Kind, Length};

const BINARIES: [Rows; 2] = [Rows::Binary, Rows::Binary2];

/// Around a start, around two, and many.
const COUNTS: [usize; 7] = [0, 1, 63, 64, 65, 128, 1_000];

/// Rows of one length, or each of another, whose cells have a form in TABLEDATA.
fn even_or_not(is_even: bool) -> Vec<Column> {
    let length = |bound| if is_even { Length::Fixed(bound) } else { Length::Bounded(bound) };
    let integer = Column { null: Some(-99), ..column(Kind::Short, Length::Fixed(1)) };
    vec![integer, column(Kind::Char, length(9)), column(Kind::Boolean, Length::Fixed(1)), column(Kind::Int, length(3))]
}

/// Rows of these columns that all have a form in TABLEDATA: drawn as rows of text are.
fn stream(random: &mut Random, columns: &[Column], from: Rows, count: usize) -> Vec<u8> {
    let mut rows = table(random, columns, Rows::TableData, count);
    for (place, column) in columns.iter().enumerate() {
        if from == Rows::Binary && !crate::generate::cells::null_has_a_form_in_binary(column) {
            let shown = column.shown(vec![0; column.bound()]);
            rows.iter_mut().for_each(|cells| cells[place] = shown.clone());
        }
    }
    spelled(random, columns, from, &rows)
}

/// Each row by its own fetch, together.
fn fetched(night: &Night, index: &Indexed, room: usize) -> Vec<u8> {
    let lines = (0..index.rows()).map(|row| {
        let line = night.agree_on_fetch(&index.starts, index.rows(), row, room);
        assert_eq!(line.answer, [0, 0, 0, 1, line.bytes.len() as u64], "row {row}");
        line.bytes
    });
    lines.collect::<Vec<_>>().concat()
}

#[test]
fn every_row_is_the_line_that_it_has_in_the_whole() {
    for seed in seeds(90_000_000, 2) {
        let mut random = Random::new(seed);
        for from in BINARIES {
            for (is_even, count) in [true, false].into_iter().flat_map(|is_even| COUNTS.map(|count| (is_even, count))) {
                let columns = even_or_not(is_even);
                let (text, input) = (declarations(&columns), stream(&mut random, &columns, from, count));
                let night = Night { declarations: &text, from: from.number(), input: &input, seed };
                let index = night.agree_on_index(count.div_ceil(64));
                assert_eq!(index.answer, [0, 0, 0, count as u64, 0], "seed {seed}");
                let whole = Case { declarations: &text, from, to: Rows::TableData, input: &input, seed }.with_room_enough();
                assert_eq!((whole.answer[0], whole.answer[3]), (0, count as u64), "seed {seed}");
                assert!(fetched(&night, &index, 300) == whole.bytes, "seed {seed}, {count} rows from {from:?}");
                for row in [count as u64, count as u64 + 1, count as u64 + 64, u64::MAX] {
                    assert_eq!(night.agree_on_fetch(&index.starts, count as u64, row, 300).answer, [20, row, 0, 0, 0]);
                }
            }
        }
    }
}

#[test]
fn places_none_one_short_exact_and_more() {
    let mut random = Random::new(91_000_000);
    for from in BINARIES {
        for (is_even, count) in [true, false].into_iter().flat_map(|is_even| COUNTS.map(|count| (is_even, count))) {
            let columns = even_or_not(is_even);
            let (text, input) = (declarations(&columns), stream(&mut random, &columns, from, count));
            let night = Night { declarations: &text, from: from.number(), input: &input, seed: 0 };
            let exact = count.div_ceil(64);
            for places in 0..=exact + 2 {
                let index = night.agree_on_index(places);
                let expected = match places < exact {
                    true => [17, 64 * places as u64, 0, 64 * places as u64, 0],
                    false => [0, 0, 0, count as u64, 0],
                };
                assert_eq!(index.answer, expected, "{count} rows in {places} places");
                // What was filled serves, as far as it goes.
                for row in [index.rows().wrapping_sub(1), index.rows()] {
                    let number = if row < index.rows() { 0 } else { 20 };
                    assert_eq!(night.agree_on_fetch(&index.starts, index.rows(), row, 300).answer[0], number);
                }
            }
        }
    }
}

/// A row of each refusal that reading gives, behind columns that are good; its number and column.
fn bad_rows(from: Rows) -> Vec<(Vec<u8>, u64, u64)> {
    let flags: &[u8] = if from == Rows::Binary2 { b"\0" } else { b"" };
    let rows: [(&[u8], u64, u64); 6] = [
        (b"\0", 8, 0),
        (b"\0\x07\0\0", 8, 1),
        (b"\0\x07\0\0\0\x0a", 9, 1),
        (b"\0\x07\0\0\0\x02a\x80T\0\0\0\0", 11, 1),
        (b"\0\x07\0\0\0\x02abX\0\0\0\0", 11, 2),
        (b"\0\x07\0\0\0\x02abT\0\0\0\x01\0\0\0", 8, 3),
    ];
    let mut bad: Vec<_> = rows.iter().map(|(row, number, column)| ([flags, row].concat(), *number, *column)).collect();
    if from == Rows::Binary2 {
        bad.push((b"\x08\0\x07".to_vec(), 13, 0));
    }
    bad
}

#[test]
fn refused_in_reading_as_converting_is_and_the_rows_before_can_be_fetched() {
    let mut random = Random::new(92_000_000);
    let columns = even_or_not(false);
    let text = declarations(&columns);
    for from in BINARIES {
        for before in [0, 1, 63, 64, 65, 128] {
            let good = stream(&mut random, &columns, from, before);
            let whole = Case { declarations: &text, from, to: Rows::TableData, input: &good, seed: 0 }.with_room_enough();
            for (bad, number, column) in bad_rows(from) {
                let input = [&good[..], &bad].concat();
                let night = Night { declarations: &text, from: from.number(), input: &input, seed: 0 };
                let places = before.div_ceil(64);
                let index = night.agree_on_index(places + 1);
                assert_eq!(index.answer, [number, before as u64, column, before as u64, 0]);
                assert_eq!(index.starts.len(), places, "where row 64k is refused, place k is untouched");
                // The refused row is refused for what it is, place or no place.
                assert_eq!(night.agree_on_index(places), index);
                let converted = Case { declarations: &text, from, to: Rows::Binary2, input: &input, seed: 0 }.agree(20_000);
                assert_eq!(converted[..4], index.answer[..4]);
                assert!(fetched(&night, &index, 300) == whole.bytes);
                assert_eq!(night.agree_on_fetch(&index.starts, index.rows(), before as u64, 300).answer[0], 20);
                // With a count that is one too many it is the row's own refusal, wherever it has a place.
                let answer = night.agree_on_fetch(&index.starts, index.rows() + 1, before as u64, 300).answer;
                let expected = if before % 64 == 0 { [20, before as u64, 0, 0, 0] } else { [number, before as u64, column, 0, 0] };
                assert_eq!(answer, expected);
            }
        }
    }
}

#[test]
fn a_row_is_what_it_is_in_a_stream_of_its_own_in_any_room() {
    let mut met = [0; 21];
    for seed in seeds(93_000_000, 60) {
        let mut random = Random::new(seed);
        let mut columns = some(&mut random, 1, 4);
        columns.retain(|column| column.bound() < 20);
        columns.push(column(random.pick(&EVERY_KIND), Length::Bounded(9)));
        let (text, from) = (declarations(&columns), random.pick(&BINARIES));
        let rows = table(&mut random, &columns, from, 70);
        let input = spelled(&mut random, &columns, from, &rows);
        let night = Night { declarations: &text, from: from.number(), input: &input, seed };
        let index = night.agree_on_index(2);
        let mut at = 0;
        for row in 0..70 {
            let (_, end) = converter::read_row(&columns, from, &input, at).expect("it reads").expect("it is there");
            let case = Case { declarations: &text, from, to: Rows::TableData, input: &input[at..end], seed };
            let needed = case.with_room_enough().bytes.len();
            for room in [0, needed.saturating_sub(1), needed, needed + 40] {
                let [number, _, column, done, bytes] = case.agree(room);
                let fetched = night.agree_on_fetch(&index.starts, index.rows(), row, room);
                let expected = if number == 0 { [0, 0, 0, done, bytes] } else { [number, row, column, 0, 0] };
                assert_eq!(fetched.answer, expected, "seed {seed}, row {row}, room {room}");
                met[number as usize] += 1;
            }
            at = end;
        }
    }
    assert!(met.iter().sum::<u64>() < 1_000 || [0, 14, 16, 17].iter().all(|number| met[*number] > 3), "{met:?}");
}

#[test]
fn by_any_index_and_any_count() {
    let mut met = [0; 21];
    for seed in seeds(94_000_000, 4_000) {
        let mut random = Random::new(seed);
        let columns = some(&mut random, 1, 3);
        let (text, from, count) = (declarations(&columns), random.pick(&BINARIES), random.pick(&[0, 1, 3, 64, 66, 130]));
        let rows = table(&mut random, &columns, from, count);
        let good = spelled(&mut random, &columns, from, &rows);
        let input = if random.one_in(4) { damaged(&mut random, &good) } else { good };
        let night = Night { declarations: &text, from: from.number(), input: &input, seed };
        let places = random.below(5);
        night.agree_on_index(places);
        let length = input.len();
        let starts: Vec<u32> = (0..places).map(|_| any_start(&mut random, length)).collect();
        for _ in 0..4 {
            let rows = random.pick(&[0, 1, 64, 65, 200, u64::MAX, count as u64]);
            let row = random.pick(&[0, 1, 2, 63, 64, 65, 127, 128, 199, u64::MAX - 1, u64::MAX, 64 << 32, 64 << 58]);
            let room = random.pick(&[0, 30, 4_000]);
            met[night.agree_on_fetch(&starts, rows, row, room).answer[0] as usize] += 1;
        }
    }
    let wanted = [0, 8, 9, 11, 13, 14, 17, 20];
    assert!(met.iter().sum::<u64>() < 1_000 || wanted.iter().all(|number| met[*number] > 5), "{met:?}");
}

/// A byte of the stream, its end, or what is far behind it.
fn any_start(random: &mut Random, length: usize) -> u32 {
    match random.below(6) {
        0 => 0,
        1 => length as u32,
        2 => length as u32 + random.below(3) as u32,
        3 => random.pick(&[u32::MAX, u32::MAX - 1, 1 << 31, 1 << 30]),
        _ => random.below(length + 1) as u32,
    }
}

#[test]
fn a_start_at_or_past_the_end_has_no_row_there() {
    let field = b"<FIELD datatype='short'/>";
    for (from, input) in [(1, &b"\0\x07\0\x08"[..]), (2, b"\0\0\x07\0\0\x08")] {
        let night = Night { declarations: field, from, input, seed: 0 };
        for start in [input.len() as u32, input.len() as u32 + 1, u32::MAX] {
            for row in [0, 1, 63] {
                assert_eq!(night.agree_on_fetch(&[start], 64, row, 40).answer, [8, row, 0, 0, 0]);
            }
        }
        // Rows on the way that are not there, too.
        assert_eq!(night.agree_on_fetch(&[0], 64, 1, 40).bytes, b"<TR><TD>8</TD></TR>\n");
        assert_eq!(night.agree_on_fetch(&[0], 64, 2, 40).answer, [8, 2, 0, 0, 0]);
        assert_eq!(night.agree_on_fetch(&[0], 64, 60, 40).answer, [8, 60, 0, 0, 0]);
    }
}

#[test]
fn a_kind_that_has_no_index_is_refused_before_all_else() {
    let (field, broken) = ("<FIELD datatype='short'/>", "<FIELD");
    for from in [0, 3, 255, 256, 257, u32::MAX] {
        for declarations in [field, broken, "", &" ".repeat(65_537)] {
            for input in [&b""[..], b"\0\x07", b"\0"] {
                let night = Night { declarations: declarations.as_bytes(), from, input, seed: 0 };
                for places in [0, 2] {
                    assert_eq!(night.agree_on_index(places).answer, [255, 0, 0, 0, 0]);
                    assert_eq!(night.agree_on_fetch(&vec![0; places], 1, 0, 40).answer, [255, 0, 0, 0, 0]);
                }
            }
        }
    }
}

#[test]
fn declarations_are_judged_before_any_row() {
    let over = " ".repeat(65_537);
    let refused = [("<FIELD", 1, 0), ("<FIELD datatype='int'/><FIELD datatype='real'/>", 2, 1), ("", 5, 0), (&over, 6, 0)];
    for (declarations, number, place) in refused {
        for from in [1, 2] {
            let night = Night { declarations: declarations.as_bytes(), from, input: b"\0\0\x07", seed: 0 };
            for (rows, row) in [(1, 0), (1, 1), (0, 0)] {
                assert_eq!(night.agree_on_index(1).answer, [number, 0, place, 0, 0]);
                assert_eq!(night.agree_on_fetch(&[0], rows, row, 40).answer, [number, 0, place, 0, 0]);
            }
        }
    }
}

/// A caller may read only a part of a file: what stands elsewhere, in the stream and in the index, is not looked at.
#[test]
fn what_stands_elsewhere_may_be_anything() {
    for seed in seeds(95_000_000, 40) {
        let mut random = Random::new(seed);
        let mut columns = some(&mut random, 1, 3);
        columns.push(column(Kind::Char, Length::Free));
        let (text, from) = (declarations(&columns), random.pick(&BINARIES));
        let rows = table(&mut random, &columns, from, 200);
        let input = spelled(&mut random, &columns, from, &rows);
        let night = Night { declarations: &text, from: from.number(), input: &input, seed };
        let index = night.agree_on_index(4);
        for row in (0..200).step_by(7) {
            let place = row / 64;
            let start = index.starts[place] as usize;
            let next = index.starts.get(place + 1).map_or(input.len(), |next| *next as usize);
            let own = night.agree_on_fetch(&index.starts, 200, row as u64, 60_000);
            for filling in [0, 0xff, 0x5a] {
                let mut elsewhere = vec![filling; input.len()];
                elsewhere[start..next].copy_from_slice(&input[start..next]);
                let mut starts = vec![u32::from(filling); index.starts.len()];
                starts[place] = start as u32;
                let mut out = vec![0xab; 60_000];
                let answer = archive::fetch(&text, from.number(), &elsewhere, &starts, 200, row as u64, &mut out);
                assert_eq!(answer, own.answer, "seed {seed}, row {row}");
                assert!(out[..own.bytes.len()] == own.bytes && out[own.bytes.len()..].iter().all(|byte| *byte == 0xab));
            }
        }
    }
}
