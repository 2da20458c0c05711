//! Two nights beside each other: equal, apart in a cell or in all, of other lengths, refused, and in buffers of every length.

use super::archive;
use super::compare::{seeds, Nights};
use crate::generate::cells::{cell, null_has_a_form_in_binary};
use crate::generate::columns::{column, declarations, some, EVERY_KIND};
use crate::generate::damage::damaged;
use crate::generate::rows::{spelled, table, Table};
use crate::generate::Random;
use crate::model::converter::{Rows, EVERY_KIND_OF_ROWS};
use crate::model::{Cell, Column, Kind, Length};

fn pairs_of_kinds() -> impl Iterator<Item = [Rows; 2]> {
    EVERY_KIND_OF_ROWS.into_iter().flat_map(|first| EVERY_KIND_OF_ROWS.map(|second| [first, second]))
}

/// A kind whose cells both kinds can hold: of text, since it has no empty cells and no characters that only bytes have.
fn for_both([first, second]: [Rows; 2]) -> Rows {
    match first == second {
        true => first,
        false => Rows::TableData,
    }
}

/// Columns in which every kind of rows has a form for null.
fn columns_for_all(random: &mut Random, least: usize, greatest: usize) -> Vec<Column> {
    let count = random.between(least, greatest);
    let mut columns = Vec::new();
    while columns.len() < count {
        columns.extend(some(random, 1, 4).into_iter().filter(null_has_a_form_in_binary));
        columns.truncate(count);
    }
    columns
}

/// A cell that shows something else.
fn other(random: &mut Random, column: &Column, kind: Rows, old: &Cell) -> Cell {
    std::iter::repeat_with(|| cell(random, column, kind)).take(1_000).find(|new| new != old).expect("a column has two cells")
}

/// The same table twice, spelled in two kinds of rows, the second with other cells at these places.
struct Drawn {
    text: Vec<u8>,
    from: [u32; 2],
    inputs: [Vec<u8>; 2],
    seed: u64,
}

impl Drawn {
    fn new(random: &mut Random, columns: &[Column], kinds: [Rows; 2], rows: &Table, apart: &[(usize, usize)], seed: u64) -> Drawn {
        let mut others = rows.clone();
        for (row, place) in apart {
            let cell = &mut others[*row][*place];
            *cell = other(random, &columns[*place], for_both(kinds), cell);
        }
        Drawn::of_tables(random, columns, kinds, [rows, &others], seed)
    }

    fn of_tables(random: &mut Random, columns: &[Column], kinds: [Rows; 2], tables: [&Table; 2], seed: u64) -> Drawn {
        let [first, second] = [0, 1].map(|place| spelled(random, columns, kinds[place], tables[place]));
        Drawn { text: declarations(columns), from: kinds.map(Rows::number), inputs: [first, second], seed }
    }

    fn nights(&self) -> Nights<'_> {
        Nights { declarations: &self.text, from: self.from, inputs: [&self.inputs[0], &self.inputs[1]], seed: self.seed }
    }
}

/// The answer where nothing is refused.
fn accepted(differing: usize, first_beyond: usize, second_beyond: usize, filled: usize) -> [u64; 8] {
    let [differing, first_beyond, second_beyond, filled] = [differing, first_beyond, second_beyond, filled].map(|count| count as u64);
    [0, 0, 0, 0, differing, first_beyond, second_beyond, filled]
}

fn numbers(places: &[(usize, usize)]) -> Vec<u32> {
    places.iter().flat_map(|(row, place)| [*row as u32, *place as u32]).collect()
}

#[test]
fn the_same_table_in_any_two_spellings_differs_nowhere() {
    for seed in seeds(110_000_000, 300) {
        let mut random = Random::new(seed);
        let columns = columns_for_all(&mut random, 1, 6);
        for kinds in pairs_of_kinds() {
            let count = random.pick(&[0, 1, 2, 7]);
            let rows = table(&mut random, &columns, for_both(kinds), count);
            let drawn = Drawn::new(&mut random, &columns, kinds, &rows, &[], seed);
            assert_eq!(drawn.nights().agree(8).answer, accepted(0, 0, 0, 0), "seed {seed}, {kinds:?}");
        }
    }
}

#[test]
fn one_cell_apart_wherever_it_stands() {
    for seed in seeds(111_000_000, 40) {
        let mut random = Random::new(seed);
        for kinds in pairs_of_kinds() {
            let columns = columns_for_all(&mut random, 2, 5);
            let rows = table(&mut random, &columns, for_both(kinds), 4);
            for place in [(0, 0), (0, columns.len() - 1), (3, 0), (3, columns.len() - 1), (1, random.below(columns.len()))] {
                let drawn = Drawn::new(&mut random, &columns, kinds, &rows, &[place], seed);
                for length in [0, 1, 2, 3, 9] {
                    let compared = drawn.nights().agree(length);
                    assert_eq!(compared.answer, accepted(1, 0, 0, usize::from(length > 1)), "seed {seed}, {kinds:?}, {place:?}");
                    assert_eq!(compared.numbers, if length > 1 { numbers(&[place]) } else { vec![] });
                }
            }
        }
    }
}

#[test]
fn all_cells_apart_in_buffers_of_every_length() {
    for (seed, kinds) in (112_000_000..).zip(pairs_of_kinds()) {
        let mut random = Random::new(seed);
        let columns = columns_for_all(&mut random, 3, 3);
        let rows = table(&mut random, &columns, for_both(kinds), 5);
        let all: Vec<_> = (0..15).map(|cell| (cell / 3, cell % 3)).collect();
        let drawn = Drawn::new(&mut random, &columns, kinds, &rows, &all, seed);
        for length in 0..=2 * all.len() + 5 {
            let compared = drawn.nights().agree(length);
            let filled = all.len().min(length / 2);
            assert_eq!(compared.answer, accepted(all.len(), 0, 0, filled), "seed {seed}, {length} numbers");
            assert_eq!(compared.numbers, numbers(&all[..filled]));
        }
    }
}

#[test]
fn rows_that_only_one_has_are_counted_and_not_compared() {
    for seed in seeds(113_000_000, 60) {
        let mut random = Random::new(seed);
        let columns = columns_for_all(&mut random, 1, 4);
        for kinds in pairs_of_kinds() {
            let rows = table(&mut random, &columns, for_both(kinds), 9);
            for (first, second) in [(0, 0), (0, 9), (9, 0), (9, 8), (8, 9), (3, 7), (7, 3), (1, 0), (0, 1)] {
                let tables = [&rows[..first].to_vec(), &rows[..second].to_vec()];
                let drawn = Drawn::of_tables(&mut random, &columns, kinds, tables, seed);
                let expected = accepted(0, first.saturating_sub(second), second.saturating_sub(first), 0);
                assert_eq!(drawn.nights().agree(6).answer, expected, "seed {seed}, {kinds:?}, {first} and {second} rows");
            }
            // The rows behind do not hide a cell of the last row that both have.
            let drawn = Drawn::new(&mut random, &columns, kinds, &rows, &[(8, columns.len() - 1)], seed);
            let more = spelled(&mut random, &columns, kinds[1], &rows[..3].to_vec());
            let longer = [&drawn.inputs[1][..], &more].concat();
            let compared = Nights { inputs: [&drawn.inputs[0], &longer], ..drawn.nights() }.agree(6);
            assert_eq!((compared.answer, compared.numbers), (accepted(1, 0, 3, 1), numbers(&[(8, columns.len() - 1)])), "seed {seed}");
        }
    }
}

#[test]
fn swapped_nights_differ_in_the_same_places() {
    let mut met = [0; 3];
    for seed in seeds(114_000_000, 400) {
        let mut random = Random::new(seed);
        let columns = columns_for_all(&mut random, 1, 5);
        let kinds = [random.pick(&EVERY_KIND_OF_ROWS), random.pick(&EVERY_KIND_OF_ROWS)];
        let (count, other_count) = (random.below(9), random.below(9));
        let rows = table(&mut random, &columns, for_both(kinds), count.max(other_count));
        let mut others = rows.clone();
        for cells in &mut others {
            for (cell, column) in cells.iter_mut().zip(&columns).filter(|_| random.one_in(3)).collect::<Vec<_>>() {
                *cell = other(&mut random, column, for_both(kinds), cell);
            }
        }
        let tables = [&rows[..count].to_vec(), &others[..other_count].to_vec()];
        let drawn = Drawn::of_tables(&mut random, &columns, kinds, tables, seed);
        let compared = drawn.nights().agree_with_room_enough();
        let ([first, second], [from_first, from_second]) = (drawn.nights().inputs, drawn.from);
        let swapped = Nights { inputs: [second, first], from: [from_second, from_first], ..drawn.nights() }.agree_with_room_enough();
        let [zero, row, column, input, differing, first_beyond, second_beyond, filled] = compared.answer;
        assert_eq!(swapped.answer, [zero, row, column, input, differing, second_beyond, first_beyond, filled], "seed {seed}");
        assert_eq!(swapped.numbers, compared.numbers, "seed {seed}");
        for (met, count) in met.iter_mut().zip([differing, first_beyond, second_beyond]) {
            *met += u64::from(count > 0);
        }
    }
    assert!(met.iter().sum::<u64>() < 100 || met.iter().all(|met| *met > 50), "{met:?}");
}

/// Every cell of a short list beside every other, in each kind of rows that has a form for it.
#[test]
fn null_empty_and_values_are_told_apart_wherever_the_kind_does() {
    let shown = |elements: &[i64]| Cell::Shown(elements.to_vec());
    let char_cells = [Cell::Null, shown(&[]), shown(&[32]), shown(&[97]), shown(&[97, 98]), shown(&[98])];
    let counted_cells = [Cell::Null, shown(&[]), shown(&[0]), shown(&[0, 0]), shown(&[1]), shown(&[1, 0])];
    let scalar_cells = [Cell::Null, shown(&[0]), shown(&[1])];
    let mut cases: Vec<(Column, &[Cell])> =
        vec![(column(Kind::Char, Length::Fixed(2)), &char_cells), (column(Kind::Char, Length::Free), &char_cells)];
    for kind in EVERY_KIND.into_iter().filter(|kind| *kind != Kind::Char) {
        cases.push((column(kind, Length::Bounded(2)), &counted_cells));
        let null = kind.is_integer().then_some(5);
        cases.push((Column { null, ..column(kind, Length::Fixed(1)) }, &scalar_cells));
    }
    let mut random = Random::new(115_000_000);
    for (column, cells) in cases {
        for kinds in pairs_of_kinds() {
            for (one, other) in cells.iter().flat_map(|one| cells.iter().map(move |other| (one, other))) {
                if [one, other].into_iter().zip(kinds).all(|(cell, kind)| has_form(&column, cell, kind)) {
                    let tables = [&vec![vec![one.clone()]], &vec![vec![other.clone()]]];
                    let drawn = Drawn::of_tables(&mut random, &[column], kinds, tables, 0);
                    let differing = usize::from(one != other);
                    assert_eq!(
                        drawn.nights().agree(2).answer,
                        accepted(differing, 0, 0, differing),
                        "{column:?} {kinds:?} {one:?} {other:?}"
                    );
                }
            }
        }
    }
}

fn has_form(column: &Column, cell: &Cell, kind: Rows) -> bool {
    match cell {
        Cell::Null => kind != Rows::Binary || null_has_a_form_in_binary(column),
        Cell::Shown(elements) => kind == Rows::Binary2 || !elements.is_empty(),
    }
}

#[test]
fn spelling_does_not_matter() {
    let decls = b"<FIELD datatype='short'/><FIELD datatype='char' arraysize='4'/><FIELD datatype='boolean' arraysize='*'/>";
    let texts = [
        "<TR><TD>5</TD><TD>a&amp;</TD><TD>T F</TD></TR>",
        " <TR ><TD>\n+0005 </TD><TD>a&#38;</TD><TD>true\tFALSE</TD></TR>\n",
        "<TR><TD>0x0005</TD><TD>&#x61;&amp;</TD><TD>&#49; f</TD></TR>",
    ];
    let binaries = [&b"\0\x05a&\0\0\0\0\0\x02TF"[..], b"\0\x05a&\0\xff\0\0\0\x02t0"];
    let binaries2 = [&b"\0\0\x05a&\0\0\0\0\0\x02TF"[..], b"\0\0\x05a&\0z\0\0\0\x021f"];
    let texts = texts.iter().map(|text| (0, text.as_bytes()));
    let spellings: Vec<(u32, &[u8])> = texts.chain(binaries.map(|row| (1, row))).chain(binaries2.map(|row| (2, row))).collect();
    for (from, input) in &spellings {
        for (other_from, other) in &spellings {
            let nights = Nights { declarations: decls, from: [*from, *other_from], inputs: [input, other], seed: 0 };
            assert_eq!(nights.agree(4).answer, accepted(0, 0, 0, 0));
        }
    }
    // Under a null flag nothing is looked at.
    let nulls = [&b"\xe0\0\0\0\0\0\0\0\0\0\0"[..], b"\xe0\x7f\xff\xff\xff\xff\xff\0\0\0\x02XX"];
    assert_eq!(Nights { declarations: decls, from: [2, 2], inputs: nulls, seed: 0 }.agree(4).answer, accepted(0, 0, 0, 0));
}

#[test]
fn what_a_night_was_converted_to_differs_nowhere() {
    let mut compared = 0;
    for seed in seeds(116_000_000, 300) {
        let mut random = Random::new(seed);
        let columns = some(&mut random, 1, 6);
        let text = declarations(&columns);
        for [from, to] in pairs_of_kinds() {
            let rows = table(&mut random, &columns, from, 5);
            let input = spelled(&mut random, &columns, from, &rows);
            let mut out = vec![0; 1 << 19];
            let [number, .., bytes] = archive::convert(&text, from.number(), to.number(), &input, &mut out);
            out.truncate(bytes as usize);
            if number == 0 {
                let nights = Nights { declarations: &text, from: [from.number(), to.number()], inputs: [&input, &out], seed };
                assert_eq!(nights.agree(4).answer, accepted(0, 0, 0, 0), "seed {seed}, {from:?} to {to:?}");
                compared += 1;
            }
        }
    }
    assert!(!(10..1_000).contains(&compared), "{compared}");
}

/// Beyond what a scratch may hold of a row, and in the last element of the longest cells.
#[test]
fn long_cells_differ_in_their_last_element() {
    let mut random = Random::new(117_000_000);
    for kind in EVERY_KIND {
        let columns = [Length::Fixed(4_096), Length::Free, Length::Bounded(4_096)].map(|length| column(kind, length));
        let cell = Cell::Shown(vec![1; 4_096]);
        let rows = vec![vec![cell; 3]; 2];
        for kinds in pairs_of_kinds() {
            for place in 0..3 {
                let mut others = rows.clone();
                let mut elements = vec![1; 4_095];
                elements.extend((kind != Kind::Char && place == 0).then_some(0));
                others[1][place] = Cell::Shown(elements);
                let with_space = |table: &Table| -> Table {
                    if kind == Kind::Char {
                        printable(table)
                    } else {
                        table.clone()
                    }
                };
                let drawn = Drawn::of_tables(&mut random, &columns, kinds, [&with_space(&rows), &with_space(&others)], 0);
                let compared = drawn.nights().agree(3);
                assert_eq!((compared.answer, compared.numbers), (accepted(1, 0, 0, 1), numbers(&[(1, place)])), "{kind:?} {kinds:?}");
            }
        }
    }
}

/// The same cells of letters.
fn printable(table: &Table) -> Table {
    let letters = |cell: &Cell| match cell {
        Cell::Null => Cell::Null,
        Cell::Shown(elements) => Cell::Shown(elements.iter().map(|element| 96 + element).collect()),
    };
    table.iter().map(|cells| cells.iter().map(letters).collect()).collect()
}

#[test]
fn every_column_of_sixty_four() {
    let mut random = Random::new(118_000_000);
    for count in [7, 8, 9, 16, 17, 64] {
        let columns = columns_for_all(&mut random, count, count);
        for kinds in pairs_of_kinds() {
            let rows = table(&mut random, &columns, for_both(kinds), 2);
            for place in [0, count / 2, count - 2, count - 1] {
                let apart = [(0, count - 1 - place), (1, place)];
                let drawn = Drawn::new(&mut random, &columns, kinds, &rows, &apart, 0);
                let compared = drawn.nights().agree(5);
                assert_eq!((compared.answer, compared.numbers), (accepted(2, 0, 0, 2), numbers(&apart)), "{count} columns, {kinds:?}");
            }
        }
    }
}

/// Rows by numbers that do not fit sixteen bits.
#[test]
fn the_rows_of_a_long_night() {
    let columns = [column(Kind::UnsignedByte, Length::Fixed(1)), column(Kind::Boolean, Length::Fixed(1))];
    let mut random = Random::new(119_000_000);
    let rows = vec![vec![Cell::Shown(vec![7]), Cell::Shown(vec![1])]; 70_000];
    let apart = [(65_535, 1), (65_536, 0), (69_999, 1)];
    for kinds in [[Rows::Binary, Rows::Binary2], [Rows::TableData, Rows::Binary]] {
        let drawn = Drawn::new(&mut random, &columns, kinds, &rows, &apart, 0);
        let compared = drawn.nights().agree(7);
        assert_eq!((compared.answer, compared.numbers), (accepted(3, 0, 0, 3), numbers(&apart)));
    }
}

const FIELDS: &[u8] = b"<FIELD datatype='short'/><FIELD datatype='char' arraysize='9*'/><FIELD datatype='boolean'/>";

/// A row of these fields that is good.
fn good(from: u32) -> &'static [u8] {
    match from {
        0 => b"<TR><TD>7</TD><TD>dusk</TD><TD>T</TD></TR>\n",
        1 => b"\0\x07\0\0\0\x04duskT",
        _ => b"\0\0\x07\0\0\0\x04duskT",
    }
}

/// A row of each refusal that reading gives, with its number and column.
fn bad(from: u32) -> Vec<(&'static [u8], u64, u64)> {
    match from {
        0 => vec![
            (b"<TR><TD>7</TD><TD>dusk</TD><TD>T</TD>", 10, 3),
            (b"<TD>", 10, 0),
            (b"<TR><TD>7</TD><TD>dusk</TD></TR>", 10, 2),
            (b"<TR><TD>7 8</TD><TD/><TD/></TR>", 12, 0),
            (b"<TR><TD>seven</TD><TD/><TD/></TR>", 11, 0),
            (b"<TR><TD>70000</TD><TD/><TD/></TR>", 18, 0),
            (b"<TR><TD>7</TD><TD>0123456789</TD><TD/></TR>", 12, 1),
        ],
        1 => vec![
            (b"\0", 8, 0),
            (b"\0\x07\0\0", 8, 1),
            (b"\0\x07\0\0\0\x0a", 9, 1),
            (b"\0\x07\0\0\0\x02a\x80T", 11, 1),
            (b"\0\x07\0\0\0\x02abX", 11, 2),
        ],
        _ => vec![
            (b"\0\0", 8, 0),
            (b"\x10\0\x07\0\0\0\x04duskT", 13, 0),
            (b"\x40\0\x07\0\0\0\x0a", 9, 1),
            (b"\0\0\x07\0\0\0\x02a\x80T", 11, 1),
            (b"\0\0\x07\0\0\0\x02ab", 8, 2),
        ],
    }
}

fn night(from: u32, rows: usize, bad: &[u8]) -> Vec<u8> {
    [&good(from).repeat(rows), bad].concat()
}

#[test]
fn the_first_refused_is_the_first_input_whatever_the_rows() {
    for [first, second] in (0..9).map(|pair| [pair / 3, pair % 3]) {
        let (good_first, good_second) = (night(first, 3, b""), night(second, 3, b""));
        for before in [0, 1, 5] {
            for (bad_row, number, column) in bad(first) {
                let refused = night(first, before, bad_row);
                let expected = [number, before as u64, column, 0, 0, 0, 0, 0];
                let agree = |other: &[u8]| {
                    let nights = Nights { declarations: FIELDS, from: [first, second], inputs: [&refused, other], seed: 0 };
                    [0, 3].into_iter().for_each(|length| assert_eq!(nights.agree(length).answer, expected));
                };
                // Beside a good one, none, and one that is refused before it or behind it.
                agree(&good_second);
                agree(b"");
                for (other_bad, ..) in bad(second) {
                    agree(&night(second, 0, other_bad));
                    agree(&night(second, 9, other_bad));
                }
            }
            for (bad_row, number, column) in bad(second) {
                let refused = night(second, before, bad_row);
                for one in [&good_first[..], b""] {
                    let nights = Nights { declarations: FIELDS, from: [first, second], inputs: [one, &refused], seed: 0 };
                    assert_eq!(nights.agree(3).answer, [number, before as u64, column, 1, 0, 0, 0, 0]);
                }
            }
        }
    }
}

#[test]
fn declarations_are_judged_before_either_input() {
    let over = " ".repeat(65_537);
    let refused = [("<FIELD", 1, 0), ("<FIELD datatype='int'/><FIELD datatype='real'/>", 2, 1), ("", 5, 0), (&over, 6, 0)];
    let more = [
        ("<FIELD datatype='int' arraysize='0'/>", 3, 0),
        ("<FIELD datatype='bit'/><FIELD datatype='int'><VALUES null='x'/></FIELD>", 4, 1),
    ];
    for (declarations, number, place) in refused.into_iter().chain(more) {
        for from in (0..9).map(|pair| [pair / 3, pair % 3]) {
            for inputs in [[&b""[..], b""], [b"\0\0\x07", b"x"], [b"x", b""], [b"", b"x"]] {
                let nights = Nights { declarations: declarations.as_bytes(), from, inputs, seed: 0 };
                assert_eq!(nights.agree(3).answer, [number, 0, place, 0, 0, 0, 0, 0]);
            }
        }
    }
}

#[test]
fn a_kind_that_is_none_is_refused_before_all_else() {
    for from in [[3, 0], [0, 3], [3, 3], [255, 2], [2, 256], [u32::MAX, 1], [1, u32::MAX], [0, 257]] {
        for declarations in ["<FIELD datatype='short'/>", "<FIELD", "", &" ".repeat(65_537)] {
            for inputs in [[&b""[..], b""], [b"\0", b"\0\x07"], [b"x", b"<"]] {
                for length in [0, 2] {
                    let nights = Nights { declarations: declarations.as_bytes(), from, inputs, seed: 0 };
                    assert_eq!(nights.agree(length).answer, [255, 0, 0, 0, 0, 0, 0, 0]);
                }
            }
        }
    }
}

#[test]
fn any_two_inputs_damaged_or_not() {
    let (mut met, mut by_input, mut differing) = ([0; 19], [0; 2], 0);
    for seed in seeds(120_000_000, 6_000) {
        let mut random = Random::new(seed);
        let columns = some(&mut random, 1, 4);
        let kinds = [random.pick(&EVERY_KIND_OF_ROWS), random.pick(&EVERY_KIND_OF_ROWS)];
        let inputs = kinds.map(|kind| {
            let count = random.below(5);
            let rows = table(&mut random, &columns, kind, count);
            spelled(&mut random, &columns, kind, &rows)
        });
        let damage = |random: &mut Random, input: Vec<u8>| if random.one_in(3) { damaged(random, &input) } else { input };
        let inputs = inputs.map(|input| damage(&mut random, input));
        // Of one kind, often the second is a damaged first: most of it is the same.
        let inputs = match kinds[0] == kinds[1] && random.one_in(2) {
            true => [inputs[0].clone(), damage(&mut random, inputs[0].clone())],
            false => inputs,
        };
        let drawn = Drawn { text: declarations(&columns), from: kinds.map(Rows::number), inputs, seed };
        let length = random.below(12);
        let [number, _, _, input, cells, ..] = drawn.nights().agree(length).answer;
        met[number as usize] += 1;
        by_input[input as usize] += u64::from(number > 0);
        differing += u64::from(cells > 0);
    }
    let wanted = [0, 8, 9, 10, 11, 12, 13, 18];
    let is_met = wanted.iter().all(|number| met[*number] > 5) && by_input.iter().all(|count| *count > 100) && differing > 100;
    assert!(met.iter().sum::<u64>() < 1_000 || is_met, "{met:?} {by_input:?} {differing}");
}
