//! `compare` and `compare_to_vec`: places, counts, and which input is refused.

use sailmortar::{compare, compare_to_vec, Error, Input, Place, Refused, Rows};

const FIELDS: &[u8] = b"<FIELD datatype='short'/><FIELD datatype='char' arraysize='4'/>";

fn place(row: u32, column: u32) -> Place {
    Place { row, column }
}

fn night(numbers: impl IntoIterator<Item = u16>, note: &[u8; 4]) -> Vec<u8> {
    numbers.into_iter().flat_map(|number| [&number.to_be_bytes()[..], note].concat()).collect()
}

#[test]
fn counts_are_exact_and_places_as_many_as_fit() {
    let (first, second) = (night(0..5, b"dusk"), night(0..3, b"dawn"));
    for room in 0..6 {
        let mut places = vec![place(77, 77); room];
        let compared = compare(FIELDS, Rows::Binary, &first, Rows::Binary, &second, &mut places).expect("both are good");
        let filled = room.min(3);
        assert_eq!((compared.differing, compared.first_beyond, compared.second_beyond, compared.places), (3, 2, 0, filled));
        let expected: Vec<Place> = (0..3).map(|row| place(row, 1)).take(filled).chain(vec![place(77, 77); room - filled]).collect();
        assert_eq!(places, expected);
        assert!(!compared.is_same());
    }
}

#[test]
fn the_same_is_said_to_be_the_same() {
    let same =
        |first: &[u8], second: &[u8]| compare(FIELDS, Rows::Binary, first, Rows::Binary, second, &mut []).expect("both are good").is_same();
    let (night, longer, other) = (night(0..5, b"dusk"), night(0..6, b"dusk"), night(0..5, b"dawn"));
    assert!(same(&night, &night) && same(b"", b""));
    assert!(!same(&night, &longer) && !same(&longer, &night) && !same(&night, &other) && !same(&night, b"") && !same(b"", &night));
    let text = "<TR><TD>+0</TD><TD>&#100;usk</TD></TR>";
    assert!(compare(FIELDS, Rows::TableData, text.as_bytes(), Rows::Binary, &night[..6], &mut []).expect("both are good").is_same());
}

#[test]
fn room_is_made_for_every_place() {
    // Around as many as there is room for at first.
    for rows in [0, 1, 511, 512, 513, 1_023, 1_024, 1_025, 5_000] {
        let (first, second) = (night(0..rows, b"dusk"), night((0..rows).map(|row| row + 1), b"dawn"));
        let mut places = vec![place(77, 77)];
        let compared = compare_to_vec(FIELDS, Rows::Binary, &first, Rows::Binary, &second, &mut places).expect("both are good");
        let differing = 2 * u64::from(rows);
        assert_eq!((compared.differing, compared.places as u64), (differing, differing));
        let every = (0..u32::from(rows)).flat_map(|row| [place(row, 0), place(row, 1)]);
        assert!(places == [place(77, 77)].into_iter().chain(every).collect::<Vec<_>>(), "{rows} rows");
    }
}

#[test]
fn a_refusal_says_which_input_it_is_of() {
    let (good, cut) = (night(0..5, b"dusk"), night(0..3, b"dusk")[..15].to_vec());
    let cases = [
        (&cut, &good, Input::First, "the first input: refusal 8 at row 2, column 1: "),
        (&cut, &cut, Input::First, "the first input: refusal 8 at row 2, column 1: "),
        (&good, &cut, Input::Second, "the second input: refusal 8 at row 2, column 1: "),
    ];
    for (first, second, input, words) in cases {
        let mut places = vec![place(77, 77); 2];
        let refused = compare(FIELDS, Rows::Binary, first, Rows::Binary, second, &mut places).expect_err("one is cut");
        assert_eq!(places, [place(77, 77); 2]);
        let Refused { number, row, column, rows, bytes, offset, .. } = refused.refused;
        assert_eq!((refused.input, number, row, column, rows, bytes, offset), (input, 8, 2, 1, 0, 0, 0));
        assert!(refused.to_string().starts_with(words), "{refused}");
        let error = compare_to_vec(FIELDS, Rows::Binary, first, Rows::Binary, second, &mut places).expect_err("one is cut");
        assert_eq!(places, [place(77, 77); 2]);
        assert_eq!((error.refused(), error.to_string()), (Some(&refused.refused), refused.to_string()));
        assert!(matches!(error, Error::RefusedInput(other) if other == refused));
    }
}

#[test]
fn declarations_are_of_neither_input() {
    let over = vec![b' '; 65_537];
    for (fields, number) in [(&b"<FIELD"[..], 1), (b"", 5), (&over, 6)] {
        let refused = compare(fields, Rows::Binary, b"x", Rows::Binary2, b"x", &mut []).expect_err("no declarations");
        assert_eq!((refused.input, refused.refused.number), (Input::Declarations, number));
        assert!(refused.to_string().starts_with(&format!("refusal {number}")), "{refused}");
    }
}

#[test]
fn a_size_is_that_of_its_own_input() {
    let over = vec![0; (1 << 30) + 1];
    for (first, second, input) in [(&over[..], &b""[..], Input::First), (&over, &over, Input::First), (b"", &over, Input::Second)] {
        let refused = compare(FIELDS, Rows::Binary, first, Rows::Binary, second, &mut []).expect_err("it is too long");
        assert_eq!((refused.input, refused.refused.number), (input, 6));
    }
    let refused = compare(FIELDS, Rows::Binary, b"x", Rows::Binary, &over, &mut []).expect_err("both are refused");
    assert_eq!((refused.input, refused.refused.number), (Input::First, 8));
}
