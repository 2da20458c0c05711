//! The file of an index, each way in which it may not fit, and how much is read.

use std::cell::Cell;
use std::io::{Cursor, Read, Result, Seek, SeekFrom};
use std::rc::Rc;

use sailmortar::{Error, Index, IndexedRows, Misfit, Rows};

use super::night::{line, night, start, EMPTY, FIELDS};

const HEADER: usize = 72;

/// The file of a stream's index.
fn file(from: Rows, input: &[u8]) -> Vec<u8> {
    let index = Index::build(FIELDS, from, input).unwrap_or_else(|stopped| stopped.index);
    let mut bytes = Vec::new();
    index.write(&mut bytes).expect("a Vec takes it");
    bytes
}

fn open(from: Rows, input: &[u8], index: &[u8]) -> std::result::Result<(), Error> {
    IndexedRows::open(FIELDS, from, Cursor::new(input), Cursor::new(index)).map(drop)
}

fn misfit<T: std::fmt::Debug>(answer: std::result::Result<T, Error>) -> Misfit {
    match answer {
        Err(Error::Misfit(misfit)) => misfit,
        other => panic!("it does not fit, and this is {other:?}"),
    }
}

/// FNV-1a as its authors have it.
fn fingerprint(bytes: &[u8]) -> u64 {
    let mut hash = 14_695_981_039_346_656_037_u64;
    for byte in bytes {
        hash ^= u64::from(*byte);
        hash = hash.wrapping_mul(1_099_511_628_211);
    }
    hash
}

/// Puts the header's own fingerprint right again.
fn sign(file: &mut [u8]) {
    let signature = fingerprint(&file[..HEADER - 8]).to_le_bytes();
    file[HEADER - 8..HEADER].copy_from_slice(&signature);
}

#[test]
fn it_is_the_same_on_every_machine() {
    assert_eq!((fingerprint(b""), fingerprint(b"a")), (0xCBF2_9CE4_8422_2325, 0xAF63_DC4C_8601_EC8C), "as published");
    let input = night(Rows::Binary2, 130);
    let numbers = [input.len() as u64, input.len() as u64, 130, fingerprint(FIELDS), 3];
    let mut expected = [&b"sailmortar-index\x01\0\0\0\x02\0\0\0"[..], &numbers.map(u64::to_le_bytes).concat(), &[0; 8]].concat();
    sign(&mut expected);
    expected.extend([0, 64, 128].into_iter().flat_map(|row| (start(Rows::Binary2, row) as u32).to_le_bytes()));
    assert_eq!(file(Rows::Binary2, &input), expected);
}

#[test]
fn what_was_written_is_read() {
    for from in [Rows::Binary, Rows::Binary2] {
        for rows in [0, 1, 64, 65, 140] {
            let input = night(from, rows);
            let index = Index::build(FIELDS, from, &input).expect("the rows are good");
            assert_eq!(Index::read(&file(from, &input)[..]).expect("it is an index"), index);
        }
        // More starts than are written at once.
        let (fields, long) = (b"<FIELD datatype='char'/>", vec![b'x'; 64 * 20_000 + 1]);
        let index = Index::build(fields, Rows::Binary, &long).expect("the rows are good");
        let mut bytes = Vec::new();
        index.write(&mut bytes).expect("a Vec takes it");
        assert_eq!(bytes.len(), HEADER + 4 * 20_001);
        assert!(Index::read(&bytes[..]).expect("it is an index") == index);
    }
}

#[test]
fn what_is_no_index_is_told() {
    let input = night(Rows::Binary, 70);
    for bytes in [&b""[..], b"x", b"sailmortar", b"sailmortar-indeX", b"<FIELD datatype='int'/>", &input, &[0; 200]] {
        let is_front = !bytes.is_empty() && b"sailmortar-index".starts_with(bytes);
        let expected = if is_front { Misfit::OtherSize { wanted: 72, found: bytes.len() as u64 } } else { Misfit::NoIndex };
        assert_eq!(misfit(open(Rows::Binary, &input, bytes)), expected);
        assert_eq!(misfit(Index::read(bytes)), expected);
    }
}

#[test]
fn one_that_is_cut_or_too_long_is_told() {
    let input = night(Rows::Binary, 140);
    let whole = file(Rows::Binary, &input);
    for cut in 1..whole.len() {
        let wanted = if cut < HEADER { HEADER } else { whole.len() } as u64;
        let expected = Misfit::OtherSize { wanted, found: cut as u64 };
        assert_eq!(misfit(open(Rows::Binary, &input, &whole[..cut])), expected);
        assert_eq!(misfit(Index::read(&whole[..cut])), expected);
    }
    let long = [&whole[..], b"x"].concat();
    let expected = Misfit::OtherSize { wanted: whole.len() as u64, found: whole.len() as u64 + 1 };
    assert_eq!((misfit(open(Rows::Binary, &input, &long)), misfit(Index::read(&long[..]))), (expected, expected));
}

#[test]
fn a_bit_that_is_turned_in_the_header_is_found() {
    let input = night(Rows::Binary, 140);
    for bit in 0..8 * HEADER {
        let mut damaged = file(Rows::Binary, &input);
        damaged[bit / 8] ^= 1 << (bit % 8);
        let expected = match bit / 8 {
            0..16 => Misfit::NoIndex,
            16..20 => Misfit::OtherFormat { format: 1 ^ 1 << (bit - 8 * 16) },
            _ => Misfit::Damaged,
        };
        assert_eq!((misfit(open(Rows::Binary, &input, &damaged)), misfit(Index::read(&damaged[..]))), (expected, expected), "bit {bit}");
    }
}

/// Headers that are signed, and say what cannot be.
#[test]
fn what_cannot_be_is_not_believed() {
    let input = night(Rows::Binary, 140);
    let good = file(Rows::Binary, &input);
    // The place of a number, and what it might say: the kind, the length, the rows' end, the rows, the starts.
    let wrong: [(usize, u64); 8] =
        [(20, 0), (20, 3), (24, 1 << 31), (32, 1 + input.len() as u64), (40, 200), (40, u64::MAX), (56, 2), (56, u64::MAX)];
    for (place, number) in wrong {
        let mut damaged = good.clone();
        let size = if place == 20 { 4 } else { 8 };
        damaged[place..place + size].copy_from_slice(&number.to_le_bytes()[..size]);
        sign(&mut damaged);
        assert_eq!(misfit(open(Rows::Binary, &input, &damaged)), Misfit::Damaged, "{number} at {place}");
        assert_eq!(misfit(Index::read(&damaged[..])), Misfit::Damaged, "{number} at {place}");
    }
}

#[test]
fn one_of_another_stream_is_told() {
    let input = night(Rows::Binary, 70);
    let index = file(Rows::Binary, &input);
    assert!(open(Rows::Binary, &input, &index).is_ok());
    assert_eq!(misfit(open(Rows::Binary2, &input, &index)), Misfit::OtherKind { indexed: Rows::Binary, asked: Rows::Binary2 });
    let (indexed, found) = (input.len() as u64, input.len() as u64 - 1);
    assert_eq!(misfit(open(Rows::Binary, &input[1..], &index)), Misfit::OtherLength { indexed, found });
    let other = IndexedRows::open(b"<FIELD datatype='int'/>", Rows::Binary, Cursor::new(&input), Cursor::new(&index));
    assert_eq!(misfit(other), Misfit::OtherDeclarations);
    let broken = IndexedRows::open(b"<FIELD", Rows::Binary, Cursor::new(&input), Cursor::new(b""));
    assert_eq!(broken.expect_err("they are broken").refused().map(|refused| refused.number), Some(1), "declarations come first");
}

/// A file that says that it is longer than any input may be.
struct Endless;

impl Read for Endless {
    fn read(&mut self, _: &mut [u8]) -> Result<usize> {
        panic!("it is not read")
    }
}

impl Seek for Endless {
    fn seek(&mut self, _: SeekFrom) -> Result<u64> {
        Ok((1 << 30) + 1)
    }
}

#[test]
fn a_stream_over_its_size_is_refused_by_its_size() {
    let error = IndexedRows::open(FIELDS, Rows::Binary, Endless, Cursor::new(b"")).map(drop).expect_err("it is too long");
    assert_eq!(error.refused().map(|refused| (refused.number, refused.row, refused.column)), Some((6, 0, 0)));
}

/// What a start is turned into that is not the stream's own.
#[test]
fn starts_that_are_not_the_streams_are_found() {
    let input = night(Rows::Binary, 200);
    let good = file(Rows::Binary, &input);
    for place in 0..4 {
        for other in
            [0, 1, start(Rows::Binary, 64 * place).saturating_sub(1), start(Rows::Binary, 64 * place) + 1, input.len(), u32::MAX as usize]
        {
            let mut damaged = good.clone();
            damaged[HEADER + 4 * place..][..4].copy_from_slice(&(other as u32).to_le_bytes());
            if damaged == good {
                continue;
            }
            // Without the stream only what cannot be is seen.
            if other == u32::MAX as usize || other == 0 {
                assert_eq!(misfit(Index::read(&damaged[..])), Misfit::Damaged, "{other} at {place}");
            }
            let mut rows = IndexedRows::open(FIELDS, Rows::Binary, Cursor::new(&input), Cursor::new(&damaged)).expect("the header is good");
            let found = misfit(rows.fetch(64 * place as u64 + 5, &mut Vec::new()));
            let expected = [Misfit::Damaged, Misfit::OtherRows { row: 64 * place as u64 }];
            assert!(expected.contains(&found), "{other} at {place}: {found:?}");
        }
    }
}

/// Rows of another day under the same name, of the same length in all.
#[test]
fn a_stream_that_has_changed_is_found() {
    let input = night(Rows::Binary, 200);
    let index = file(Rows::Binary, &input);
    // The first two rows change places, in lengths too; and a row of the last part loses a character to the next.
    let (second, third) = (start(Rows::Binary, 1), start(Rows::Binary, 2));
    let moved = [&input[second..third], &input[..second], &input[third..]].concat();
    let mut rows = IndexedRows::open(FIELDS, Rows::Binary, Cursor::new(&moved), Cursor::new(&index)).expect("it seems to fit");
    let mut out = Vec::new();
    rows.fetch(0, &mut out).expect("the part is as long as it was, in as many rows");
    assert_eq!(out, line(1).as_bytes(), "and it is read as it is now");
    let later = [&input[third..], &input[..third]].concat();
    let mut rows = IndexedRows::open(FIELDS, Rows::Binary, Cursor::new(&later), Cursor::new(&index)).expect("it seems to fit");
    for row in [0, 63, 64, 199] {
        assert_eq!(misfit(rows.fetch(row, &mut out)), Misfit::OtherRows { row: row / 64 * 64 });
    }
}

#[test]
fn a_part_that_does_not_fit_spoils_no_other() {
    let mut input = night(Rows::Binary, 200);
    let index = file(Rows::Binary, &input);
    // A text of the second part says that it is longer than it is.
    let spoiled = start(Rows::Binary, 70) + 7;
    input[spoiled] += 1;
    let mut rows = IndexedRows::open(FIELDS, Rows::Binary, Cursor::new(&input), Cursor::new(&index)).expect("it seems to fit");
    for row in [3, 70, 71, 130, 64, 5, 127, 199] {
        let mut out = Vec::new();
        match rows.fetch(row, &mut out) {
            Ok(_) => assert_eq!((row / 64 == 1, out), (false, line(row as usize).into_bytes())),
            other => assert_eq!((row / 64, misfit(other)), (1, Misfit::OtherRows { row: 64 })),
        }
        let (from, to) = (start(Rows::Binary, row as usize / 64 * 64), start(Rows::Binary, (row as usize / 64 * 64 + 64).min(200)));
        match rows.part() {
            None => assert_eq!(row / 64, 1),
            Some((bytes, first)) => {
                assert!(row / 64 != 1 && first == from && bytes[from..to] == input[from..to]);
                assert!(bytes[..from].iter().chain(&bytes[to..]).all(|byte| *byte == 0), "row {row}");
            }
        }
    }
}

/// A file that counts what is read of it.
struct Counted<'a> {
    file: Cursor<&'a [u8]>,
    read: Rc<Cell<usize>>,
}

impl<'a> Counted<'a> {
    fn new(bytes: &'a [u8]) -> (Counted<'a>, Rc<Cell<usize>>) {
        let read = Rc::new(Cell::new(0));
        (Counted { file: Cursor::new(bytes), read: read.clone() }, read)
    }
}

impl Read for Counted<'_> {
    fn read(&mut self, bytes: &mut [u8]) -> Result<usize> {
        let count = self.file.read(bytes)?;
        self.read.set(self.read.get() + count);
        Ok(count)
    }
}

impl Seek for Counted<'_> {
    fn seek(&mut self, place: SeekFrom) -> Result<u64> {
        self.file.seek(place)
    }
}

#[test]
fn only_the_part_of_a_row_is_read() {
    for from in [Rows::Binary, Rows::Binary2] {
        let input = night(from, 1_000);
        let index = file(from, &input);
        for row in [0, 1, 63, 64, 500, 959, 960, 999] {
            let ((stream, of_stream), (file, of_index)) = (Counted::new(&input), Counted::new(&index));
            let mut rows = IndexedRows::open(FIELDS, from, stream, file).expect("it fits");
            assert_eq!((of_stream.get(), of_index.get()), (0, HEADER));
            let mut out = Vec::new();
            rows.fetch(row as u64, &mut out).expect("it is there");
            assert_eq!(out, line(row).as_bytes());
            let part = start(from, (row / 64 * 64 + 64).min(1_000)) - start(from, row / 64 * 64);
            assert_eq!((of_stream.get(), rows.read()), (part, part as u64), "row {row}");
            assert!(of_index.get() <= HEADER + 8, "row {row}");
            // The next row of the same part costs nothing more, and one that is not there costs nothing.
            rows.fetch(row as u64 / 64 * 64, &mut out).expect("it is there");
            assert_eq!(rows.fetch(1_000, &mut out).expect_err("there is none").refused().map(|refused| refused.number), Some(20));
            assert_eq!(of_stream.get(), part);
        }
    }
}

#[test]
fn every_row_is_fetched_as_from_memory() {
    for from in [Rows::Binary, Rows::Binary2] {
        let mut input = night(from, 170);
        // What stands behind the rows does not read, and is not looked at.
        input.extend([0xff; 30]);
        let index = Index::build(FIELDS, from, &input).expect_err("the end is no row").index;
        assert_eq!((index.of().rows, index.of().end), (170, start(from, 170) as u64));
        let file = file(from, &input);
        let mut rows = IndexedRows::open(FIELDS, from, Cursor::new(&input), Cursor::new(&file)).expect("it fits");
        assert_eq!(rows.of(), index.of());
        for row in (0..171).chain([100, 3, u64::MAX]) {
            let (mut one, mut other) = (Vec::new(), Vec::new());
            let answers = (rows.fetch(row, &mut one), index.fetch(FIELDS, &input, row, &mut other));
            assert_eq!(format!("{:?}", answers.0), format!("{:?}", answers.1), "row {row}");
            assert_eq!(one, other);
            assert!(answers.0.is_ok() == (row < 170 && !(from == Rows::Binary2 && row == EMPTY as u64)), "row {row}");
        }
    }
}

#[test]
fn a_misfit_is_said_in_words() {
    let said = [
        (Misfit::NoIndex, "this file is no index of a stream"),
        (Misfit::OtherFormat { format: 2 }, "this index has format 2, and format 1 is wanted"),
        (Misfit::OtherSize { wanted: 80, found: 79 }, "this index is cut short: it has 79 bytes of 80"),
        (Misfit::OtherSize { wanted: 80, found: 81 }, "this index is too long: it has 81 bytes, and 80 are its own"),
        (Misfit::Damaged, "this index is damaged: what it says cannot be"),
        (Misfit::OtherKind { indexed: Rows::Binary, asked: Rows::Binary2 }, "this index is of BINARY rows, and BINARY2 rows are asked for"),
        (Misfit::OtherLength { indexed: 7, found: 8 }, "this index is of a stream of 7 bytes, and the stream has 8"),
        (Misfit::OtherDeclarations, "this index was built with other FIELD elements"),
        (
            Misfit::OtherRows { row: 64 },
            "the stream has changed since this index was built: the rows from 64 on are no longer where it says",
        ),
    ];
    for (misfit, words) in said {
        assert_eq!((misfit.to_string(), Error::from(misfit).to_string()), (words.to_string(), words.to_string()));
        assert!(Error::from(misfit).refused().is_none());
    }
}
