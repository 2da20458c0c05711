//! Many cells that differ, in rows of other lengths on either side: all of them are listed, in memory that does not grow with them.

use std::fs::{self, File};

use crate::shell::{Said, Scratch};

/// So many rows of a number and a text, as bytes; the texts of the two sides have other lengths, so that the rows of a piece are other rows.
fn night(rows: usize, note: impl Fn(usize) -> String) -> Vec<u8> {
    let row = |row: usize| {
        let note = note(row);
        [&(row as u32).to_be_bytes()[..], &(note.len() as u32).to_be_bytes(), note.as_bytes()].concat()
    };
    (0..rows).flat_map(row).collect()
}

#[test]
fn every_cell_is_listed_whatever_the_rows_of_a_piece() {
    let scratch = Scratch::new("compare_many");
    scratch.put("f", b"<FIELD datatype='int'/><FIELD datatype='char' arraysize='*'/>");
    let (one, other) = (|row: usize| "x".repeat(1 + row % 90), |row: usize| "y".repeat(1 + (row / 100) % 13));
    let rows = 60_000;
    scratch.put("a", &night(rows, one));
    scratch.put("b", &night(rows + 7, other));
    let said = scratch.run("compare --fields f --from binary a b");
    let cut = |text: String| if text.len() > 40 { format!("{}..", &text[..40]) } else { text };
    let line = |row: usize| format!("row {row}, column 1: '{}' in a, '{}' in b\n", cut(one(row)), other(row));
    let counts = "a and b: 60,000 cells differ in the 60,000 rows that both have\nb has 7 rows more: rows 60000 to 60006\n";
    let expected = (0..rows).map(line).chain([counts.to_string()]).collect::<String>();
    assert_eq!((said.status, &said.err[..]), (1, ""));
    assert!(String::from_utf8(said.out).expect("text") == expected);
    // A limit ends the list in the middle of a piece, and at the first line of one.
    for limit in [1, 21_000, 59_999] {
        let said = scratch.run(&format!("compare --fields f --from binary a b --limit {limit}"));
        let out = String::from_utf8(said.out).expect("text");
        assert!(out.starts_with(&(0..limit).map(line).collect::<String>()) && out.lines().count() == limit + 2);
    }
}

#[test]
fn rows_that_are_longer_than_a_piece() {
    let scratch = Scratch::new("compare_wide");
    scratch.put("f", &"<FIELD datatype='long' arraysize='4096'/>".repeat(64).into_bytes());
    let mut night = vec![0; 3 * 64 * 4_096 * 8];
    scratch.put("a", &night);
    let last = night.len() - 1;
    (night[7], night[last]) = (1, 2);
    scratch.put("b", &night);
    let said = scratch.run("compare --fields f --from binary a b");
    let zeros = vec!["0"; 20].join(" ");
    let lines = [
        format!("row 0, column 0: {zeros} .. in a, 1{} .. in b", &zeros[1..]),
        "row 2, column 63, from its 4,096th element on: .. 0 0 0 0 0 0 0 0 0 in a, .. 0 0 0 0 0 0 0 0 2 in b".to_string(),
        "a and b: 2 cells differ in the 3 rows that both have".to_string(),
    ];
    assert_eq!(String::from_utf8(said.out).expect("text"), lines.map(|line| line + "\n").concat());
}

/// What is listed takes several times the memory that there is, and all places that differ a good part of it.
#[test]
fn memory_does_not_grow_with_what_is_listed() {
    let scratch = Scratch::new("compare_memory");
    scratch.put("f", b"<FIELD datatype='unsignedByte'/>");
    let cells = 2_000_000;
    scratch.put("a", &vec![1; cells]);
    scratch.put("b", &vec![2; cells]);
    let output = scratch.shell("ulimit -v 60000; \"$PROGRAM\" compare --fields f --from binary a b > out");
    assert_eq!((output.status.code(), String::from_utf8_lossy(&output.stderr)), (Some(1), "".into()));
    assert!(fs::metadata(scratch.path("out")).expect("it is written").len() > 70_000_000);
    assert!(scratch.get("out").ends_with(b"\na and b: 2,000,000 cells differ in the 2,000,000 rows that both have\n"));
}

#[test]
fn out_of_memory_is_said() {
    let scratch = Scratch::new("compare_out_of_memory");
    scratch.put("f", b"<FIELD datatype='char' arraysize='4096'/>");
    for name in ["a", "b"] {
        File::create(scratch.path(name)).and_then(|file| file.set_len(100 << 20)).expect("a long file");
    }
    // There is memory for one of the two.
    let said = Said::of(scratch.shell("ulimit -v 180000; \"$PROGRAM\" compare --fields f --from binary a b"));
    assert_eq!(said, Said::trouble("out of memory"));
}

#[test]
fn a_long_file_is_refused_by_its_size_and_not_read() {
    let scratch = Scratch::new("compare_unread");
    File::create(scratch.path("long")).and_then(|file| file.set_len((1 << 30) + 1)).expect("a long file");
    for words in ["long night.binary", "night.binary long", "long long"] {
        let said = Said::of(scratch.shell(&format!("ulimit -v 20000; \"$PROGRAM\" compare --fields fields --from binary {words}")));
        assert!(said.status == 4 && said.err.starts_with("sailmortar: long: refusal 6: "), "{words}: {said:?}");
    }
}

#[test]
fn a_reader_that_has_enough_ends_the_run_in_silence() {
    let scratch = Scratch::new("compare_head");
    scratch.put("f", b"<FIELD datatype='unsignedByte'/>");
    scratch.put("a", &vec![1; 100_000]);
    scratch.put("b", &vec![2; 100_000]);
    let line = "{ \"$PROGRAM\" compare --fields f --from binary a b; echo $? > status; } | head -n 1";
    let output = scratch.shell(line);
    assert_eq!(String::from_utf8_lossy(&output.stdout), "row 0, column 0: 1 in a, 2 in b\n");
    assert_eq!((String::from_utf8_lossy(&output.stderr), scratch.get("status")), ("".into(), b"3\n".to_vec()));
}
