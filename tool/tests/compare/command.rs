//! `sailmortar compare`: what it says, where it says nothing, and how it ends.

use std::fs::File;
use std::os::unix::fs::symlink;

use crate::shell::{Said, Scratch, BINARY2, FIELDS, NIGHT, TABLEDATA};

/// Nights that differ end so, and say it on standard output.
fn differ(lines: &[&str]) -> Said {
    let out = lines.iter().map(|line| format!("{line}\n")).collect::<String>();
    Said { status: 1, out: out.into_bytes(), err: String::new() }
}

fn wrong(words: &str) -> Said {
    Said { status: 2, out: vec![], err: format!("sailmortar: {words}\nTry 'sailmortar --help'.\n") }
}

fn refused(lines: &[&str]) -> Said {
    let err = lines.iter().map(|line| format!("sailmortar: {line}\n")).collect();
    Said { status: 4, out: vec![], err }
}

/// The sample night with another sky in row 0 and another note in row 1.
fn other_night() -> Vec<u8> {
    String::from_utf8_lossy(TABLEDATA).replace("<TD>7<", "<TD>8<").replace("dusk", "dawn").into_bytes()
}

const WORDS: &str = "compare --fields fields --from binary2 night.binary2 --and tabledata";
const SKY: &str = "row 0, column 0 (sky): 7 in night.binary2, 8 in other";
const NOTE: &str = "row 1, column 1 (note): 'dusk' in night.binary2, 'dawn' in other";

#[test]
fn nothing_is_said_of_nights_that_show_the_same() {
    let scratch = Scratch::new("compare_same");
    let before = scratch.names();
    for (first, _) in NIGHT {
        for (second, bytes) in NIGHT {
            let words = format!("compare --fields fields --from {first} night.{first} --and {second} night.{second}");
            assert_eq!(scratch.run(&words), Said::good(b""));
            assert_eq!(scratch.run(&format!("{words} --quiet")), Said::good(b""));
            let words = format!("compare --fields fields --from {first} --and {second}");
            assert_eq!(scratch.run_with(&format!("{words} night.{first} -"), bytes), Said::good(b""));
        }
        // The second is of the same kind where nothing else is said, and may be the same file.
        assert_eq!(scratch.run(&format!("compare --fields fields --from {first} night.{first} night.{first}")), Said::good(b""));
    }
    assert_eq!(scratch.names(), before);
}

#[test]
fn it_is_said_where_that_is_asked_for() {
    let scratch = Scratch::new("compare_verbose");
    let told = |line: &str| Said { status: 0, out: vec![], err: format!("{line}\n") };
    let words = format!("{WORDS} night.tabledata");
    let same = "sailmortar: night.binary2 and night.tabledata show the same: 2 rows, 6 cells";
    assert_eq!(scratch.run(&format!("{words} -v")), told(same));
    assert_eq!(scratch.run(&format!("{words} --verbose")), told(same));
    let object = "{\"status\":0,\"first\":\"night.binary2\",\"second\":\"night.tabledata\",\"rows\":2,\"differing\":0,\
        \"first_beyond\":0,\"second_beyond\":0,\"listed\":0}";
    assert_eq!(scratch.run(&format!("{words} --json")), told(object));
    assert_eq!(scratch.run(&format!("{words} --json --quiet")), told(object));
    let said = scratch.run_with("compare --fields fields --from binary - --and tabledata /dev/null -v", b"");
    assert_eq!(said, told("sailmortar: standard input and /dev/null show the same: 0 rows, 0 cells"));
    scratch.put("byte", b"<FIELD datatype='unsignedByte'/>");
    scratch.put("x", b"x");
    assert_eq!(scratch.run("compare --fields byte --from binary x x -v"), told("sailmortar: x and x show the same: 1 row, 1 cell"));
}

#[test]
fn every_cell_that_differs_is_listed_and_all_are_counted() {
    let scratch = Scratch::new("compare_cells");
    scratch.put("other", &other_night());
    assert_eq!(
        scratch.run(&format!("{WORDS} other")),
        differ(&[SKY, NOTE, "night.binary2 and other: 2 cells differ in the 2 rows that both have"])
    );
    let swapped = scratch.run("compare --fields fields --from tabledata other --and binary2 night.binary2");
    let sky = "row 0, column 0 (sky): 8 in other, 7 in night.binary2";
    let note = "row 1, column 1 (note): 'dawn' in other, 'dusk' in night.binary2";
    assert_eq!(swapped, differ(&[sky, note, "other and night.binary2: 2 cells differ in the 2 rows that both have"]));
    scratch.put("other", &String::from_utf8_lossy(TABLEDATA).replace(">T<", ">F<").into_bytes());
    let last = "row 0, column 2: T in night.binary2, F in other";
    assert_eq!(
        scratch.run(&format!("{WORDS} other")),
        differ(&[last, "night.binary2 and other: 1 cell differs in the 2 rows that both have"])
    );
    let (one, other) = (&BINARY2[..8], &other_night()[..46]);
    scratch.put("night.binary2", one);
    scratch.put("other", other);
    assert_eq!(
        scratch.run(&format!("{WORDS} other")),
        differ(&[SKY, "night.binary2 and other: 1 cell differs in the 1 row that both have"])
    );
}

#[test]
fn which_file_has_more_rows_is_said() {
    let scratch = Scratch::new("compare_longer");
    let none = "night.binary2 and other: no cell differs in the 2 rows that both have";
    scratch.put("other", &TABLEDATA.repeat(3));
    assert_eq!(scratch.run(&format!("{WORDS} other")), differ(&[none, "other has 4 rows more: rows 2 to 5"]));
    scratch.put("other", &[TABLEDATA, &TABLEDATA[..46]].concat());
    assert_eq!(scratch.run(&format!("{WORDS} other")), differ(&[none, "other has 1 row more: row 2"]));
    scratch.put("other", &TABLEDATA[..46]);
    let one = "night.binary2 and other: no cell differs in the 1 row that both have";
    assert_eq!(scratch.run(&format!("{WORDS} other")), differ(&[one, "night.binary2 has 1 row more: row 1"]));
    scratch.put("other", b"\n");
    let lines = ["night.binary2 and other: there is no row that both have", "night.binary2 has 2 rows more: rows 0 to 1"];
    assert_eq!(scratch.run(&format!("{WORDS} other")), differ(&lines));
    scratch.put("other", &[&other_night()[..46], TABLEDATA].concat());
    let said = scratch.run(&format!("{WORDS} other"));
    let lines = String::from_utf8(said.out).expect("text");
    assert!(
        lines.ends_with("night.binary2 and other: 4 cells differ in the 2 rows that both have\nother has 1 row more: row 2\n"),
        "{lines}"
    );
}

#[test]
fn a_limit_is_of_the_lines_and_not_of_the_counts() {
    let scratch = Scratch::new("compare_limit");
    scratch.put("other", &other_night());
    let counts = "night.binary2 and other: 2 cells differ in the 2 rows that both have";
    let limited = |limit: &str| scratch.run(&format!("{WORDS} other --limit {limit}"));
    assert_eq!(limited("0"), differ(&[&format!("{counts}; 2 cells are not listed")]));
    assert_eq!(limited("1"), differ(&[SKY, &format!("{counts}; 1 cell is not listed")]));
    for limit in ["2", "3", "18446744073709551615"] {
        assert_eq!(limited(limit), differ(&[SKY, NOTE, counts]));
    }
    let said = scratch.run(&format!("{WORDS} other --limit=1 --json"));
    let object = "{\"row\":0,\"column\":0,\"name\":\"sky\",\"first\":\"7\",\"second\":\"8\"}\n";
    assert_eq!(String::from_utf8_lossy(&said.out), object);
    assert!(said.status == 1 && said.err.ends_with("\"differing\":2,\"first_beyond\":0,\"second_beyond\":0,\"listed\":1}\n"), "{said:?}");
}

#[test]
fn quiet_leaves_it_to_the_status() {
    let scratch = Scratch::new("compare_quiet");
    scratch.put("other", &other_night());
    scratch.put("cut", &BINARY2[..13]);
    assert_eq!(scratch.run(&format!("{WORDS} other -q")), differ(&[]));
    assert_eq!(scratch.run(&format!("{WORDS} other --quiet")), differ(&[]));
    // Standard output is not even asked for.
    assert_eq!(scratch.shell(&format!("\"$PROGRAM\" {WORDS} other -q >&-")).status.code(), Some(1));
    assert_eq!(scratch.shell(&format!("\"$PROGRAM\" {WORDS} night.tabledata -q >&-")).status.code(), Some(0));
    let said = scratch.run("compare --quiet --fields fields --from binary2 cut night.binary2");
    assert!(said.status == 4 && said.err.starts_with("sailmortar: cut: refusal 8 at row 1, column 1 (note): "), "{said:?}");
    let said = scratch.run(&format!("{WORDS} other -q --json"));
    assert_eq!((said.status, &said.out[..]), (1, &b""[..]));
    assert!(said.err.contains("\"differing\":2") && said.err.contains("\"listed\":0"), "{said:?}");
}

#[test]
fn a_refusal_names_its_file_and_is_told_as_check_tells_it() {
    let scratch = Scratch::new("compare_refused");
    scratch.put("cut", &BINARY2[..13]);
    scratch.put("cut.early", &BINARY2[..3]);
    let told = |file: &str, stands: &str, row: u64| {
        let check = scratch.run(&format!("check --fields fields --from binary2 {file}"));
        let lines: Vec<String> = check.err.lines().map(|line| line.replace("sailmortar: ", "")).collect();
        assert!(lines[0].starts_with(&format!("{file}: refusal 8 at row {row}, ")), "{lines:?}");
        refused(&[&lines[0], &format!("{stands}; it was read as BINARY2, and nothing is compared"), &lines[2]])
    };
    let compare = |first: &str, second: &str| scratch.run(&format!("compare --fields fields --from binary2 {first} {second}"));
    let one_row = "the 1 row before it is good";
    assert_eq!(compare("cut", "night.binary2"), told("cut", one_row, 1));
    assert_eq!(compare("night.binary2", "cut"), told("cut", one_row, 1));
    assert_eq!(compare("night.binary2", "cut.early"), told("cut.early", "no row stands before it", 0));
    // The first is told first, wherever it is refused.
    assert_eq!(compare("cut", "cut.early"), told("cut", one_row, 1));
    assert_eq!(compare("cut.early", "cut"), told("cut.early", "no row stands before it", 0));
    let object = |first: &str, second: &str| scratch.run(&format!("compare --fields fields --from binary2 {first} {second} --json")).err;
    let start = "{\"status\":4,\"file\":\"cut\",\"number\":8,";
    for (said, input) in [(object("cut", "night.binary2"), "\"input\":0}\n"), (object("night.binary2", "cut"), "\"input\":1}\n")] {
        assert!(said.starts_with(start) && said.ends_with(input) && said.contains("\"row\":1,\"column\":1,"), "{said}");
    }
}

#[test]
fn whatever_is_refused_has_a_status_of_its_own() {
    let scratch = Scratch::new("compare_status");
    scratch.put("broken", b"<FIELD datatype='real'/>");
    let said = scratch.run("compare --fields broken --from binary2 night.binary2 night.binary2");
    assert!(said.status == 4 && said.err.starts_with("sailmortar: broken: refusal 2"), "{said:?}");
    File::create(scratch.path("long")).and_then(|file| file.set_len((1 << 30) + 1)).expect("a long file");
    let over = |said: Said| {
        let line = "sailmortar: long: refusal 6: the input is over 1,073,741,824 bytes (1 GiB)\n";
        assert!(said.status == 4 && said.err.starts_with(line), "{said:?}");
    };
    let said = scratch.run("compare --fields fields --from binary2 night.binary2 long --json");
    assert!(said.err.starts_with("{\"status\":4,\"file\":\"long\",\"number\":6,") && said.err.ends_with("\"input\":1}\n"), "{said:?}");
    over(scratch.run("compare --fields fields --from binary2 long night.binary2"));
    over(scratch.run("compare --fields fields --from binary2 night.binary2 long"));
    scratch.put("cut", &BINARY2[..13]);
    let said = scratch.run("compare --fields fields --from binary2 cut long");
    assert!(said.status == 4 && said.err.starts_with("sailmortar: cut: refusal 8"), "the first is judged to its end: {said:?}");
    let said = scratch.run("compare --fields fields --from binary2 night.binary2 nowhere");
    assert_eq!(said, Said::trouble("nowhere: No such file or directory"));
    let said = scratch.run("compare --fields fields --from binary2 nowhere night.binary2");
    assert_eq!(said, Said::trouble("nowhere: No such file or directory"));
}

#[test]
fn hints_have_the_options_of_their_own_file() {
    let scratch = Scratch::new("compare_hints");
    let base64 = scratch.run("base64 encode night.binary2").out;
    scratch.put("night.base64", &base64);
    let hint = |words: &str| {
        let said = scratch.run(&format!("compare --fields fields {words}"));
        assert_eq!(said.status, 4, "{said:?}");
        said.err.lines().last().unwrap_or_default().to_string()
    };
    assert_eq!(hint("--from binary2 night.tabledata night.binary2"), "sailmortar: hint: this looks like TABLEDATA: is --from right?");
    assert_eq!(hint("--from binary2 night.binary2 night.tabledata"), "sailmortar: hint: this looks like TABLEDATA: is --and right?");
    assert_eq!(hint("--from binary2 night.base64 night.binary2"), "sailmortar: hint: this looks like base64: is --base64-in missing?");
    assert_eq!(hint("--from binary2 night.binary2 night.base64"), "sailmortar: hint: this looks like base64: is --base64-and missing?");
}

#[test]
fn either_may_be_base64() {
    let scratch = Scratch::new("compare_base64");
    scratch.put("night.base64", &scratch.run("base64 encode --wrap 8 night.binary2").out);
    for words in [
        "--from binary2 --base64-in night.base64 --and binary night.binary",
        "--from binary night.binary --and binary2 --base64-and night.base64",
        "--from binary2 night.base64 night.base64 --base64-in --base64-and",
    ] {
        assert_eq!(scratch.run(&format!("compare --fields fields {words}")), Said::good(b""), "{words}");
    }
    scratch.put("bad", b"Zh==");
    let said = scratch.run("compare --fields fields --from binary2 night.binary2 --base64-and bad");
    assert!(said.status == 4 && said.err.starts_with("sailmortar: bad: refusal 7 in the base64 step"), "{said:?}");
    scratch.put("cut", &BINARY2[..13]);
    let said = scratch.run("compare --fields fields --from binary2 cut --base64-and bad");
    assert!(said.status == 4 && said.err.starts_with("sailmortar: cut: refusal 8"), "the first is judged to its end: {said:?}");
}

#[test]
fn wrong_usage_is_said_in_a_line() {
    let scratch = Scratch::new("compare_usage");
    let two = "compare needs two inputs, FIRST and SECOND; '-' is standard input";
    let cases = [
        ("", "compare needs --fields FILE and --from KIND as well"),
        ("--fields fields night.binary night.binary2", "compare needs --from KIND as well"),
        ("--fields fields --from binary", two),
        ("--fields fields --from binary night.binary", two),
        ("--fields fields --from binary a b c", "compare takes two inputs, and 'c' is a third"),
        ("--fields fields --from binary - -", "the two inputs cannot both come from standard input"),
        ("--fields - --from binary - b", "the fields and the rows cannot both come from standard input"),
        ("--fields - --from binary a -", "the fields and the rows cannot both come from standard input"),
        ("--fields fields --from fits a b", "--from takes tabledata, binary or binary2, not 'fits'"),
        ("--fields fields --from binary a --and fits b", "--and takes tabledata, binary or binary2, not 'fits'"),
        ("--fields fields --from binary a b --limit x", "--limit takes a number of cells, not 'x'"),
        ("--fields fields --from binary a b --limit -1", "--limit takes a number of cells, not '-1'"),
        ("--fields fields --from binary a b --quiet --limit 1", "--quiet says nothing: leave --limit out"),
        ("--fields fields --from binary a b -qv", "--quiet says nothing: leave --verbose out"),
        ("--fields fields --from binary a b -o out", "unknown option '-o' for compare"),
        (
            "--fields fields --from tabledata --base64-in a b",
            "--base64-in is for BINARY and BINARY2: TABLEDATA stands in a VOTable as it is",
        ),
        (
            "--fields fields --from binary a --and tabledata --base64-and b",
            "--base64-and is for BINARY and BINARY2: TABLEDATA stands in a VOTable as it is",
        ),
    ];
    for (words, line) in cases {
        assert_eq!(scratch.run(&format!("compare {words}")), wrong(line), "{words}");
    }
    let output = scratch.command("compare --fields fields --from binary a").arg("").output().expect("it runs");
    assert_eq!(Said::of(output), wrong("an input has no name; '-' is standard input"));
}

#[test]
fn what_can_be_read_once_is_read_once() {
    let scratch = Scratch::new("compare_once");
    let once = wrong("the two inputs cannot both come from one pipe, terminal or descriptor");
    for words in ["- /dev/stdin", "/dev/stdin -", "/dev/fd/0 /dev/stdin"] {
        assert_eq!(scratch.run_with(&format!("compare --fields fields --from binary2 {words}"), BINARY2), once, "{words}");
        let line = format!("\"$PROGRAM\" compare --fields fields --from binary2 {words} < night.binary2");
        assert_eq!(Said::of(scratch.shell(&line)), once, "{words}, a file");
    }
    let fields = wrong("the fields and the rows cannot both come from one pipe or terminal");
    assert_eq!(scratch.run_with("compare --fields - --from binary2 night.binary2 /dev/stdin", FIELDS.as_bytes()), fields);
    // A file by two names is two readings.
    symlink("night.binary2", scratch.path("link")).expect("a link");
    let line = "\"$PROGRAM\" compare --fields fields --from binary2 link - < night.binary2";
    assert_eq!(Said::of(scratch.shell(line)), Said::good(b""));
}

#[test]
fn standard_output_takes_the_place_of_no_file_that_is_compared() {
    let scratch = Scratch::new("compare_over");
    let trouble = Said::trouble("standard output: it is compared as well, and would be written over");
    for words in ["night.binary2 other", "other night.binary2"] {
        scratch.put("other", BINARY2);
        let line = format!("\"$PROGRAM\" compare --fields fields --from binary2 {words} >> other");
        assert_eq!(Said::of(scratch.shell(&line)), trouble);
        assert_eq!(scratch.get("other"), BINARY2);
    }
}

#[test]
fn names_that_a_terminal_would_act_on_are_spelt_out() {
    let scratch = Scratch::new("compare_names");
    let odd = "a\x1b[2J\nb";
    scratch.put(odd, &other_night());
    let output = scratch.command(WORDS).arg(odd).output().expect("it runs");
    let lines = [SKY, NOTE, "night.binary2 and other: 2 cells differ in the 2 rows that both have"];
    assert_eq!(Said::of(output), differ(&lines.map(|line| line.replace("other", "a\\u{1b}[2J\\nb")).each_ref().map(|line| &line[..])));
}

#[test]
fn an_output_that_takes_no_more_is_trouble() {
    let scratch = Scratch::new("compare_full");
    scratch.put("other", &other_night());
    let said = Said::of(scratch.shell(&format!("\"$PROGRAM\" {WORDS} other > /dev/full")));
    assert_eq!(said, Said::trouble("standard output: No space left on device"));
    let said = Said::of(scratch.shell(&format!("\"$PROGRAM\" {WORDS} other >&-")));
    assert_eq!(said, Said::trouble("standard output: it is closed"));
}
