//! `sailmortar index` and `sailmortar row`: what they write, what they say, and how much they read.

use std::fs::{self, File};
use std::os::unix::fs::FileExt;
use std::path::Path;
use std::process::Stdio;
use std::time::{Duration, Instant};

use sailmortar::{Index, Rows};

use super::night::{line, night, start, EMPTY, FIELDS};
use crate::shell::{Said, Scratch};

const INDEX: &str = "index --fields f --from binary2 night -o night.index";
const ROW: &str = "--fields f --from binary2 night --index night.index";
const BUILD: &str = "build the index with 'sailmortar index --fields f --from binary2 night -o night.index'";

/// A folder with a night of 200 rows and its fields.
fn folder(test: &str) -> Scratch {
    let scratch = Scratch::new(test);
    scratch.put("f", FIELDS);
    scratch.put("night", &night(Rows::Binary2, 200));
    scratch
}

/// The same with the night's index.
fn indexed(test: &str) -> Scratch {
    let scratch = folder(test);
    assert_eq!(scratch.run(INDEX), Said::good(b""));
    scratch
}

fn lines(rows: impl IntoIterator<Item = usize>) -> String {
    rows.into_iter().map(line).collect()
}

fn wrong(words: &str) -> Said {
    Said { status: 2, out: vec![], err: format!("sailmortar: {words}\nTry 'sailmortar --help'.\n") }
}

#[test]
fn an_index_is_written_and_rows_are_fetched_by_it() {
    for (name, from) in [("binary", Rows::Binary), ("binary2", Rows::Binary2)] {
        let scratch = Scratch::new(&format!("index_{name}"));
        let input = night(from, 149);
        scratch.put("f", FIELDS);
        scratch.put("night", &input);
        let build = format!("index --fields f --from {name} night -o night.index");
        assert_eq!(scratch.run(&build), Said::good(b""));
        let index = Index::build(FIELDS, from, &input).expect("the rows are good");
        assert!(Index::read(&scratch.get("night.index")[..]).expect("it is an index") == index);
        assert_eq!(scratch.parts(), [""; 0]);
        let row = |rows: &str| scratch.run(&format!("row {rows} --fields f --from {name} night --index night.index"));
        for number in [0, 1, 63, 64, 127, 128, 148] {
            assert_eq!(row(&number.to_string()), Said::good(line(number).as_bytes()));
        }
        assert_eq!(row("0-148"), Said::good(lines(0..149).as_bytes()));
        assert_eq!(
            row("140-142 7 60-66 7 7-7 000148"),
            Said::good(lines([140, 141, 142, 7, 60, 61, 62, 63, 64, 65, 66, 7, 7, 148]).as_bytes())
        );
    }
}

#[test]
fn an_index_can_be_of_what_comes_through_a_pipe_and_go_through_one() {
    let scratch = indexed("index_pipe");
    let index = scratch.get("night.index");
    let said = scratch.run_with("index --fields f --from binary2", &scratch.get("night"));
    assert_eq!(said, Said::good(&index));
    assert_eq!(scratch.run_with("index --fields f --from binary2 - -o -", &scratch.get("night")), Said::good(&index));
    assert_eq!(scratch.run_with("index --fields - --from binary2 night", FIELDS), Said::good(&index));
    assert_eq!(scratch.run_with("row 3 --fields - --from binary2 night --index night.index", FIELDS), Said::good(line(3).as_bytes()));
}

#[test]
fn rows_and_the_stream_are_told_apart_by_their_looks() {
    let scratch = indexed("index_words");
    fs::rename(scratch.path("night"), scratch.path("7")).expect("a name");
    for words in ["row 5 ./7", "row ./7 5", "row -- ./7 5"] {
        let options = "--fields f --from binary2 --index night.index";
        let (command, operands) = words.split_at(3);
        let said = match operands.strip_prefix(" -- ") {
            Some(operands) => scratch.run(&format!("{command} {options} -- {operands}")),
            None => scratch.run(&format!("{words} {options}")),
        };
        assert_eq!(said, Said::good(line(5).as_bytes()), "{words}");
    }
    fs::rename(scratch.path("7"), scratch.path("2026-11-16")).expect("a name");
    let words = "row 2026-11-16 5 --fields=f --from=BINARY2 --index=night.index";
    assert_eq!(scratch.run(words), Said::good(line(5).as_bytes()), "a day is no range");
}

#[test]
fn rows_go_to_a_file() {
    let scratch = indexed("index_output");
    scratch.put("out", b"yesterday");
    assert_eq!(scratch.run(&format!("row 3 199 {ROW} -o out")), Said::good(b""));
    assert_eq!(scratch.get("out"), lines([3, 199]).as_bytes());
    // More than is held at once.
    let long = ["0-148"; 250].join(" ");
    assert_eq!(scratch.run(&format!("row {long} {ROW} -o out")), Said::good(b""));
    assert!(scratch.get("out") == lines(0..149).repeat(250).as_bytes());
    assert_eq!(scratch.parts(), [""; 0]);
}

#[test]
fn success_is_told_where_it_is_asked_for() {
    let scratch = folder("index_verbose");
    let (length, part) = (start(Rows::Binary2, 200), start(Rows::Binary2, 64));
    let told = |line: String| Said { status: 0, out: vec![], err: format!("sailmortar: {line}\n") };
    let said = scratch.run(&format!("{INDEX} -v"));
    assert_eq!(said, told(format!("night: 200 rows, {} bytes read, 88 bytes written to night.index", commas(length))));
    let said = scratch.run(&format!("row 3 5-6 {ROW} -o out --verbose"));
    let bytes = lines([3, 5, 6]).len();
    assert_eq!(said, told(format!("night: 3 rows, {} bytes read, {bytes} bytes written to out", commas(part))));
    let said = scratch.run(&format!("{INDEX} --json"));
    assert_eq!(said.err, format!("{{\"status\":0,\"rows\":200,\"read\":{length},\"bytes\":88,\"output\":\"night.index\"}}\n"));
    let said = scratch.run(&format!("row 3 5-6 {ROW} -o out --json"));
    assert_eq!(said.err, format!("{{\"status\":0,\"rows\":3,\"read\":{part},\"bytes\":{bytes},\"output\":\"out\"}}\n"));
}

fn commas(number: usize) -> String {
    format!("{},{:03}", number / 1_000, number % 1_000)
}

#[test]
fn a_refused_row_is_told_as_convert_tells_it_and_those_before_it_stand() {
    let scratch = indexed("index_refused");
    let meaning = "a cell that is empty but not null, and the target has no form for that";
    let place = start(Rows::Binary2, EMPTY);
    let said = |stands: &str| {
        [
            format!("night: refusal 14 at row 150, column 1 (note): char 40*, shows an empty text and goes to TABLEDATA: {meaning}"),
            stands.to_string(),
            format!(
                "rows and columns count from 0; row 150 begins at byte {place}, column 1 at byte {}; 'sailmortar explain 14' says more",
                place + 5
            ),
        ]
    };
    let refused = |out: &str, stands: &str| Said::refused(out.as_bytes(), &said(stands).each_ref().map(|line| &line[..]));
    let told = scratch.run(&format!("row 149-151 {ROW}"));
    assert_eq!(told, refused(&line(149), "the 1 row asked for before it is written to standard output"));
    let told = scratch.run(&format!("row 3 4 150 5 {ROW} -o out"));
    assert_eq!(told, refused("", "the 2 rows asked for before it are written to out"));
    assert_eq!(scratch.get("out"), lines([3, 4]).as_bytes());
    let told = scratch.run(&format!("row 150 3 {ROW} -o out"));
    assert_eq!(told, refused("", "no row stands before it, and out is left as it was"));
    assert_eq!(scratch.get("out"), lines([3, 4]).as_bytes());
    assert_eq!(scratch.run(&format!("row 150 {ROW} -o new")), refused("", "no row stands before it, and nothing is written"));
    assert!(!scratch.has("new") && scratch.parts().is_empty());
    let json = scratch.run(&format!("row 3 150 {ROW} -o out --json")).err;
    for member in ["\"status\":1", "\"number\":14", "\"row\":150", "\"column\":1", "\"rows\":1", "\"output\":\"out\""] {
        assert!(json.contains(member), "{member} in {json}");
    }
    assert!(json.contains(&format!("\"offset\":{place},\"byte\":{}", place + 5)) && json.lines().count() == 1, "{json}");
}

#[test]
fn a_row_past_the_end_is_told_with_the_rows_that_are_there() {
    let scratch = indexed("index_past");
    let more = "rows count from 0; 'sailmortar explain 20' says more";
    let said = scratch.run(&format!("row 198-300 {ROW}"));
    let first = "night: refusal 20 at row 200: the stream has rows 0 to 199, row 200 is past the end";
    let stands = "the 2 rows asked for before it are written to standard output";
    assert_eq!(said, Said::refused(lines([198, 199]).as_bytes(), &[first, stands, more]));
    let said = scratch.run(&format!("row {} {ROW} -o out", u64::MAX));
    let first = format!("night: refusal 20 at row {0}: the stream has rows 0 to 199, row {0} is past the end", u64::MAX);
    assert_eq!(said, Said::refused(b"", &[&first, "no row stands before it, and nothing is written", more]));
    let json = "{\"status\":1,\"file\":\"night\",\"number\":20,\"meaning\":\"a row past the end of the stream\",\
        \"row\":200,\"column\":0,\"count\":200,\"rows\":0,\"bytes\":0}\n";
    assert_eq!(scratch.run(&format!("row 200 {ROW} --json")).err, json);
    scratch.put("night", b"");
    assert_eq!(scratch.run(INDEX), Said { status: 0, out: vec![], err: emptied() });
    let first = "night: refusal 20 at row 0: the stream has no rows, row 0 is past the end";
    let said = scratch.run(&format!("row 0 {ROW}"));
    assert_eq!(said, Said::refused(b"", &[first, "no row stands before it, and nothing is written", more]));
}

/// An index of nothing in the place of one of something is said unasked, as of every output.
fn emptied() -> String {
    "sailmortar: night: 0 rows, 0 bytes read, 72 bytes written to night.index\n".to_string()
}

#[test]
fn a_stream_that_is_refused_has_an_index_of_the_rows_before() {
    let scratch = folder("index_cut");
    let whole = night(Rows::Binary2, 200);
    let place = start(Rows::Binary2, 130);
    scratch.put("cut", &whole[..place + 7]);
    let said = |stands: &str| {
        [
            "cut: refusal 8 at row 130, column 1 (note): char 40*, 2 of the 4 bytes of its count are left (00 00): \
             the BINARY or BINARY2 stream ends inside a row"
                .to_string(),
            stands.to_string(),
            format!(
                "rows and columns count from 0; row 130 begins at byte {place}, column 1 at byte {}; 'sailmortar explain 8' says more",
                place + 5
            ),
        ]
    };
    let refused = |stands: &str| Said::refused(b"", &said(stands).each_ref().map(|line| &line[..]));
    let told = scratch.run("index --fields f --from binary2 cut -o cut.index");
    assert_eq!(told, refused("the index of the 130 rows before it is written to cut.index"));
    let convert = scratch.run("convert --fields f --from binary2 --to binary2 cut -o rows");
    let others =
        |said: &Said| said.err.lines().enumerate().filter(|(line, _)| *line != 1).map(|(_, line)| line.to_string()).collect::<Vec<_>>();
    assert_eq!((others(&told), told.status), (others(&convert), convert.status), "as convert tells it");
    let row = |rows: &str| scratch.run(&format!("row {rows} --fields f --from binary2 cut --index cut.index"));
    assert_eq!(row("0-129"), Said::good(lines(0..130).as_bytes()));
    let lines = [
        "cut: refusal 20 at row 130: of the stream rows 0 to 129 can be read, and what stands behind them cannot, row 130 is past the end",
        "no row stands before it, and nothing is written",
        "rows count from 0; 'sailmortar explain 20' says more",
        "hint: 'sailmortar check --fields f --from binary2 cut' says what is wrong behind them",
    ];
    assert_eq!(row("130"), Said::refused(b"", &lines));
    let json = scratch.run("index --fields f --from binary2 cut -o cut.index --json").err;
    for member in ["\"number\":8", "\"row\":130", "\"rows\":130", "\"bytes\":84", "\"output\":\"cut.index\""] {
        assert!(json.contains(member), "{member} in {json}");
    }
}

#[test]
fn a_refused_first_row_leaves_the_index_as_it_was() {
    let scratch = indexed("index_first");
    let index = scratch.get("night.index");
    for (bytes, name, left) in [(&b"\0\0"[..], "night.index", "night.index is left as it was"), (b"\0\0", "new", "nothing is written")] {
        scratch.put("night", bytes);
        let said = scratch.run(&format!("index --fields f --from binary2 night -o {name}"));
        assert!(said.status == 1 && said.err.contains(&format!("no row stands before it, and {left}\n")), "{}", said.err);
    }
    assert!(scratch.get("night.index") == index && !scratch.has("new") && scratch.parts().is_empty());
    scratch.put("f", b"<FIELD");
    for words in [INDEX.to_string(), format!("row 5 {ROW}")] {
        let said = scratch.run(&words);
        assert!(said.status == 1 && said.err.starts_with("sailmortar: f: refusal 1"), "{}", said.err);
    }
}

#[test]
fn an_index_that_does_not_fit_is_said_and_not_used() {
    let scratch = indexed("index_misfit");
    let good = scratch.get("night.index");
    let told = |misfit: &str, build: &str| {
        Said::refused(b"", &[&format!("night.index: {misfit}"), &format!("it is not used, and nothing is written; {build}")])
    };
    let other = |index: &[u8], misfit: &str| {
        scratch.put("night.index", index);
        assert_eq!(scratch.run(&format!("row 5 {ROW} -o out")), told(misfit, BUILD));
        assert!(!scratch.has("out") && scratch.parts().is_empty());
    };
    other(b"", "this file is no index of a stream");
    other(&scratch.get("night"), "this file is no index of a stream");
    other(&good[..71], "this index is cut short: it has 71 bytes of 72");
    other(&good[..87], "this index is cut short: it has 87 bytes of 88");
    other(&[&good[..], b"\n"].concat(), "this index is too long: it has 89 bytes, and 88 are its own");
    other(&[&good[..16], b"\x07", &good[17..]].concat(), "this index has format 7, and format 1 is wanted");
    other(&[&good[..40], b"\x07", &good[41..]].concat(), "this index is damaged: what it says cannot be");
    scratch.put("night.index", &good);
    let said = scratch.run("row 5 --fields f --from binary night --index night.index");
    let build = "build the index with 'sailmortar index --fields f --from binary night -o night.index'";
    assert_eq!(said, told("this index is of BINARY2 rows, and BINARY rows are asked for", build));
    scratch.put("night", &night(Rows::Binary2, 201));
    let (old, new) = (start(Rows::Binary2, 200), start(Rows::Binary2, 201));
    let said = scratch.run(&format!("row 5 {ROW}"));
    assert_eq!(said, told(&format!("this index is of a stream of {old} bytes, and the stream has {new}"), BUILD));
    scratch.put("night", &night(Rows::Binary2, 200));
    scratch.put("f", &[FIELDS, b"\n"].concat());
    assert_eq!(scratch.run(&format!("row 5 {ROW}")), told("this index was built with other FIELD elements", BUILD));
    assert_eq!(scratch.run(INDEX), Said::good(b""));
    assert_eq!(scratch.run(&format!("row 5 {ROW}")), Said::good(line(5).as_bytes()), "what the words say helps");
}

#[test]
fn a_stream_that_has_changed_is_said() {
    let scratch = indexed("index_changed");
    let input = scratch.get("night");
    let third = start(Rows::Binary2, 3);
    scratch.put("night", &[&input[third..], &input[..third]].concat());
    let lines = [
        "night.index: the stream has changed since this index was built: the rows from 64 on are no longer where it says",
        &format!("it is not used, and nothing is written; {BUILD}"),
    ];
    assert_eq!(scratch.run(&format!("row 70 {ROW}")), Said::refused(b"", &lines));
    // The first part is as it was, and so much of it was asked for that some has gone out.
    let last = start(Rows::Binary2, 190);
    scratch.put("night", &[&input[..last], &input[last + 1..], b"x"].concat());
    let (first, said) = (["0-63"; 500].join(" "), "what it gave so far is not to be trusted");
    let told = scratch.run(&format!("row {first} 195 {ROW}"));
    assert!(!told.out.is_empty() && lines_of_first(&told.out) && told.err.contains(said) && told.status == 1, "{}", told.err);
    let told = scratch.run(&format!("row {first} 195 {ROW} -o out"));
    assert!(told.err.contains("it is not used, and nothing is written") && !scratch.has("out"), "{}", told.err);
    let json = scratch.run(&format!("row 195 {ROW} --json")).err;
    assert!(json.starts_with("{\"status\":1,\"file\":\"night.index\",\"message\":\"the stream has changed"), "{json}");
    assert!(json.contains("\"build\":\"sailmortar index --fields f --from binary2 night -o night.index\"}"), "{json}");
}

/// Whether these are lines of rows 0 to 63, over and over.
fn lines_of_first(out: &[u8]) -> bool {
    lines(0..64).repeat(500).as_bytes().starts_with(out)
}

/// A night that was named as the index by mistake must not be lost by following the words.
#[test]
fn the_words_do_not_say_to_write_over_what_is_no_index() {
    let scratch = indexed("index_mistaken");
    scratch.put("other night", &scratch.get("night"));
    let mut command = scratch.command("row 5 --fields f --from binary2 night --index");
    let said = Said::of(command.arg("other night").output().expect("the program runs"));
    assert!(said.err.contains("other night: this file is no index of a stream\n") && said.err.contains("-o night.index'"), "{}", said.err);
    let mut command = scratch.command("row 5 --fields f --from binary2 --index night.index");
    let said = Said::of(command.arg("other night").output().expect("the program runs"));
    assert_eq!(said, Said::good(line(5).as_bytes()), "the same bytes under another name");
    // A name that a shell would take apart is quoted.
    let mut command = scratch.command("row 5 --fields f --from binary2");
    let said = Said::of(command.arg("other night").output().expect("the program runs"));
    assert!(said.err.contains("'sailmortar index --fields f --from binary2 \"other night\" -o \"other night.index\"'"), "{}", said.err);
}

#[test]
fn without_an_index_the_words_say_what_to_do() {
    let scratch = folder("index_none");
    let build = "sailmortar index --fields f --from binary2 night -o night.index";
    let ask = "sailmortar row 40312 40320-40329 --fields f --from binary2 night --index night.index";
    let said = scratch.run("row 40312 40320-40329 --fields f --from binary2 night");
    assert_eq!(said, wrong(&format!("row needs --index FILE as well: build it once with '{build}', then ask with '{ask}'")));
    let said = scratch.run(&format!("row 5 {ROW}"));
    assert_eq!(said, Said::trouble(&format!("night.index: there is no such index; build it with '{build}'")));
    let said = scratch.run("row 5 --fields f --from binary2 nowhere --index night.index");
    assert_eq!(said, Said::trouble("nowhere: No such file or directory"));
}

#[test]
fn wrong_usage_is_said_in_a_line() {
    let scratch = indexed("index_usage");
    let needs_rows = "row needs the rows, from 0: a number as 40312, or a range as 40320-40329";
    let no_stream = "row needs the file of the stream as well; a file whose name looks like rows is given as './40312'";
    let not_a_file = "row takes the stream as a file: standard input cannot be read from any place";
    let text = "an index is for BINARY and BINARY2: convert TABLEDATA first, with 'sailmortar convert --to binary2'";
    let base64 = "an index is of the bytes themselves: decode the base64 first, with 'sailmortar base64 decode INPUT -o OUTPUT'";
    let cases = [
        ("index --fields f night".to_string(), "index needs --from KIND as well"),
        ("index --fields f --from tabledata night.tabledata".into(), text),
        ("index --fields f --from binary2 --base64-in night".into(), base64),
        ("index --fields f --from binary2 night other".into(), "one INPUT at most, and 'other' is a second"),
        ("index --fields - --from binary2".into(), "the fields and the rows cannot both come from standard input"),
        ("index --fields f --from binary2 night --to binary".into(), "unknown option '--to' for index"),
        ("index --fields f --from binary2 night -o night".into(), "an index wants a file of its own, and night is read as well"),
        ("index --fields f --from binary2 night -o ./f".into(), "an index wants a file of its own, and ./f is read as well"),
        (format!("row {ROW}"), needs_rows),
        ("row 5 --from binary2 night --index night.index".into(), "row needs --fields FILE as well"),
        ("row 5 --fields f --from binary2 --index night.index".into(), no_stream),
        ("row 5 - --fields f --from binary2 --index night.index".into(), not_a_file),
        ("row 5 --fields f --from tabledata night --index night.index".into(), text),
        (format!("row 5 {ROW} --base64-in"), base64),
        (format!("row 5 other {ROW}"), "row takes rows and one stream, and 'night' is neither a row, nor a range as 40320-40329"),
        (format!("row 9-5 {ROW}"), "a range of rows goes up, and '9-5' goes down: did you mean '5-9'?"),
        (format!("row 99999999999999999999 {ROW}"), "no stream has a row '99999999999999999999'"),
        (format!("row 5- {ROW}"), "row takes rows and one stream, and 'night' is neither a row, nor a range as 40320-40329"),
        (format!("row -5 {ROW}"), "unknown option '-5' for row"),
        ("row 5 --fields f --from binary2 night --index -".into(), "--index takes a file: standard input cannot be read from any place"),
        (
            "row 5 --fields f --from binary2 /dev/null --index night.index".into(),
            "row takes the stream as a file, and /dev/null is none: it cannot be read from any place",
        ),
        (format!("row 5 {ROW} -o night"), "what row writes wants a file of its own, and night is read as well"),
        (format!("row 5 {ROW} -o night.index"), "what row writes wants a file of its own, and night.index is read as well"),
        (format!("row 5 {ROW} -o f"), "what row writes wants a file of its own, and f is read as well"),
    ];
    let files = ["f", "night", "night.index"].map(|name| scratch.get(name));
    for (words, said) in cases {
        assert_eq!(scratch.run(&words), wrong(said), "{words}");
    }
    assert!(["f", "night", "night.index"].map(|name| scratch.get(name)) == files && scratch.parts().is_empty());
}

#[test]
fn an_input_over_its_size_is_refused_by_its_size() {
    let scratch = indexed("index_over");
    File::create(scratch.path("night")).and_then(|file| file.set_len((1 << 30) + 1)).expect("a sparse file");
    let lines = [
        "night: refusal 6: the input is over 1,073,741,824 bytes (1 GiB)",
        "no row was read and nothing is written; 'sailmortar explain 6' says more",
    ];
    assert_eq!(scratch.run("index --fields f --from binary2 night -o new"), Said::refused(b"", &lines));
    assert_eq!(scratch.run(&format!("row 5 {ROW}")), Said::refused(b"", &lines));
    assert!(!scratch.has("new"));
}

/// What the system says that a process has read, by whatever call, once it has ended; none where it does not say.
fn bytes_read(process: u32) -> Option<u64> {
    let of = |file: &str| fs::read_to_string(Path::new("/proc").join(process.to_string()).join(file)).ok();
    let patience = Instant::now() + Duration::from_secs(20);
    // It has ended when it waits for its parent, which is this one.
    while !of("stat")?.rsplit(')').next()?.trim_start().starts_with('Z') {
        assert!(Instant::now() < patience, "it does not end");
        std::thread::sleep(Duration::from_millis(1));
    }
    of("io")?.lines().find_map(|line| line.strip_prefix("rchar: "))?.parse().ok()
}

/// 40 MB in rows of 4,096 bytes, of which one row is the same part of the file wherever it stands.
#[test]
fn of_a_long_file_only_the_part_of_the_row_is_read() {
    let scratch = Scratch::new("index_long");
    let rows = 10_000_u64;
    scratch.put("f", b"<FIELD datatype='int'/><FIELD datatype='char' arraysize='4092'/>");
    let file = File::create(scratch.path("night")).expect("a scratch file");
    file.set_len(rows * 4_096).expect("a sparse file");
    for row in [0, 1, 5_003, 9_999] {
        file.write_all_at(&(row as u32).to_be_bytes(), row * 4_096).expect("a row");
    }
    assert_eq!(scratch.run("index --fields f --from binary night -o night.index"), Said::good(b""));
    for row in [0, 1, 5_003, 9_999] {
        let words = format!("row {row} --fields f --from binary night --index night.index --json");
        let mut command = scratch.command(&words);
        let child = command.stdout(Stdio::piped()).stderr(Stdio::piped()).spawn().expect("the program runs");
        let read = bytes_read(child.id());
        let said = Said::of(child.wait_with_output().expect("it has ended"));
        assert_eq!(said.out, format!("<TR><TD>{row}</TD><TD/></TR>\n").as_bytes());
        let part = if row < 9_984 { 64 } else { 16 } * 4_096;
        assert!(said.err.contains(&format!("\"read\":{part},")), "{}", said.err);
        match read {
            // What a program reads to start with is some kilobytes.
            Some(read) => assert!((part..part + 100_000).contains(&read), "row {row}: {read} bytes read"),
            None => eprintln!("this system does not say what a process has read"),
        }
    }
    // The measure itself sees one who reads all of it.
    let mut child = scratch.command("check --fields f --from binary night").stdout(Stdio::null()).spawn().expect("the program runs");
    assert!(bytes_read(child.id()).is_none_or(|read| read > rows * 4_096));
    child.wait().expect("it has ended");
}
