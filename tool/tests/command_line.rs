//! The command as a shell meets it: bytes out, words on standard error, exit statuses, and what is left in the folder.

mod shell;

use std::fs::{self, File};
use std::io::{Read, Write};
use std::process::{Command, Stdio};
use std::thread;
use std::time::Duration;

use sailmortar::{Number, NUMBERS};
use shell::{Said, Scratch, BINARY2, FIELDS, NIGHT, PROGRAM, TABLEDATA};

#[test]
fn the_sample_night_from_file_to_file_in_all_nine_ways() {
    let scratch = Scratch::new("files");
    for (from, _) in NIGHT {
        for (to, bytes) in NIGHT {
            let words = format!("convert --fields fields --from {from} --to {to} night.{from} -o out");
            assert_eq!(scratch.run(&words), Said::good(b""), "{words}");
            assert_eq!(scratch.get("out"), bytes, "{words}");
        }
    }
    assert_eq!(scratch.parts(), [""; 0]);
}

#[test]
fn the_sample_night_through_pipes_in_all_nine_ways() {
    let scratch = Scratch::new("pipes");
    for (from, input) in NIGHT {
        for (to, bytes) in NIGHT {
            let words = format!("convert --fields fields --from {from} --to {to}");
            assert_eq!(scratch.run_with(&words, input), Said::good(bytes), "{words}");
            assert_eq!(scratch.run_with(&format!("{words} - -o -"), input), Said::good(bytes), "{words} - -o -");
        }
    }
    let words = "convert --fields - --from binary --to binary2 night.binary";
    assert_eq!(scratch.run_with(words, FIELDS.as_bytes()), Said::good(BINARY2), "fields from a pipe");
    assert_eq!(scratch.run_with("convert --fields fields --from binary --to binary2", b""), Said::good(b""), "no rows");
}

/// Every line of these files ends in 13 10, in a text and among numbers, too.
#[test]
fn a_night_as_windows_writes_it_goes_to_binary2_and_back() {
    let scratch = Scratch::new("windows");
    let fields = "<FIELD name='note' datatype='char' arraysize='*'/>\n<FIELD name='site' datatype='char' arraysize='3'/>\n\
        <FIELD name='counts' datatype='short' arraysize='3'/>\n";
    let night = "<TR>\n  <TD>fog\nthen clear\n</TD>\n  <TD>a\nb</TD>\n  <TD>1\n2\n3</TD>\n</TR>\n\
        <TR\n><TD>&#13;\n</TD><TD/><TD>\n4 5\n6\n</TD></TR>\n";
    let binary2 = b"\x00\x00\x00\x00\x0Ffog\nthen clear\na\nb\x00\x01\x00\x02\x00\x03\
        \x40\x00\x00\x00\x02\r\n\x00\x00\x00\x00\x04\x00\x05\x00\x06";
    let back = "<TR><TD>fog\nthen clear\n</TD><TD>a\nb</TD><TD>1 2 3</TD></TR>\n<TR><TD>&#xD;\n</TD><TD/><TD>4 5 6</TD></TR>\n";
    for line_end in ["\r\n", "\r", "\n"] {
        scratch.put("windows.fields", fields.replace('\n', line_end).as_bytes());
        scratch.put("windows.tabledata", night.replace('\n', line_end).as_bytes());
        let words = "convert --fields windows.fields --from tabledata --to binary2 windows.tabledata -o windows.binary2";
        assert_eq!(scratch.run(words), Said::good(b""), "{line_end:?}");
        assert_eq!(scratch.get("windows.binary2"), binary2, "{line_end:?}");
        let words = "convert --fields windows.fields --from binary2 --to tabledata windows.binary2";
        assert_eq!(scratch.run(words), Said::good(back.as_bytes()), "{line_end:?}");
        let words = "convert --fields windows.fields --from tabledata --to tabledata";
        assert_eq!(scratch.run_with(words, night.replace('\n', line_end).as_bytes()), Said::good(back.as_bytes()), "{line_end:?}");
    }
    let long = "<TR><TD/><TD>ab\r\nc</TD><TD/></TR>\r\n";
    let said = scratch.run_with("convert --fields windows.fields --from tabledata --to binary2", long.as_bytes());
    let words = "char 3 'ab\\r\\nc', 4 characters where the column takes at most 3 (a line end \\r\\n counts as one)";
    assert!(said.status == 1 && said.err.contains(words), "{}", said.err);
}

#[test]
fn options_in_every_spelling() {
    let scratch = Scratch::new("spellings");
    scratch.put("-odd", TABLEDATA);
    let spellings = [
        "convert night.tabledata --fields fields --from tabledata --to binary2",
        "convert --to=binary2 night.tabledata --from=tabledata --fields=fields",
        "convert --to BINARY2 --from TableData --fields fields -- night.tabledata",
        "convert --to binary2 --from tabledata --fields fields -- -odd",
        "convert --to binary2 --from tabledata --fields fields ./night.tabledata --output=-",
    ];
    for words in spellings {
        assert_eq!(scratch.run(words), Said::good(BINARY2), "{words}");
    }
    let outputs = ["-o out", "-oout", "--output out", "--output=out", "-o ./out"];
    assert_eq!(scratch.run("convert -vo out --fields fields --from tabledata --to binary2 night.tabledata").status, 0);
    assert_eq!(scratch.get("out"), BINARY2, "letters of several options stand together");
    for output in outputs {
        let words = format!("convert {output} --fields fields --from tabledata --to binary2 night.tabledata");
        assert_eq!(scratch.run(&words), Said::good(b""), "{words}");
        assert_eq!(scratch.get("out"), BINARY2, "{words}");
        fs::remove_file(scratch.path("out")).expect("it was written");
    }
}

#[test]
fn wrong_usage_is_said_in_a_line() {
    let scratch = Scratch::new("usage");
    let all = "convert --fields fields --from binary --to binary2";
    let wrong = [
        (String::new(), "say what to do: convert, check, compare, index, row, columns, base64, explain or help"),
        ("--hlep".into(), "unknown option '--hlep'"),
        ("konvert".into(), "unknown command 'konvert'; there are convert, check, compare, index, row, columns, base64, explain and help"),
        (
            "help konvert".into(),
            "there is no command 'konvert'; there are convert, check, compare, index, row, columns, base64, explain and help",
        ),
        ("help convert check".into(), "help takes one command at most"),
        ("convert --fields fields night.binary".into(), "convert needs --from KIND and --to KIND as well"),
        ("convert --to binary --from binary".into(), "convert needs --fields FILE as well"),
        ("convert --fields fields --from fits --to binary".into(), "--from takes tabledata, binary or binary2, not 'fits'"),
        ("convert --fields fields --from binary --to=".into(), "--to needs a value"),
        (format!("{all} --form binary"), "unknown option '--form' for convert"),
        (format!("{all} -x"), "unknown option '-x' for convert"),
        (format!("{all} --to binary"), "--to is given twice"),
        (format!("{all} --base64-in=yes"), "--base64-in takes no value"),
        (format!("{all} night.binary -o"), "--output needs a value"),
        (format!("{all} night.binary --output="), "--output needs a value"),
        (format!("{all} night.binary other"), "one INPUT at most, and 'other' is a second"),
        ("convert --fields - --from binary --to binary2".into(), "the fields and the rows cannot both come from standard input"),
        (
            "convert --fields fields --from tabledata --to binary --base64-in".into(),
            "--base64-in is for BINARY and BINARY2: TABLEDATA stands in a VOTable as it is",
        ),
        (
            "convert --fields fields --from binary --to tabledata --base64-out".into(),
            "--base64-out is for BINARY and BINARY2: TABLEDATA stands in a VOTable as it is",
        ),
        (format!("{all} --wrap 76"), "--wrap is for base64: give --base64-out as well"),
        (format!("{all} --base64-out --wrap 7x"), "--wrap takes a number of letters, not '7x'"),
        (format!("{all} --base64-out --wrap +7"), "--wrap takes a number of letters, not '+7'"),
        (format!("{all} -vv"), "--verbose is given twice"),
        (format!("{all} -vx"), "unknown option '-vx' for convert"),
        (format!("{all} --verbose=yes"), "--verbose takes no value"),
        (format!("{all} --threads 0"), "--threads takes a number of threads, from 1 on, not '0'"),
        (format!("{all} --threads two"), "--threads takes a number of threads, from 1 on, not 'two'"),
        (format!("{all} --threads -1"), "--threads takes a number of threads, from 1 on, not '-1'"),
        (format!("{all} --threads=+2"), "--threads takes a number of threads, from 1 on, not '+2'"),
        (format!("{all} --threads 99999999999999999999"), "--threads takes a number of threads, from 1 on, not '99999999999999999999'"),
        (format!("{all} --threads="), "--threads needs a value"),
        (format!("{all} --threads 2 --threads 3"), "--threads is given twice"),
        (format!("{all} --long=yes"), "--long takes no value"),
        (
            format!("{all} --long --base64-in"),
            "--long does not go with --base64-in: base64 is decoded whole first, 1 GiB at most; leave --long out, \
             or decode before this command, as in 'base64 -d INPUT | sailmortar convert --long ..'",
        ),
        (
            "check --fields fields --from binary --base64-in --long".into(),
            "--long does not go with --base64-in: base64 is decoded whole first, 1 GiB at most; leave --long out, \
             or decode before this command, as in 'base64 -d INPUT | sailmortar check --long ..'",
        ),
        ("index --fields fields --from binary --threads 2 night.binary".into(), "unknown option '--threads' for index"),
        ("compare --fields fields --from binary --long night.binary night.binary".into(), "unknown option '--long' for compare"),
        (format!("{all} --rest -"), "the rows and the rest cannot both go to standard output"),
        (format!("{all} night.binary --rest night.binary"), "--rest wants a file of its own, and night.binary has another use"),
        (format!("{all} night.binary --rest fields"), "--rest wants a file of its own, and fields has another use"),
        (format!("{all} night.binary -o new --rest ./new"), "--rest wants a file of its own, and ./new has another use"),
        ("check --fields fields night.binary".into(), "check needs --from KIND as well"),
        ("check --fields fields --from binary -o out".into(), "unknown option '-o' for check"),
        ("columns".into(), "columns needs --fields FILE as well"),
        ("columns fields --fields fields".into(), "columns takes one file"),
        ("base64 decode --wrap 76".into(), "--wrap is for base64 encode"),
        ("base64".into(), "say which: base64 encode or base64 decode"),
        ("base64 recode".into(), "base64 can encode and decode, not 'recode'"),
        ("base64 encode --from binary".into(), "unknown option '--from' for base64"),
        ("explain eight".into(), "there is no refusal 'eight': they are 1 to 18 and 20"),
        ("explain 19".into(), "there is no refusal '19': they are 1 to 18 and 20"),
        ("explain 0".into(), "there is no refusal '0': they are 1 to 18 and 20"),
        ("explain 1 2".into(), "explain takes one number at most"),
    ];
    for (words, line) in wrong {
        let err = format!("sailmortar: {line}\nTry 'sailmortar --help'.\n");
        assert_eq!(scratch.run(&words), Said { status: 2, out: vec![], err }, "{words}");
    }
}

#[test]
fn help_fits_a_screen() {
    let scratch = Scratch::new("help");
    let commands = ["convert", "check", "compare", "index", "row", "columns", "base64", "explain"];
    for topic in [""].into_iter().chain(commands) {
        let help = scratch.run(&format!("help {topic}"));
        let text = String::from_utf8(help.out.clone()).expect("help is text");
        assert!(help.status == 0 && help.err.is_empty() && text.lines().count() <= 24, "{text}");
        assert!(text.lines().all(|line| line.chars().count() < 80), "{text}");
        assert_eq!(scratch.run(&format!("{topic} --help")), help);
        assert_eq!(scratch.run(&format!("{topic} -h")), help);
    }
    let text = String::from_utf8(scratch.run("--help").out).expect("help is text");
    for word in commands.into_iter().chain(["--fields", "--from", "--to", "--version", "help", "Exit status"]) {
        assert!(text.contains(word), "{word}");
    }
    assert_eq!(scratch.run("convert --fields x -h"), scratch.run("help convert"));
    assert_eq!(scratch.run("help help"), scratch.run("help"));
    let version = format!("sailmortar {}\n", env!("CARGO_PKG_VERSION"));
    for words in ["--version", "-V", "convert -V"] {
        assert_eq!(scratch.run(words), Said::good(version.as_bytes()), "{words}");
    }
}

/// The options of each command, as its help lists them.
const OPTIONS: [(&str, &[&str]); 7] = [
    (
        "convert",
        &[
            "--fields",
            "--from",
            "--to",
            "--base64-in",
            "--base64-out",
            "--wrap",
            "--output",
            "--rest",
            "--threads",
            "--long",
            "--verbose",
            "--json",
            "--help",
        ],
    ),
    ("check", &["--fields", "--from", "--to", "--base64-in", "--threads", "--long", "--json", "--help"]),
    ("compare", &["--fields", "--from", "--and", "--base64-in", "--base64-and", "--limit", "--quiet", "--verbose", "--json", "--help"]),
    ("index", &["--fields", "--from", "--output", "--verbose", "--json", "--help"]),
    ("row", &["--fields", "--from", "--index", "--output", "--verbose", "--json", "--help"]),
    ("columns", &["--fields", "--json", "--help"]),
    ("base64", &["--wrap", "--output", "--verbose", "--json", "--help"]),
];

#[test]
fn help_has_every_option_and_no_other() {
    let scratch = Scratch::new("options");
    for (command, options) in OPTIONS {
        let text = String::from_utf8(scratch.run(&format!("help {command}")).out).expect("help is text");
        let listed: Vec<&str> = text.lines().filter(|line| line.starts_with("  -")).flat_map(|line| line.split([' ', ','])).collect();
        let listed: Vec<&str> = listed.into_iter().filter(|word| word.starts_with("--")).collect();
        assert_eq!(listed, options, "{command}");
        for option in options {
            // A word that is no option is an unknown one; an option goes wrong in another way, or not at all.
            let said = scratch.run(&format!("{command} {option} {option}"));
            assert!(!said.err.contains("unknown option"), "{command} {option}: {}", said.err);
        }
    }
}

#[test]
fn explain_says_what_each_refusal_means() {
    let scratch = Scratch::new("explain");
    let list = String::from_utf8(scratch.run("explain").out).expect("text");
    for Number { number, meaning, .. } in NUMBERS {
        assert!(*number == 255 || list.contains(&format!("{number:2}  {meaning}\n")), "{list}");
        let said = scratch.run(&format!("explain {number}"));
        let text = String::from_utf8(said.out).expect("text");
        assert_eq!((said.status, said.err.as_str()), (0, ""));
        assert!(text.starts_with(&format!("refusal {number}: {meaning}\n\n")), "{text}");
        assert!(text.lines().count() >= 4 && text.lines().skip(1).all(|line| line.chars().count() < 80), "{text}");
    }
}

#[test]
fn explain_tells_the_range_of_every_integer_kind() {
    let scratch = Scratch::new("ranges");
    let text = String::from_utf8(scratch.run("explain 18").out).expect("text");
    let ranges = [
        ("unsignedByte", i64::from(u8::MIN), i64::from(u8::MAX)),
        ("short", i64::from(i16::MIN), i64::from(i16::MAX)),
        ("int", i64::from(i32::MIN), i64::from(i32::MAX)),
        ("long", i64::MIN, i64::MAX),
    ];
    for (datatype, least, greatest) in ranges {
        assert!(text.contains(&format!("\n  {datatype} goes from {least} to {greatest}\n")), "{text}");
    }
}

#[test]
fn the_man_page_has_every_option_and_every_meaning() {
    let page = include_str!("../../man/sailmortar.1").replace("\\-", "-");
    for option in OPTIONS.iter().flat_map(|(_, options)| *options).chain(&["--version"]) {
        assert!(page.contains(option), "{option}");
    }
    for (command, _) in OPTIONS {
        assert!(page.contains(&format!("sailmortar {command}")), "{command}");
    }
    let listed: Vec<&str> =
        page.split("\n.SH REFUSALS").nth(1).expect("the list").split(".SH").next().expect("its end").split(".TP\n").skip(1).collect();
    for (known, entry) in NUMBERS.iter().zip(&listed) {
        assert!(entry.starts_with(&format!("{}\n{}\n", known.number, known.meaning)), "{known:?}: {entry}");
    }
    assert_eq!(listed.len(), NUMBERS.len());
    assert!(page.contains(&format!("\"sailmortar {}\"", env!("CARGO_PKG_VERSION"))));
}

#[test]
fn a_refused_row_is_named_and_the_good_rows_are_written() {
    let scratch = Scratch::new("refused");
    let first = b"<TR><TD>7</TD><TD>a&amp;b</TD><TD>T</TD></TR>\n";
    scratch.put("cut", &BINARY2[..13]);
    let place = |stand: &str| {
        [
            "cut: refusal 8 at row 1, column 1 (note): char 4, 2 of its 4 bytes are left (64 75): the BINARY or BINARY2 stream ends inside a row"
                .to_string(),
            stand.to_string(),
            "rows and columns count from 0; row 1 begins at byte 8, column 1 at byte 11; 'sailmortar explain 8' says more".to_string(),
        ]
    };
    let to_file = place("the 1 row before it is written to out");
    let said = scratch.run("convert --fields fields --from binary2 --to tabledata cut -o out");
    assert_eq!(said, Said::refused(b"", &to_file.each_ref().map(String::as_str)));
    assert_eq!(scratch.get("out"), first);
    let to_standard = place("the 1 row before it is written to standard output");
    let said = scratch.run("convert --fields fields --from binary2 --to tabledata cut");
    assert_eq!(said, Said::refused(first, &to_standard.each_ref().map(String::as_str)));
    assert_eq!(scratch.parts(), [""; 0]);
}

#[test]
fn a_refused_row_of_text_is_named_by_its_line() {
    let scratch = Scratch::new("refused_text");
    let text = "\n<TR><TD>7</TD><TD>fog</TD><TD>T</TD></TR>\n<TR><TD>8</TD>\n<TD>fog</TD><TD>F</TD></TR>\n\n\
        \x20 <TR><TD>8</TD><TD>fog</TD><TD>maybe</TD></TR>";
    let said = scratch.run_with("convert --fields fields --from tabledata --to binary -o out", text.as_bytes());
    let lines = [
        "standard input: refusal 11 at row 2, column 2: boolean 'maybe': a byte or a text that is no value of its kind",
        "the 2 rows before it are written to out",
        "rows and columns count from 0; row 2 begins in line 6, at byte 89, column 2 in line 6, at byte 115; 'sailmortar explain 11' says more",
    ];
    assert_eq!(said, Said::refused(b"", &lines));
    assert_eq!(scratch.get("out"), b"\x00\x07fog\x00T\x00\x08fog\x00F");
}

#[test]
fn a_meter_that_overflowed_is_told_from_a_typing_fault() {
    let scratch = Scratch::new("overflowed");
    let cells = [
        ("99999", "refusal 18 at row 1, column 0 (sky): short '99999' where a short goes from -32768 to 32767: an integer outside its kind's range"),
        ("9999O", "refusal 11 at row 1, column 0 (sky): short '9999O': a byte or a text that is no value of its kind"),
    ];
    for (cell, line) in cells {
        let text = format!("<TR><TD>7</TD><TD>fog</TD><TD>T</TD></TR>\n<TR><TD>{cell}</TD><TD/><TD/></TR>\n");
        let said = scratch.run_with("convert --fields fields --from tabledata --to binary -o out", text.as_bytes());
        assert_eq!((said.status, said.err.lines().next()), (1, Some(&format!("sailmortar: standard input: {line}")[..])));
        assert_eq!(scratch.get("out"), b"\x00\x07fog\x00T");
    }
}

#[test]
fn a_refused_first_row_leaves_the_output_as_it_was() {
    let scratch = Scratch::new("refused_first");
    scratch.put("out", b"yesterday");
    let said = scratch.run_with("convert --fields fields --from tabledata --to binary -o out", b"<TR><TD>7</TD><TD/><TD/><TD/></TR>");
    let lines = [
        "standard input: refusal 10 at row 0, column 3 (after the last cell): '<TD/>' where </TR> should stand: \
         TABLEDATA tags or references are broken, or the number of cells is wrong",
        "no row stands before it, and out is left as it was",
        "rows and columns count from 0; row 0 begins in line 1, at byte 0, column 3 in line 1, at byte 24; 'sailmortar explain 10' says more",
    ];
    assert_eq!(said, Said::refused(b"", &lines));
    assert_eq!(scratch.get("out"), b"yesterday");
}

#[test]
fn names_that_a_terminal_would_act_on_are_spelt_out() {
    let scratch = Scratch::new("names");
    let long = "x".repeat(100);
    scratch.put("odd", format!("<FIELD datatype='int' name='\x1b[2Jsky'/><FIELD datatype='int' name='{long}'/>").as_bytes());
    let line = |input: &[u8]| scratch.run_with("convert --fields odd --from binary --to tabledata", input).err;
    assert!(line(b"abc").contains("column 0 (\\u{1b}[2Jsky): "), "{}", line(b"abc"));
    assert!(line(b"abcdef").contains(&format!("column 1 ({}..): ", &long[..60])), "{}", line(b"abcdef"));
}

#[test]
fn refused_declarations_leave_the_output_as_it_was() {
    let scratch = Scratch::new("declarations");
    let columns = |count: usize| "<FIELD datatype='int'/>".repeat(count);
    let over = format!("{}{}", columns(1), " ".repeat(65_537 - columns(1).len()));
    let refused = [
        ("<FIELD/>", "refusal 1 in line 1, the 1st FIELD: ", 1),
        ("<FIELD datatype='int'/>\n<FIELD datatype='float'/>", "refusal 2 in line 2, the 2nd FIELD: ", 2),
        ("<FIELD datatype='int' arraysize='0'/>", "refusal 3 in line 1, the 1st FIELD: ", 3),
        ("<FIELD datatype='short'><VALUES null='32768'/></FIELD>", "refusal 4 in line 1, the 1st FIELD: ", 4),
        ("", "refusal 5", 5),
        (&columns(65), "refusal 5 in line 1, the 65th FIELD: ", 5),
        (&over, "refusal 6: the declarations are over 65,536 bytes", 6),
    ];
    for (decls, line, number) in refused {
        scratch.put("bad.fields", decls.as_bytes());
        scratch.put("out", b"yesterday");
        let said = scratch.run("convert --fields bad.fields --from binary --to tabledata night.binary -o out");
        let nothing = format!("no row was read and nothing is written; 'sailmortar explain {number}' says more");
        let lines: Vec<&str> = said.err.lines().collect();
        assert!(said.status == 1 && lines.len() == 2 && lines[0].starts_with(&format!("sailmortar: bad.fields: {line}")), "{}", said.err);
        assert_eq!(lines[1], format!("sailmortar: {nothing}"));
        assert_eq!((scratch.get("out"), scratch.parts()), (b"yesterday".to_vec(), vec![]));
    }
}

#[test]
fn declarations_of_just_their_size_are_read() {
    let scratch = Scratch::new("most_declarations");
    let field = "<FIELD datatype='int'/>";
    scratch.put("most.fields", format!("{field}{}", " ".repeat(65_536 - field.len())).as_bytes());
    assert_eq!(scratch.run_with("convert --fields most.fields --from binary --to binary2", &[1, 2, 3, 4]), Said::good(&[0, 1, 2, 3, 4]));
}

#[test]
fn an_input_over_its_size_writes_nothing() {
    let scratch = Scratch::new("over");
    // A file with a hole: a byte too many, and next to no disk.
    File::create(scratch.path("long")).and_then(|file| file.set_len((1 << 30) + 1)).expect("a long file");
    let nothing = "no row was read and nothing is written; 'sailmortar explain 6' says more";
    let line = "the input is over 1,073,741,824 bytes (1 GiB)";
    // The rows themselves may be of any length; an index of them, and base64, may not.
    let hint: &[&str] = &["hint: --long takes an input of any length, and goes through it as it is read"];
    let runs = [
        ("convert --fields fields --from binary --to tabledata long -o out", "refusal 6", hint),
        ("check --fields fields --from binary long", "refusal 6", hint),
        ("convert --fields fields --from binary --to tabledata --base64-in long -o out", "refusal 6 in the base64 step", &[]),
        ("check --fields fields --from binary --base64-in long", "refusal 6 in the base64 step", &[]),
        ("index --fields fields --from binary long -o out", "refusal 6", &[]),
        ("base64 encode long -o out", "refusal 6", &[]),
        ("base64 decode long -o out", "refusal 6 in the base64 step", &[]),
    ];
    for (words, refusal, hint) in runs {
        let first = format!("long: {refusal}: {line}");
        let lines = [&[&*first, nothing], hint].concat();
        assert_eq!(scratch.run(words), Said::refused(b"", &lines), "{words}");
        assert!(!scratch.has("out") && scratch.parts().is_empty());
    }
}

#[test]
fn base64_encodes_and_decodes() {
    let scratch = Scratch::new("base64");
    for (bytes, letters) in [("", ""), ("f", "Zg=="), ("fo", "Zm8="), ("foo", "Zm9v"), ("foobar", "Zm9vYmFy")] {
        assert_eq!(scratch.run_with("base64 encode", bytes.as_bytes()), Said::good(letters.as_bytes()));
        assert_eq!(scratch.run_with("base64 decode -", letters.as_bytes()), Said::good(bytes.as_bytes()));
    }
    assert_eq!(scratch.run_with("base64 decode -o out", b" Z\nm9v\r\n\tYg = =\n"), Said::good(b""));
    assert_eq!(scratch.get("out"), b"foob");
    let lines = [
        "standard input: refusal 7 in the base64 step, in line 1, at byte 1: 'h' sets bits that stand for nothing and must be 0: \
         the base64 is not valid",
        "no row was read and nothing is written; 'sailmortar explain 7' says more",
    ];
    assert_eq!(scratch.run_with("base64 decode -o out", b"Zg=="), Said::good(b""));
    assert_eq!(scratch.run_with("base64 decode -o out", b"Zh=="), Said::refused(b"", &lines));
    assert_eq!((scratch.get("out"), scratch.parts()), (b"f".to_vec(), vec![]));
}

#[test]
fn streams_as_they_stand_in_a_votable() {
    let scratch = Scratch::new("streams");
    let (binary, binary2) = ("AAdhJmIAVP+dZHVzaz8=", "AAAHYSZiAFSgAABkdXNrAA==");
    let words = "convert --fields fields --from tabledata --base64-out night.tabledata --to";
    assert_eq!(scratch.run(&format!("{words} binary")), Said::good(binary.as_bytes()));
    assert_eq!(scratch.run(&format!("{words} binary2")), Said::good(binary2.as_bytes()));
    scratch.put("stream", format!("\n  {}\n  {}\n", &binary2[..9], &binary2[9..]).as_bytes());
    let words = "convert --fields fields --base64-in --from binary2 stream --to";
    assert_eq!(scratch.run(&format!("{words} tabledata")), Said::good(TABLEDATA));
    assert_eq!(scratch.run(&format!("{words} binary --base64-out")), Said::good(binary.as_bytes()));
}

#[test]
fn refusals_behind_base64_say_which_step() {
    let scratch = Scratch::new("streams_refused");
    scratch.put("out", b"yesterday");
    scratch.put("broken", b"AAAHYSZiAFSgAABkdXNrAA=");
    let said = scratch.run("convert --fields fields --base64-in --from binary2 --to tabledata broken -o out");
    let lines = [
        "broken: refusal 7 in the base64 step, in line 1, at byte 23: the text ends inside a group of four, behind 3 of them: \
         the base64 is not valid",
        "no row was read and nothing is written; 'sailmortar explain 7' says more",
    ];
    assert_eq!(said, Said::refused(b"", &lines));
    assert_eq!((scratch.get("out"), scratch.parts()), (b"yesterday".to_vec(), vec![]));
    // Whole base64 of a stream that was cut before it was encoded: the first row, and its base64, stand.
    scratch.put("cut", b"AAAHYSZiAFSgAABkdXNr");
    let said = scratch.run("convert --fields fields --base64-in --base64-out --from binary2 --to binary cut");
    let lines = [
        "cut: refusal 8 at row 1, column 2: boolean, nothing is left of its 1 byte: the BINARY or BINARY2 stream ends inside a row",
        "the 1 row before it is written to standard output",
        "rows and columns count from 0; row 1 begins at byte 8, column 2 at byte 15 of the decoded stream; 'sailmortar explain 8' says more",
    ];
    assert_eq!(said, Said::refused(b"AAdhJmIAVA==", &lines));
}

#[test]
fn an_output_of_several_pieces_is_whole() {
    let scratch = Scratch::new("pieces");
    scratch.put("byte", b"<FIELD datatype='unsignedByte'/>");
    let count = 20_000_000;
    let mut input = vec![200; count];
    input.push(7);
    scratch.put("long", &input[..count / 4]);
    assert_eq!(scratch.run("convert --fields byte --from binary --to tabledata long -o out"), Said::good(b""));
    assert!(scratch.get("out") == b"<TR><TD>200</TD></TR>\n".repeat(count / 4), "text in four pieces");
    scratch.put("long", &input);
    assert_eq!(scratch.run("convert --fields byte --from binary --to binary2 --base64-out long -o out"), Said::good(b""));
    // Three rows are 00 C8 00, C8 00 C8, and so eight letters; the last three rows are 200, 200, 7.
    let letters = [b"AMgAyADI".repeat(count / 3), b"AMgAyAAH".to_vec()].concat();
    assert!(scratch.get("out") == letters, "base64 in two pieces");
}

#[test]
fn files_that_are_not_there_are_named() {
    let scratch = Scratch::new("missing");
    fs::create_dir(scratch.path("folder")).expect("a folder");
    let words = "convert --from binary --to tabledata";
    let troubles = [
        (format!("{words} --fields nowhere night.binary -o out"), "nowhere: No such file or directory"),
        (format!("{words} --fields folder night.binary -o out"), "folder: Is a directory"),
        (format!("{words} --fields fields nowhere -o out"), "nowhere: No such file or directory"),
        (format!("{words} --fields fields folder -o out"), "folder: Is a directory"),
        (format!("{words} --fields fields --long folder -o out"), "folder: Is a directory"),
        ("check --fields fields --from binary --long folder".into(), "folder: Is a directory"),
        (format!("{words} --fields fields night.binary/x -o out"), "night.binary/x: Not a directory"),
        (format!("{words} --fields fields night.binary -o nowhere/out"), "nowhere/out: No such file or directory"),
        (format!("{words} --fields fields night.binary -o folder"), "folder: Is a directory"),
        ("base64 encode nowhere -o out".into(), "nowhere: No such file or directory"),
        ("base64 decode folder -o out".into(), "folder: Is a directory"),
    ];
    for (words, line) in troubles {
        assert_eq!(scratch.run(&words), Said::trouble(line), "{words}");
        assert!(!scratch.has("out") && scratch.parts().is_empty(), "{words}");
    }
}

#[test]
fn a_full_device_is_named() {
    let scratch = Scratch::new("full");
    // Not by -o: should the program ever move a file over a device, a test run by root must not be what shows it.
    let words = "convert --fields fields --from binary --to tabledata night.binary";
    for words in [words, "--help", "explain 3", "base64 encode night.binary"] {
        let full = File::options().write(true).open("/dev/full").expect("the device");
        let said = Said::of(scratch.command(words).stdout(full).output().expect("the program runs"));
        assert_eq!(said, Said::trouble("standard output: No space left on device"), "{words}");
    }
}

#[test]
fn a_reader_that_goes_away_ends_the_run_quietly() {
    let scratch = Scratch::new("closed_pipe");
    scratch.put("byte", b"<FIELD datatype='unsignedByte'/>");
    scratch.put("long", &[1; 1 << 20]);
    let mut child = scratch.spawn("convert --fields byte --from binary --to tabledata long");
    let mut start = [0; 20];
    child.stdout.take().expect("a pipe").read_exact(&mut start).expect("the first row");
    assert_eq!(&start, b"<TR><TD>1</TD></TR>\n");
    assert_eq!(Said::of(child.wait_with_output().expect("it ends")), Said { status: 3, out: vec![], err: String::new() });
}

/// Feeds more than a chunk, waits for more than a second, and feeds the rest.
const SLOW: &str = "
import os, pty, subprocess, sys, threading, time
terminal, side = pty.openpty()
run = subprocess.Popen(sys.argv[1:], stdin=subprocess.PIPE, stdout=subprocess.DEVNULL, stderr=side)
os.close(side)
def feed():
    for _ in range(3):
        run.stdin.write(bytes(5 << 20))
        run.stdin.flush()
        time.sleep(1.1)
    run.stdin.write(b'cut')
    run.stdin.close()
feeder = threading.Thread(target=feed)
feeder.start()
said = b''
while True:
    try:
        more = os.read(terminal, 4096)
    except OSError:
        break
    if not more:
        break
    said += more
feeder.join()
sys.stdout.buffer.write(said)
sys.exit(run.wait())
";

#[test]
fn progress_is_shown_at_a_terminal_and_wiped() {
    let scratch = Scratch::new("progress");
    scratch.put("int", b"<FIELD datatype='int' name='n'/>");
    // Both at once, since each waits for seconds.
    let runs = [("--verbose", "10 MB read"), ("--long", " MB converted, ")].map(|(option, words)| {
        let mut python = Command::new("python3");
        python.env("TERM", "xterm").args(["-c", SLOW, PROGRAM]).args("convert --fields int --from binary --to binary2".split(' '));
        let python = python.arg(option).current_dir(&scratch.0).stdin(Stdio::null()).stdout(Stdio::piped());
        (words, python.spawn().expect("python3 runs"))
    });
    for (words, run) in runs {
        let output = run.wait_with_output().expect("python3 ends");
        let said = String::from_utf8(output.stdout).expect("text");
        let (drawn, message) = said.rsplit_once("\r\x1b[K").expect("it is wiped");
        assert!(drawn.contains("\r\x1b[Ksailmortar: ") && drawn.contains(words), "{said:?}");
        assert!(message.starts_with("sailmortar: standard input: refusal 8 at row 3932160, column 0 (n): "), "{said:?}");
        assert_eq!(output.status.code(), Some(1));
    }
}

#[test]
fn no_progress_is_shown_where_there_is_no_terminal() {
    let scratch = Scratch::new("no_progress");
    let mut child = scratch.spawn("base64 encode -o out");
    let mut stdin = child.stdin.take().expect("a pipe");
    stdin.write_all(&[0; 5 << 20]).expect("it reads");
    thread::sleep(Duration::from_millis(1200));
    stdin.write_all(&[0; 5 << 20]).expect("it reads");
    drop(stdin);
    assert_eq!(Said::of(child.wait_with_output().expect("it ends")), Said::good(b""));
}
