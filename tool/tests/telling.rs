//! What the command tells: check and columns, success, objects for programs, lines of base64, and what a terminal gets.

mod shell;

use std::fs::File;
use std::io::Write;
use std::process::{Command, Stdio};

use shell::{Said, Scratch, BINARY, BINARY2, PROGRAM, TABLEDATA};

#[test]
fn check_counts_rows_bytes_and_columns_and_writes_nothing() {
    let scratch = Scratch::new("check");
    let before = scratch.names();
    for (kind, bytes) in shell::NIGHT {
        let line = format!("night.{kind}: 2 rows, {} bytes, 3 columns\n", bytes.len());
        assert_eq!(scratch.run(&format!("check --fields fields --from {kind} night.{kind}")), Said::good(line.as_bytes()));
        let line = line.replace(&format!("night.{kind}"), "standard input");
        assert_eq!(scratch.run_with(&format!("check --fields fields --from {kind}"), bytes), Said::good(line.as_bytes()));
    }
    scratch.put("byte", b"<FIELD datatype='unsignedByte'/>");
    assert_eq!(scratch.run_with("check --fields byte --from binary -", b"x"), Said::good(b"standard input: 1 row, 1 byte, 1 column\n"));
    assert_eq!(
        scratch.run_with("check --fields byte --from binary --base64-in", b"AAEC"),
        Said::good(b"standard input: 3 rows, 4 bytes, 1 column\n")
    );
    std::fs::remove_file(scratch.path("byte")).expect("it was put");
    assert_eq!(scratch.names(), before);
}

#[test]
fn check_says_what_convert_would() {
    let scratch = Scratch::new("check_refused");
    scratch.put("cut", &BINARY2[..13]);
    let said = scratch.run("check --fields fields --from binary2 cut");
    let converted = scratch.run("convert --fields fields --from binary2 --to binary2 cut");
    let (one, other): (Vec<&str>, Vec<&str>) = (said.err.lines().collect(), converted.err.lines().collect());
    assert_eq!((said.status, one[0], one[1]), (1, other[0], "sailmortar: the 1 row before it is good"));
    // A null of a column that declares none has no form in BINARY, which is asked for alone.
    scratch.put("short", b"<FIELD datatype='short'/>");
    scratch.put("null", b"<TR><TD>7</TD></TR><TR><TD/></TR>");
    assert_eq!(scratch.run("check --fields short --from tabledata null").status, 0);
    assert_eq!(scratch.run("check --fields short --from tabledata --to binary2 null").status, 0);
    let said = scratch.run("check --fields short --from tabledata --to binary null");
    assert!(said.status == 1 && said.err.contains("refusal 15 at row 1, column 0"), "{}", said.err);
    for (words, number) in
        [("--fields cut --from binary night.binary", 1), ("--fields fields --from binary --base64-in night.tabledata", 7)]
    {
        let said = scratch.run(&format!("check {words}"));
        assert!(said.status == 1 && said.err.contains(&format!("refusal {number} ")), "{}", said.err);
    }
}

const ODD_FIELDS: &[u8] = b"<FIELD name='sky' datatype='short'><VALUES null='0xff9d'/></FIELD>\n<FIELD datatype='char' arraysize='40*'/>\n\
    <FIELD datatype='bit' name='a\x1b[2J\xC3\xA9\"' arraysize='*'/><FIELD datatype='int' arraysize='2' name='pair'><VALUES null='1'/></FIELD>";

#[test]
fn columns_says_what_the_declarations_were_understood_as() {
    let scratch = Scratch::new("columns");
    scratch.put("odd", ODD_FIELDS);
    let table = "place  datatype  length  null  name\n\
        0      short     1       -99   sky\n\
        1      char      40*     -     -\n\
        2      bit       *       -     a\\u{1b}[2J\u{e9}\"\n\
        3      int       2       -     pair\n";
    for words in ["columns odd", "columns --fields odd", "columns --fields=odd"] {
        assert_eq!(scratch.run(words), Said::good(table.as_bytes()), "{words}");
    }
    assert_eq!(scratch.run_with("columns -", ODD_FIELDS), Said::good(table.as_bytes()));
    let objects = "{\"place\":0,\"name\":\"sky\",\"datatype\":\"short\",\"arraysize\":\"1\",\"null\":\"-99\"}\n\
        {\"place\":1,\"datatype\":\"char\",\"arraysize\":\"40*\"}\n\
        {\"place\":2,\"name\":\"a\\u001b[2J\\u00e9\\\"\",\"datatype\":\"bit\",\"arraysize\":\"*\"}\n\
        {\"place\":3,\"name\":\"pair\",\"datatype\":\"int\",\"arraysize\":\"2\"}\n";
    assert_eq!(scratch.run("columns --json odd"), Said::good(objects.as_bytes()));
    // The longest name that declarations have room for, none of whose letters is shown as it is.
    let name = "\x01".repeat(65_000);
    scratch.put("long", format!("<FIELD datatype='int' name='{name}'/>").as_bytes());
    let said = scratch.run("columns long");
    assert!(said.status == 0 && said.out.ends_with(format!("-     {}\n", "\\u{1}".repeat(65_000)).as_bytes()), "{}", said.err);
    let said = scratch.run("columns night.binary");
    assert!(said.status == 1 && said.out.is_empty() && said.err.contains("refusal 1"), "{}", said.err);
}

#[test]
fn success_is_told_where_it_is_asked_for() {
    let scratch = Scratch::new("verbose");
    let told = |line: &str| Said { status: 0, out: vec![], err: format!("sailmortar: {line}\n") };
    for verbose in ["-v", "--verbose"] {
        let said = scratch.run(&format!("convert {verbose} --fields fields --from tabledata --to binary2 night.tabledata -o out"));
        assert_eq!(said, told("night.tabledata: 2 rows, 79 bytes read, 16 bytes written to out"));
    }
    assert_eq!(scratch.run("base64 encode -v out -o letters"), told("out: 16 bytes encoded, 24 bytes written to letters"));
    assert_eq!(scratch.run("base64 decode -v letters -o back"), told("letters: 24 bytes decoded, 16 bytes written to back"));
    // What is counted is what was read of the file and what stands in the other, base64 and all.
    let said = scratch.run("convert -v --fields fields --from binary2 --base64-in --to binary2 --base64-out --wrap 8 letters -o back");
    assert_eq!(said, told("letters: 2 rows, 24 bytes read, 27 bytes written to back"));
    assert_eq!(scratch.get("back").len(), 27);
    let said = scratch.run("check --fields fields --from binary2 --base64-in letters");
    assert_eq!(said, Said::good(b"letters: 2 rows, 24 bytes, 3 columns\n"));
    let said = scratch.run_with("convert -v --fields fields --from binary --to tabledata", BINARY);
    let line = "sailmortar: standard input: 2 rows, 14 bytes read, 79 bytes written to standard output\n";
    assert_eq!(said, Said { status: 0, out: TABLEDATA.to_vec(), err: line.to_string() });
}

/// The object that standard error has on its one line, as Python reads it: each member on a line, sorted by name.
fn object(said: &Said) -> String {
    assert!(said.err.ends_with("}\n") && said.err.lines().count() == 1, "{}", said.err);
    let script = "import json, sys\nfor name, value in sorted(json.load(sys.stdin).items()): print(name, repr(value))";
    let mut python = Command::new("python3");
    let mut child = python.args(["-c", script]).stdin(Stdio::piped()).stdout(Stdio::piped()).spawn().expect("python3 runs");
    child.stdin.take().expect("a pipe").write_all(said.err.as_bytes()).expect("it reads");
    let output = child.wait_with_output().expect("it ends");
    assert!(output.status.success(), "{}", said.err);
    String::from_utf8(output.stdout).expect("text")
}

#[test]
fn objects_tell_success() {
    let scratch = Scratch::new("json_success");
    let said = scratch.run("convert --json --fields fields --from tabledata --to binary2 night.tabledata -o out");
    assert_eq!((said.status, &said.err[..]), (0, "{\"status\":0,\"rows\":2,\"read\":79,\"bytes\":16,\"output\":\"out\"}\n"));
    let said = scratch.run("check --json --fields fields --from binary2 night.binary2");
    assert_eq!((said.status, &said.out[..], &said.err[..]), (0, &b""[..], "{\"status\":0,\"rows\":2,\"read\":16,\"columns\":3}\n"));
    let said = scratch.run("base64 encode --json night.binary2 -o out");
    assert_eq!((said.status, &said.err[..]), (0, "{\"status\":0,\"read\":16,\"bytes\":24}\n"));
}

#[test]
fn objects_tell_refusals() {
    let scratch = Scratch::new("json_refused");
    scratch.put("cut", &BINARY2[..13]);
    let said = scratch.run("convert --json --fields fields --from binary2 --to tabledata cut -o out");
    assert_eq!(said.status, 1);
    let members = object(&said);
    for member in
        ["output 'out'", "bytes 46", "column 1", "file 'cut'", "name 'note'", "number 8", "offset 8", "row 1", "rows 1", "status 1"]
    {
        assert!(members.lines().any(|line| line == member), "{member} in\n{members}");
    }
    // Where the rows went and where the rest is, whatever name that got.
    scratch.put("cut.rows", b"yesterday");
    let said = scratch.run("convert --json --fields fields --from binary2 --to tabledata cut -o cut --rest rest");
    let members = object(&said);
    for member in ["output 'cut.rows.1'", "rest 'rest'"] {
        assert!(members.lines().any(|line| line == member), "{member} in\n{members}");
    }
    scratch.put("fields", b"<FIELD name='m\"\xF0\x9F\x8C\x99' datatype='float'/>");
    let said = scratch.run("columns --json fields");
    let members = object(&said);
    for member in ["file 'fields'", "name 'm\"\u{1f319}'", "number 2", "column 0", "status 1"] {
        assert!(members.lines().any(|line| line == member), "{member} in\n{members}");
    }
}

#[test]
fn objects_tell_trouble_and_wrong_usage() {
    let scratch = Scratch::new("json_trouble");
    let said = scratch.run("columns --json nowhere");
    assert_eq!((said.status, &said.err[..]), (3, "{\"status\":3,\"message\":\"nowhere: No such file or directory\"}\n"));
    let said = scratch.run("convert --json --fields fields");
    assert_eq!((said.status, &said.err[..]), (2, "{\"status\":2,\"message\":\"convert needs --from KIND and --to KIND as well\"}\n"));
    let said = scratch.run("columns fields -- --json");
    assert!(said.status == 2 && said.err.starts_with("sailmortar: "), "behind -- it is a name: {}", said.err);
}

#[test]
fn base64_is_broken_into_lines() {
    let scratch = Scratch::new("wrap");
    let letters = "AAAHYSZiAFSgAABkdXNrAA==";
    let lines = |wrap: usize| letters.as_bytes().chunks(wrap).flat_map(|line| [line, b"\n"].concat()).collect::<Vec<u8>>();
    for wrap in [1, 5, 8, 23, 24, 25, 76] {
        assert_eq!(scratch.run(&format!("base64 encode --wrap {wrap} night.binary2")), Said::good(&lines(wrap)), "{wrap}");
        let words = format!("convert --fields fields --from binary --to binary2 --base64-out --wrap={wrap} night.binary");
        assert_eq!(scratch.run(&words), Said::good(&lines(wrap)), "{wrap}");
    }
    assert_eq!(scratch.run("base64 encode --wrap 0 night.binary2"), Said::good(letters.as_bytes()));
    assert_eq!(scratch.run_with("base64 encode --wrap 76", b""), Said::good(b""));
    assert_eq!(scratch.run_with("base64 decode", &lines(7)), Said::good(BINARY2));
    // At a refusal the base64 of the good rows is whole, to the end of its line.
    let words = "convert --fields fields --from binary2 --to binary --base64-out --wrap 76";
    let said = scratch.run_with(words, &BINARY2[..13]);
    assert_eq!((said.status, &said.out[..]), (1, &b"AAdhJmIAVA==\n"[..]));
}

/// Runs at a terminal of its own, which is standard output and standard error, and says what the terminal was sent and the status.
const AT_A_TERMINAL: &str = "
import os, pty, subprocess, sys
terminal, side = pty.openpty()
run = subprocess.Popen(sys.argv[1:], stdin=subprocess.DEVNULL, stdout=side, stderr=side)
os.close(side)
said = b''
while True:
    try:
        more = os.read(terminal, 4096)
    except OSError:
        break
    if not more:
        break
    said += more
sys.stdout.buffer.write(said)
sys.exit(run.wait())
";

fn at_a_terminal(scratch: &Scratch, words: &str) -> Said {
    let mut python = Command::new("python3");
    python.args(["-c", AT_A_TERMINAL, PROGRAM]).args(words.split_whitespace()).current_dir(&scratch.0);
    Said::of(python.output().expect("python3 runs"))
}

#[test]
fn bytes_go_to_a_terminal_only_where_they_are_asked_for_twice() {
    let scratch = Scratch::new("terminal");
    scratch.put("letters", b"Zm9v");
    let convert = "convert --fields fields --from tabledata night.tabledata --to";
    let cases = [
        (format!("{convert} binary"), "BINARY"),
        ("base64 decode letters".to_string(), "what base64 stands for"),
        ("index --fields fields --from binary2 night.binary2".to_string(), "an index"),
    ];
    for (words, what) in cases {
        let said = at_a_terminal(&scratch, &words);
        let line = format!(
            "sailmortar: {what} is no text, and standard output is a terminal: give '-o FILE', or '-o -' to write it here all the same"
        );
        assert_eq!(said.out, format!("{line}\r\nTry 'sailmortar --help'.\r\n").as_bytes(), "{words}");
        assert_eq!(said.status, 2);
    }
    assert_eq!(at_a_terminal(&scratch, "base64 decode letters -o -"), Said::good(b"foo"));
    let asked = at_a_terminal(&scratch, &format!("{convert} binary2 -o -"));
    assert_eq!((asked.status, asked.out.len()), (0, BINARY2.len()));
    assert_eq!(at_a_terminal(&scratch, &format!("{convert} binary2 --base64-out")), Said::good(b"AAAHYSZiAFSgAABkdXNrAA=="));
    let text = String::from_utf8_lossy(TABLEDATA).replace('\n', "\r\n");
    assert_eq!(at_a_terminal(&scratch, &format!("{convert} tabledata")), Said::good(text.as_bytes()));
    assert_eq!(at_a_terminal(&scratch, &format!("{convert} binary2 -o out")), Said::good(b""));
}

/// Types a line at a terminal and ends it; standard output and standard error are the same terminal.
const TYPED: &str = "
import os, pty, subprocess, sys, termios
terminal, side = pty.openpty()
mode = termios.tcgetattr(side)
mode[3] &= ~termios.ECHO
termios.tcsetattr(side, termios.TCSANOW, mode)
run = subprocess.Popen(sys.argv[1:], stdin=side, stdout=side, stderr=side)
said = os.read(terminal, 4096)
os.write(terminal, b'fog\\n\\x04')
run.wait()
os.close(side)
while True:
    try:
        more = os.read(terminal, 4096)
    except OSError:
        break
    if not more:
        break
    said += more
sys.stdout.buffer.write(said)
";

#[test]
fn someone_who_types_is_told_that_the_command_waits() {
    let scratch = Scratch::new("typed");
    let mut python = Command::new("python3");
    python.args(["-c", TYPED, PROGRAM, "base64", "encode"]).current_dir(&scratch.0);
    let said = String::from_utf8(python.output().expect("python3 runs").stdout).expect("text");
    assert_eq!(said, "sailmortar: reading what is typed here; Ctrl-D at the start of a line ends it\r\nZm9nCg==");
}

/// Feeds some bytes, waits for more than a second, and feeds the rest; standard error is a terminal.
const SLOWLY: &str = "
import os, pty, subprocess, sys, time
terminal, side = pty.openpty()
run = subprocess.Popen(sys.argv[1:], stdin=subprocess.PIPE, stdout=subprocess.DEVNULL, stderr=side)
os.close(side)
for _ in range(2):
    run.stdin.write(bytes(1000))
    run.stdin.flush()
    time.sleep(1.2)
run.stdin.close()
run.wait()
try:
    sys.stdout.buffer.write(os.read(terminal, 4096))
except OSError:
    pass
";

#[test]
fn a_dumb_terminal_gets_no_escapes() {
    let scratch = Scratch::new("dumb");
    // All at once, since each waits for seconds.
    let runs = [(Some("xterm"), true), (Some("dumb"), false), (Some(""), false), (None, false)].map(|(term, drawn)| {
        let mut python = Command::new("python3");
        python.args(["-c", SLOWLY, PROGRAM, "base64", "encode"]).current_dir(&scratch.0).env_remove("TERM");
        if let Some(term) = term {
            python.env("TERM", term);
        }
        (term, drawn, python.stdin(Stdio::null()).stdout(Stdio::piped()).spawn().expect("python3 runs"))
    });
    for (term, drawn, run) in runs {
        let said = run.wait_with_output().expect("python3 ends").stdout;
        assert_eq!(said.contains(&0x1b), drawn, "{term:?}: {}", said.escape_ascii());
    }
}

#[test]
fn names_of_files_that_a_terminal_would_act_on_are_spelt_out() {
    let scratch = Scratch::new("file_names");
    let odd = "a\x1b[2J\nb";
    File::create(scratch.path(odd)).expect("a file of this name");
    let run = |words: &[&str]| Said::of(Command::new(PROGRAM).args(words).current_dir(&scratch.0).output().expect("it runs"));
    let convert = ["convert", "--from", "binary", "--to", "tabledata", "--fields"];
    for words in
        [vec!["columns", odd], [&convert[..], &[odd]].concat(), vec!["columns", "no\x1b"], vec!["convert", "\x1b", "--\x1b"], vec!["\x1b"]]
    {
        let said = run(&words);
        assert!(said.status != 0 && said.err.contains("\\u{1b}") && !said.err.contains('\x1b'), "{said:?}");
        assert!(said.err.lines().all(|line| line.starts_with("sailmortar: ") || line.starts_with("Try ")), "{said:?}");
    }
}
