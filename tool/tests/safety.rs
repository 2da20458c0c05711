//! A night cannot be lost: what becomes of files when something is refused, when the system says no, and when the run is ended.

mod shell;

use std::fs::{self, File};
use std::io::Write;
use std::os::unix::fs::{symlink, FileTypeExt, MetadataExt, PermissionsExt};
use std::os::unix::process::ExitStatusExt;
use std::process::{Child, Command, Stdio};
use std::thread;
use std::time::{Duration, Instant};

use shell::{Said, Scratch, BINARY, BINARY2, FIELDS, PROGRAM, TABLEDATA};

const FIRST_ROW: &[u8] = b"<TR><TD>7</TD><TD>a&amp;b</TD><TD>T</TD></TR>\n";

/// The second line of a message: what stands.
fn what_stands(said: &Said) -> &str {
    said.err.lines().nth(1).expect("a second line")
}

#[test]
fn a_refused_row_does_not_cost_the_input_that_is_the_output() {
    let scratch = Scratch::new("in_place_refused");
    let cut = &BINARY2[..13];
    fs::create_dir(scratch.path("deep")).expect("a folder");
    for output in ["n", "./n", "link", "deep/link", "hard"] {
        scratch.put("n", cut);
        symlink("n", scratch.path("link")).expect("a link");
        symlink("../n", scratch.path("deep/link")).expect("a link");
        fs::hard_link(scratch.path("n"), scratch.path("hard")).expect("a link");
        let said = scratch.run(&format!("convert --fields fields --from binary2 --to tabledata n -o {output}"));
        let beside = if output == "hard" { "hard.rows" } else { "n.rows" };
        assert_eq!(said.status, 1);
        assert!(what_stands(&said).contains("the 1 row before it is written to "), "{}", said.err);
        assert!(what_stands(&said).ends_with(&format!("{beside}, and {output} is left as it was")), "{}", said.err);
        assert_eq!((scratch.get("n"), scratch.get(beside)), (cut.to_vec(), FIRST_ROW.to_vec()), "{output}");
        for name in ["n", "link", "deep/link", "hard", beside] {
            fs::remove_file(scratch.path(name)).expect("it is there");
        }
        assert_eq!(scratch.names(), ["deep", "fields", "night.binary", "night.binary2", "night.tabledata"], "{output}");
    }
}

#[test]
fn good_rows_never_take_the_place_of_others() {
    let scratch = Scratch::new("in_place_again");
    scratch.put("n", &BINARY2[..13]);
    scratch.put("n.rows", b"yesterday's good rows");
    for (run, beside) in ["n.rows.1", "n.rows.2"].into_iter().enumerate() {
        let said = scratch.run("convert --fields fields --from binary2 --to tabledata n -o n");
        let stands = format!("sailmortar: the 1 row before it is written to {beside}, and n is left as it was");
        assert_eq!((said.status, what_stands(&said)), (1, &stands[..]), "run {run}");
        assert_eq!(scratch.get(beside), FIRST_ROW);
    }
    assert_eq!((scratch.get("n"), scratch.get("n.rows")), (BINARY2[..13].to_vec(), b"yesterday's good rows".to_vec()));
}

/// A C library's `linkat` as it is on a file system that has no links.
const NO_LINKS: &str = "#include <errno.h>\nint linkat(int a, const char *b, int c, const char *d, int e) {\n\
    (void)a; (void)b; (void)c; (void)d; (void)e; errno = EPERM; return -1;\n}\n";

#[test]
fn good_rows_are_kept_where_the_file_system_has_no_links() {
    let scratch = Scratch::new("in_place_no_links");
    scratch.put("links.c", NO_LINKS.as_bytes());
    let made = scratch.shell("cc -shared -fPIC links.c -o links.so");
    assert!(made.status.success(), "{}", String::from_utf8_lossy(&made.stderr));
    scratch.put("n", &BINARY2[..13]);
    scratch.put("n.rows", b"yesterday's good rows");
    let words = "LD_PRELOAD=./links.so \"$PROGRAM\" convert --fields fields --from binary2 --to tabledata n -o n";
    let said = Said::of(scratch.shell(words));
    assert_eq!(what_stands(&said), "sailmortar: the 1 row before it is written to n.rows.1, and n is left as it was");
    assert_eq!((scratch.get("n"), scratch.get("n.rows.1")), (BINARY2[..13].to_vec(), FIRST_ROW.to_vec()));
    assert_eq!((scratch.get("n.rows"), scratch.parts()), (b"yesterday's good rows".to_vec(), vec![]));
    // A disk that is full shows while the new file is written, and then there is no other.
    let said = Said::of(scratch.shell(&format!("ulimit -f 0; {words}")));
    assert_eq!((said.status, scratch.has("n.rows.2"), scratch.parts()), (3, false, vec![]), "{}", said.err);
}

#[test]
fn a_wrong_kind_does_not_cost_the_input_that_is_the_output() {
    let scratch = Scratch::new("in_place_wrong_kind");
    scratch.put("n", TABLEDATA);
    let before = scratch.names();
    for from in ["binary", "binary2"] {
        let said = scratch.run(&format!("convert --fields fields --from {from} --to tabledata n -o n"));
        assert_eq!((said.status, scratch.get("n")), (1, TABLEDATA.to_vec()), "{}", said.err);
        assert!(what_stands(&said).ends_with("no row stands before it, and n is left as it was"), "{}", said.err);
        assert_eq!(scratch.names(), before);
    }
}

#[test]
fn the_fields_and_a_redirected_input_are_inputs_too() {
    let scratch = Scratch::new("in_place_others");
    scratch.put("n", &BINARY2[..13]);
    let said = scratch.run("convert --fields fields --from binary2 --to tabledata n -o fields");
    assert!(what_stands(&said).ends_with("the 1 row before it is written to fields.rows, and fields is left as it was"), "{}", said.err);
    assert_eq!((scratch.get("fields"), scratch.get("fields.rows")), (FIELDS.as_bytes().to_vec(), FIRST_ROW.to_vec()));
    let said = Said::of(scratch.shell("\"$PROGRAM\" convert --fields fields --from binary2 --to tabledata -o n < n"));
    assert!(what_stands(&said).ends_with("the 1 row before it is written to n.rows, and n is left as it was"), "{}", said.err);
    assert_eq!((scratch.get("n"), scratch.get("n.rows")), (BINARY2[..13].to_vec(), FIRST_ROW.to_vec()));
}

#[test]
fn the_output_may_be_the_input_where_all_is_good() {
    let scratch = Scratch::new("in_place");
    assert_eq!(scratch.run("convert --fields fields --from binary --to tabledata night.binary -o night.binary"), Said::good(b""));
    assert_eq!(scratch.get("night.binary"), TABLEDATA);
    assert_eq!(scratch.run("base64 encode night.binary2 -o night.binary2"), Said::good(b""));
    assert_eq!(scratch.run("base64 decode night.binary2 -o night.binary2"), Said::good(b""));
    assert_eq!(scratch.get("night.binary2"), BINARY2);
    let refused = scratch.run("base64 decode night.tabledata -o night.tabledata");
    assert_eq!((refused.status, scratch.get("night.tabledata")), (1, TABLEDATA.to_vec()));
}

#[test]
fn an_input_that_is_also_standard_output_is_not_written_over() {
    let scratch = Scratch::new("in_place_standard");
    let words = "\"$PROGRAM\" convert --fields fields --from binary --to tabledata night.binary";
    for redirection in [">> night.binary", "1<> night.binary", ">> night.binary -o /dev/stdout", "2>> night.binary -o /dev/stderr"] {
        let said = scratch.shell(&format!("{words} {redirection}"));
        assert_eq!(said.status.code(), Some(3), "{redirection}");
        assert!(scratch.get("night.binary").starts_with(BINARY), "{redirection}");
    }
    let said = String::from_utf8(scratch.shell(&format!("{words} >> night.binary")).stderr).expect("text");
    assert_eq!(said, "sailmortar: standard output: it is read as well, and would be written over; give '-o FILE'\n");
}

#[test]
fn a_night_that_is_replaced_by_nothing_is_said() {
    let scratch = Scratch::new("emptied");
    let words = "convert --fields fields --from binary --to tabledata -o out";
    assert_eq!(scratch.run_with(words, b""), Said::good(b""), "there was nothing to replace");
    scratch.put("out", b"yesterday");
    let line = "sailmortar: standard input: 0 rows, 0 bytes read, 0 bytes written to out\n";
    assert_eq!(scratch.run_with(words, b""), Said { status: 0, out: vec![], err: line.to_string() });
    assert_eq!(scratch.get("out"), b"", "a table without rows is a table");
    for (way, done) in [("encode", "encoded"), ("decode", "decoded")] {
        scratch.put("out", b"yesterday");
        let line = format!("sailmortar: standard input: 0 bytes {done}, 0 bytes written to out\n");
        assert_eq!(scratch.run_with(&format!("base64 {way} -o out"), b"").err, line);
    }
    // What the fields have read of a pipe the rows cannot have.
    scratch.put("out", b"yesterday");
    for fields in ["/dev/stdin", "/dev/fd/0", "/proc/self/fd/0"] {
        let said = scratch.run_with(&format!("convert --fields {fields} --from binary --to tabledata -o out"), FIELDS.as_bytes());
        assert_eq!((said.status, scratch.get("out")), (2, b"yesterday".to_vec()), "{}", said.err);
        assert!(said.err.contains("cannot both come from one pipe or terminal"), "{}", said.err);
    }
}

#[test]
fn refused_before_the_first_row_nothing_is_made() {
    let scratch = Scratch::new("no_row");
    let before = scratch.names();
    let said = scratch.run_with("convert --fields fields --from tabledata --to binary -o out", b"<TR><TD>7</TD></TR>");
    assert!(what_stands(&said).ends_with("no row stands before it, and nothing is written"), "{}", said.err);
    assert_eq!(scratch.names(), before);
    symlink("nowhere", scratch.path("link")).expect("a link");
    let said = scratch.run_with("convert --fields fields --from tabledata --to binary -o link", b"<TR><TD>7</TD></TR>");
    assert_eq!((said.status, scratch.has("nowhere")), (1, false));
    // Declarations that are refused, and base64 that is, have no row either.
    scratch.put("out", b"yesterday");
    for words in ["convert --fields night.binary --from binary --to tabledata night.binary -o out", "base64 decode night.binary -o out"] {
        assert_eq!((scratch.run(words).status, scratch.get("out")), (1, b"yesterday".to_vec()));
    }
}

#[test]
fn what_descriptors_hold_is_written_on_and_not_replaced() {
    let scratch = Scratch::new("descriptors");
    for name in ["/dev/stdout", "/dev/fd/1", "/proc/self/fd/1"] {
        let words = format!("\"$PROGRAM\" convert --fields fields --from binary --to tabledata night.binary -o {name}");
        let said = scratch.shell(&format!("{{ echo before; {words}; echo after; }} > all"));
        assert_eq!(Said::of(said), Said::good(b""), "{name}");
        assert_eq!(scratch.get("all"), [b"before\n", TABLEDATA, b"after\n"].concat(), "{name}");
        let said = scratch.shell(&format!("{{ echo before; {words}; echo after; }} | cat"));
        assert_eq!(Said::of(said), Said::good(&[b"before\n", TABLEDATA, b"after\n"].concat()), "{name}, a pipe");
    }
    let words = "\"$PROGRAM\" convert --fields fields --from binary --to tabledata night.binary -o /dev/stderr";
    let said = scratch.shell(&format!("{{ echo before >&2; {words}; echo after >&2; }} 2> all"));
    assert_eq!((Said::of(said), scratch.get("all")), (Said::good(b""), [b"before\n", TABLEDATA, b"after\n"].concat()));
    // Any descriptor, where it stands in its file.
    let words = "\"$PROGRAM\" convert --fields fields --from binary --to tabledata night.binary -o /dev/fd/3";
    let said = scratch.shell(&format!("{{ echo before >&3; {words}; echo after >&3; }} 3> all"));
    assert_eq!((Said::of(said), scratch.get("all")), (Said::good(b""), [b"before\n", TABLEDATA, b"after\n"].concat()));
    // The name of the file itself is no other.
    let said =
        scratch.shell("{ echo before; \"$PROGRAM\" convert --fields fields --from binary --to tabledata night.binary -o all; } > all");
    assert_eq!((Said::of(said), scratch.get("all")), (Said::good(b""), [b"before\n", TABLEDATA].concat()));
}

#[test]
fn a_link_that_leads_nowhere_yet_is_followed() {
    let scratch = Scratch::new("dangling");
    fs::create_dir(scratch.path("deep")).expect("a folder");
    symlink("deep/one", scratch.path("link")).expect("a link");
    symlink("two", scratch.path("deep/one")).expect("a link");
    assert_eq!(scratch.run("convert --fields fields --from binary --to tabledata night.binary -o link"), Said::good(b""));
    assert_eq!(scratch.get("deep/two"), TABLEDATA);
    for link in ["link", "deep/one"] {
        assert!(fs::symlink_metadata(scratch.path(link)).expect("it is there").is_symlink(), "{link} stays a link");
    }
    symlink("round", scratch.path("round")).expect("a link");
    let said = scratch.run("convert --fields fields --from binary --to tabledata night.binary -o round");
    assert_eq!((said.status, scratch.parts()), (3, vec![]), "{}", said.err);
    symlink("nowhere/at/all", scratch.path("lost")).expect("a link");
    let said = scratch.run("convert --fields fields --from binary --to tabledata night.binary -o lost");
    assert_eq!(said, Said::trouble("lost: No such file or directory"));
}

#[test]
fn closed_descriptors_are_said() {
    let scratch = Scratch::new("closed");
    let convert = "\"$PROGRAM\" convert --fields fields --from binary --to tabledata";
    let closed_output = "standard output: it is closed";
    let closed_input = "standard input: it is closed";
    let runs = [
        (format!("{convert} night.binary >&-"), closed_output),
        ("\"$PROGRAM\" --help >&-".to_string(), closed_output),
        ("\"$PROGRAM\" explain 3 >&-".to_string(), closed_output),
        ("\"$PROGRAM\" check --fields fields --from binary night.binary >&-".to_string(), closed_output),
        ("\"$PROGRAM\" base64 encode night.binary >&-".to_string(), closed_output),
        (format!("{convert} <&-"), closed_input),
        (format!("{convert} -o out <&-"), closed_input),
        (format!("{convert} /dev/stdin -o out <&-"), "/dev/stdin: it is closed"),
        (format!("{convert} /proc/self/fd/0 -o out <&-"), "/proc/self/fd/0: it is closed"),
        (format!("{convert} night.binary -o /dev/stdout >&-"), "/dev/stdout: it is closed"),
        (format!("{convert} night.binary -o /dev/fd/1 >&-"), "/dev/fd/1: it is closed"),
        (format!("{convert} night.binary -o out --rest /dev/stdout >&-"), "/dev/stdout: it is closed"),
        ("\"$PROGRAM\" check --from binary --fields /dev/stdin night.binary <&-".to_string(), "/dev/stdin: it is closed"),
        (format!("{convert} night.binary -o /dev/fd/7 7>&-"), "/dev/fd/7: Bad file descriptor"),
        ("\"$PROGRAM\" base64 decode <&-".to_string(), closed_input),
        ("\"$PROGRAM\" columns - <&-".to_string(), closed_input),
    ];
    for (words, line) in runs {
        assert_eq!(Said::of(scratch.shell(&words)), Said::trouble(line), "{words}");
        assert!(!scratch.has("out") && scratch.parts().is_empty(), "{words}");
    }
    // What is not used may be closed, and the devices that programs put there are open.
    for words in [format!("{convert} night.binary -o out <&- >&-"), format!("{convert} night.binary -o out <&- >&- 2>&-")] {
        assert_eq!(Said::of(scratch.shell(&words)), Said::good(b""), "{words}");
        assert_eq!(scratch.get("out"), TABLEDATA);
    }
    let null = File::options().read(true).write(true).open("/dev/null").expect("the device");
    let words = "convert --fields fields --from binary --to tabledata";
    assert_eq!(Said::of(scratch.command(words).stdin(null).output().expect("it runs")), Said::good(b""));
}

/// Runs under a limit of virtual memory, in kilobytes.
fn with_memory(scratch: &Scratch, limit: usize, line: &str) -> Said {
    Said::of(scratch.shell(&format!("ulimit -v {limit}; {line}")))
}

/// Each line with less memory than its input takes, with about as much, and with enough.
fn out_of_memory(test: &str, lines: &[&str]) {
    let scratch = Scratch::new(test);
    let size = 64 << 20;
    File::create(scratch.path("long")).and_then(|file| file.set_len(size)).expect("a long file");
    scratch.put("byte", b"<FIELD datatype='unsignedByte' arraysize='4096'/>");
    let letters = b"AAAA".repeat(size as usize / 4);
    scratch.put("letters", &letters);
    for line in lines {
        scratch.put("out", b"yesterday");
        let refused = [20_000, 30_000, 60_000].map(|limit| with_memory(&scratch, limit, line));
        assert_eq!(refused, [(); 3].map(|()| Said::trouble("out of memory")), "{line}");
        assert_eq!((scratch.get("out"), scratch.parts()), (b"yesterday".to_vec(), vec![]), "{line}");
        // Somewhere between these an input fits and what is made of it does not.
        for limit in (70_000..250_000).step_by(30_000) {
            let said = with_memory(&scratch, limit, line);
            assert!(said.status == 0 || said == Said::trouble("out of memory"), "{line} with {limit}: {said:?}");
            assert_eq!(scratch.parts(), [""; 0], "{line} with {limit}");
        }
        assert_eq!(with_memory(&scratch, 400_000, line).status, 0, "{line}");
    }
}

// Two tests, for two threads: this is the longest thing here.
#[test]
fn out_of_memory_is_said_and_leaves_nothing() {
    out_of_memory(
        "memory",
        &[
            "cat long | \"$PROGRAM\" convert --fields byte --from binary --to binary2 -o out",
            "cat long | \"$PROGRAM\" convert --fields byte --from binary --to binary2 --base64-out -o out",
            "cat long | \"$PROGRAM\" check --fields byte --from binary > /dev/null",
            "\"$PROGRAM\" index --fields byte --from binary long -o out",
        ],
    );
}

/// What is converted as it is read takes less memory than its input, on fewer threads where there is no room for them.
#[test]
fn out_of_memory_is_said_of_rows_that_are_converted_as_they_are_read() {
    let scratch = Scratch::new("memory_as_read");
    scratch.put("byte", b"<FIELD datatype='unsignedByte' arraysize='4096'/>");
    let runs = (1_000..).step_by(500).find(|limit| with_memory(&scratch, *limit, "\"$PROGRAM\" --version").status == 0);
    let least = runs.expect("a program takes some memory");
    let lines = [
        "\"$PROGRAM\" convert --fields byte --from binary --to binary2 long -o out",
        "\"$PROGRAM\" convert --fields byte --from binary --to tabledata long -o out --threads 8",
        "\"$PROGRAM\" convert --fields byte --from binary --to binary2 --base64-out long -o out",
        "cat long | \"$PROGRAM\" convert --fields byte --from binary --to binary2 --long -o out",
        "\"$PROGRAM\" check --fields byte --from binary long > /dev/null",
    ];
    for line in lines {
        File::create(scratch.path("long")).and_then(|file| file.set_len(8 << 20)).expect("a long file");
        scratch.put("out", b"yesterday");
        assert_eq!(with_memory(&scratch, least, line), Said::trouble("out of memory"), "{line}");
        assert_eq!(scratch.get("out"), b"yesterday", "{line}");
        for limit in (least..500_000).step_by(50_000).chain((least..30_000).step_by(3_000)) {
            let said = with_memory(&scratch, limit, line);
            assert!(said.status == 0 || said == Said::trouble("out of memory"), "{line} with {limit}: {said:?}");
            assert_eq!(scratch.parts(), [""; 0], "{line} with {limit}");
        }
        File::create(scratch.path("long")).and_then(|file| file.set_len(64 << 20)).expect("a long file");
        assert_eq!(with_memory(&scratch, 60_000, line).status, 0, "{line}");
    }
}

#[test]
fn out_of_memory_for_base64_is_said_and_leaves_nothing() {
    out_of_memory(
        "memory_base64",
        &[
            "\"$PROGRAM\" convert --fields byte --from binary --to binary2 --base64-in letters -o out",
            "cat letters | \"$PROGRAM\" convert --fields byte --from binary --to binary2 --base64-in -o out",
            "\"$PROGRAM\" base64 encode long -o out",
            "cat long | \"$PROGRAM\" base64 encode -o out",
            "\"$PROGRAM\" base64 decode letters -o out",
            "cat letters | \"$PROGRAM\" base64 decode -o out",
        ],
    );
}

/// Room as long as the stream is asked for, and not used: some systems do not give it all the same.
#[test]
fn out_of_memory_for_one_row_is_said() {
    let scratch = Scratch::new("memory_row");
    File::create(scratch.path("long")).and_then(|file| file.set_len(256 << 20)).expect("a long file");
    scratch.put("byte", b"<FIELD datatype='char' arraysize='4096'/>");
    assert_eq!(scratch.run("index --fields byte --from binary long -o index"), Said::good(b""));
    let line = "\"$PROGRAM\" row 60000 --fields byte --from binary long --index index -o out";
    assert_eq!(with_memory(&scratch, 200_000, line), Said::trouble("out of memory"));
    assert_eq!((scratch.has("out"), scratch.parts()), (false, vec![]));
    assert_eq!(with_memory(&scratch, 400_000, line), Said::good(b""));
    assert_eq!(scratch.get("out"), b"<TR><TD/></TR>\n");
}

#[test]
fn a_long_file_is_refused_by_its_size_and_not_read() {
    let scratch = Scratch::new("unread");
    File::create(scratch.path("long")).and_then(|file| file.set_len((1 << 30) + 1)).expect("a long file");
    // There is memory for a hundredth of it, and an input that is read would be the first to miss it.
    for words in [
        "convert --fields fields --from binary --to binary2",
        "base64 encode",
        "base64 decode",
        "check --fields fields --from binary",
        "index --fields fields --from binary",
    ] {
        let said = with_memory(&scratch, 20_000, &format!("\"$PROGRAM\" {words} long"));
        assert!(said.status == 1 && said.err.contains("long: refusal 6") && said.err.contains("1 GiB"), "{words}: {said:?}");
        let said = with_memory(&scratch, 20_000, &format!("\"$PROGRAM\" {words} < long"));
        assert!(said.status == 1 && said.err.contains("standard input: refusal 6"), "{words}: {said:?}");
    }
    // What was read of it before does not count.
    scratch.put("byte", b"<FIELD datatype='unsignedByte'/>");
    let words = "\"$PROGRAM\" base64 decode -o out";
    let said = Said::of(scratch.shell(&format!("{{ dd bs=1M count=1024 of=/dev/null status=none; {words}; }} < long")));
    assert!(said.status == 1 && said.err.contains("refusal 7"), "one NUL is left, and it is no letter of base64: {said:?}");
}

/// A run that has opened so many outputs and waits for more of its input.
fn waiting(scratch: &Scratch, mut command: Command, outputs: usize) -> Child {
    command.current_dir(&scratch.0).stdin(Stdio::piped()).stdout(Stdio::piped()).stderr(Stdio::piped());
    let mut child = command.spawn().expect("it runs");
    child.stdin.as_mut().expect("a pipe").write_all(BINARY).expect("it reads");
    let waited = Instant::now();
    while scratch.parts().len() < outputs {
        assert!(waited.elapsed() < Duration::from_secs(60), "it opens its outputs before it has all of its input");
        thread::sleep(Duration::from_millis(5));
    }
    child
}

fn send(signal: &str, process: &str) {
    let sent = Command::new("sh").args(["-c", &format!("kill -{signal} {process}")]).status().expect("sh runs");
    assert!(sent.success());
}

/// Runs a program with the signals' own actions: a shell that started the tests in the background has it ignore some of them.
const UNTRAPPED: &str = "
import os, signal, sys
for name in ('HUP', 'INT', 'QUIT', 'ABRT', 'USR1', 'USR2', 'ALRM', 'TERM', 'XCPU'):
    signal.signal(getattr(signal, 'SIG' + name), signal.SIG_DFL)
os.execv(sys.argv[1], sys.argv[1:])
";

fn untrapped(words: &str) -> Command {
    let mut command = Command::new("python3");
    command.args(["-c", UNTRAPPED, PROGRAM]).args(words.split_whitespace());
    command
}

const TO_OUT: &str = "convert --fields fields --from binary --to tabledata -o out";

#[test]
fn a_signal_ends_the_run_and_leaves_nothing() {
    let scratch = Scratch::new("signals");
    let signals = [("INT", 2), ("TERM", 15), ("HUP", 1), ("QUIT", 3), ("ABRT", 6), ("USR1", 10), ("USR2", 12), ("ALRM", 14), ("XCPU", 24)];
    for (signal, number) in signals {
        scratch.put("out", b"yesterday");
        let before = scratch.names();
        let mut child = waiting(&scratch, untrapped(&format!("{TO_OUT} --rest rest")), 2);
        let parts = scratch.parts();
        assert!(parts.len() == 2 && parts[0].starts_with("out.") && parts[1].starts_with("rest."), "{parts:?}");
        send(signal, &child.id().to_string());
        assert_eq!(child.wait().expect("it ends").signal(), Some(number), "the shell sees what ended it");
        assert_eq!((scratch.names(), scratch.get("out")), (before, b"yesterday".to_vec()), "{signal}");
    }
}

#[test]
fn a_signal_that_is_ignored_stays_ignored() {
    let scratch = Scratch::new("ignored");
    let mut shell = Command::new("sh");
    shell.args(["-c", &format!("trap '' HUP; exec {PROGRAM} {TO_OUT}")]);
    let mut child = waiting(&scratch, shell, 1);
    send("HUP", &child.id().to_string());
    thread::sleep(Duration::from_millis(50));
    drop(child.stdin.take());
    assert_eq!(Said::of(child.wait_with_output().expect("it ends")), Said::good(b""));
    assert_eq!(scratch.get("out"), TABLEDATA);
}

#[test]
fn a_killed_run_leaves_the_output_as_it_was() {
    let scratch = Scratch::new("killed");
    scratch.put("out", b"yesterday");
    let mut child = waiting(&scratch, scratch.command(TO_OUT), 1);
    child.kill().expect("it runs");
    child.wait().expect("it is gone");
    assert_eq!(scratch.get("out"), b"yesterday");
    // What the killed run left is named after its output, and in no one's way.
    assert!(scratch.parts().iter().all(|part| part.starts_with("out.")), "{:?}", scratch.parts());
    assert_eq!(scratch.run("convert --fields fields --from binary --to tabledata night.binary -o out"), Said::good(b""));
    assert_eq!(scratch.get("out"), TABLEDATA);
}

#[test]
fn an_output_that_cannot_be_fails_before_the_input_is_read() {
    let scratch = Scratch::new("at_once");
    let long = "x".repeat(250);
    for (output, cause) in
        [("nosuch/", "No such file or directory"), ("nosuch/out", "No such file or directory"), ("fields/", "Not a directory")]
    {
        // The input stays open: a run that waited for it would not end.
        let mut child = scratch.spawn(&format!("convert --fields fields --from binary --to tabledata -o {output}"));
        let input = child.stdin.take();
        let waited = Instant::now();
        while child.try_wait().expect("it can be asked").is_none() {
            assert!(waited.elapsed() < Duration::from_secs(60), "it fails at once");
            thread::sleep(Duration::from_millis(5));
        }
        assert_eq!(Said::of(child.wait_with_output().expect("it ends")), Said::trouble(&format!("{output}: {cause}")));
        drop(input);
    }
    let words = format!("convert --fields fields --from binary --to tabledata night.binary -o {long}");
    assert_eq!(
        (scratch.run(&words), scratch.get(&long)),
        (Said::good(b""), TABLEDATA.to_vec()),
        "the longest names have room for the ending"
    );
}

#[test]
fn the_rest_is_everything_from_the_refused_row_on() {
    let scratch = Scratch::new("rest");
    let cut = &BINARY2[..13];
    scratch.put("cut", cut);
    let said = scratch.run("convert --fields fields --from binary2 --to tabledata cut -o out --rest rest");
    let stands = "sailmortar: the 1 row before it is written to out; everything from row 1 on is in rest";
    assert_eq!((said.status, what_stands(&said)), (1, stands));
    assert_eq!((scratch.get("out"), scratch.get("rest")), (FIRST_ROW.to_vec(), cut[8..].to_vec()));
    // Mended and converted, it is the rest of the night.
    scratch.put("rest", &[&scratch.get("rest"), &BINARY2[13..]].concat());
    let said = scratch.run("convert --fields fields --from binary2 --to tabledata rest");
    assert_eq!(said, Said::good(&TABLEDATA[FIRST_ROW.len()..]));
    // Refused at once, it is all of the input; accepted or not read at all, no rest is made and none is taken away.
    scratch.put("wrong", b"\n <TR><TD>x</TD></TR>");
    scratch.run("convert --fields fields --from tabledata --to binary wrong --rest rest");
    assert_eq!(scratch.get("rest"), b"\n <TR><TD>x</TD></TR>");
    for words in ["--fields fields --from binary --to binary2 night.binary -o out", "--fields cut --from binary --to binary2 night.binary"]
    {
        scratch.run(&format!("convert {words} --rest new"));
        scratch.run(&format!("convert {words} --rest rest"));
        assert_eq!((scratch.has("new"), scratch.get("rest")), (false, b"\n <TR><TD>x</TD></TR>".to_vec()));
    }
    // The name that good rows would get is no longer free where the rest has it.
    scratch.put("n", cut);
    let said = scratch.run("convert --fields fields --from binary2 --to tabledata n -o n --rest n.rows");
    let stands = "sailmortar: the 1 row before it is written to n.rows.1, and n is left as it was; everything from row 1 on is in n.rows";
    assert_eq!((said.status, what_stands(&said)), (1, stands));
    assert_eq!((scratch.get("n"), scratch.get("n.rows.1"), scratch.get("n.rows")), (cut.to_vec(), FIRST_ROW.to_vec(), cut[8..].to_vec()));
    // Into one pipe they would be mixed.
    for words in ["--rest /dev/stdout", "-o /dev/stdout --rest -", "-o /dev/fd/1 --rest /dev/stdout"] {
        let said = scratch.run(&format!("convert --fields fields --from binary2 --to tabledata cut {words}"));
        assert_eq!((said.status, said.out.len()), (2, 0), "{words}: {}", said.err);
    }
    scratch.put("base64", b"AAAHYSZiAFSgAABkdXNr");
    let said = scratch.run("convert --fields fields --from binary2 --base64-in --to tabledata base64 -o out --rest -");
    assert_eq!((said.status, &said.out[..]), (1, &BINARY2[8..15]), "of the decoded stream");
}

#[test]
fn a_disk_that_is_full_leaves_the_output_as_it_was() {
    let scratch = Scratch::new("full_disk");
    scratch.put("byte", b"<FIELD datatype='unsignedByte'/>");
    scratch.put("long", &[1; 1 << 20]);
    scratch.put("out", b"yesterday");
    // A file may have 8 blocks of 512 bytes here, and the signal about it does not end the run.
    for trap in ["", "trap '' XFSZ;"] {
        let output =
            scratch.shell(&format!("{trap} ulimit -f 8; exec \"$PROGRAM\" convert --fields byte --from binary --to tabledata long -o out"));
        assert_eq!(Said::of(output), Said::trouble("out: File too large"));
    }
    assert_eq!((scratch.get("out"), scratch.parts()), (b"yesterday".to_vec(), vec![]));
}

#[test]
fn the_output_has_the_permissions_of_a_plain_file() {
    let scratch = Scratch::new("permissions");
    let mode = |name: &str| fs::metadata(scratch.path(name)).expect("it is there").permissions().mode() & 0o7777;
    let convert = |output: &str| {
        let words = format!("convert --fields fields --from binary --to tabledata night.binary -o {output}");
        assert_eq!(scratch.run(&words), Said::good(b""));
        assert_eq!(scratch.get(output), TABLEDATA);
    };
    scratch.put("plain", b"");
    convert("new");
    assert_eq!(mode("new"), mode("plain"));
    scratch.put("old", b"yesterday");
    fs::set_permissions(scratch.path("old"), fs::Permissions::from_mode(0o640)).expect("it is ours");
    convert("old");
    assert_eq!(mode("old"), 0o640);
    symlink("old", scratch.path("link")).expect("a link");
    scratch.put("old", b"yesterday");
    convert("link");
    assert!(fs::symlink_metadata(scratch.path("link")).expect("it is there").is_symlink(), "the link stays a link");
    assert_eq!(scratch.get("old"), TABLEDATA);
}

#[test]
fn a_pipe_with_a_name_is_written_to_as_it_is() {
    let scratch = Scratch::new("named_pipe");
    let made = Command::new("mkfifo").arg(scratch.path("pipe")).status().expect("mkfifo runs");
    assert!(made.success());
    let path = scratch.path("pipe");
    let reader = thread::spawn(move || fs::read(path).expect("a pipe to read"));
    assert_eq!(scratch.run("convert --fields fields --from binary --to tabledata night.binary -o pipe"), Said::good(b""));
    assert_eq!(reader.join().expect("the reader ends"), TABLEDATA);
    assert!(fs::metadata(scratch.path("pipe")).expect("it is there").file_type().is_fifo());
}

#[test]
fn a_rest_that_cannot_be_kept_is_said_beside_the_refusal() {
    let scratch = Scratch::new("rest_trouble");
    scratch.put("cut", &BINARY2[..13]);
    scratch.put("out", b"yesterday");
    let said = scratch.run("convert --fields fields --from binary2 --to tabledata cut -o out --rest /dev/full");
    assert_eq!((said.status, scratch.get("out"), scratch.parts()), (3, b"yesterday".to_vec(), vec![]));
    assert!(said.err.contains("refusal 8 at row 1, column 1 (note)"), "{}", said.err);
    assert_eq!(what_stands(&said), "sailmortar: what stands before it could not be kept: /dev/full: No space left on device");
}

#[test]
fn what_is_no_name_for_a_file_makes_none() {
    let scratch = Scratch::new("no_name");
    symlink("nope/", scratch.path("link")).expect("a link");
    let before = scratch.names();
    for output in ["new/.", "new/..", "new/", "link"] {
        let said = scratch.run(&format!("convert --fields fields --from binary --to tabledata night.binary -o {output}"));
        assert_eq!((said.status, scratch.names()), (3, before.clone()), "{output}: {}", said.err);
    }
    let run = |words: &[&str]| Said::of(Command::new(PROGRAM).args(words).current_dir(&scratch.0).output().expect("it runs"));
    let said = run(&["convert", "--fields", "fields", "--from", "binary", "--to", "tabledata", ""]);
    assert_eq!((said.status, said.err.lines().next()), (2, Some("sailmortar: INPUT has no name; '-' is standard input")));
}

#[test]
fn a_file_that_is_replaced_keeps_its_owner_where_that_is_allowed() {
    let scratch = Scratch::new("owner");
    scratch.put("out", b"yesterday");
    if std::os::unix::fs::chown(scratch.path("out"), Some(1234), Some(1235)).is_err() {
        eprintln!("only root may give files away: not run");
        return;
    }
    fs::set_permissions(scratch.path("out"), fs::Permissions::from_mode(0o640)).expect("it is ours");
    assert_eq!(scratch.run("convert --fields fields --from binary --to tabledata night.binary -o out"), Said::good(b""));
    let metadata = fs::metadata(scratch.path("out")).expect("it is there");
    assert_eq!((metadata.uid(), metadata.gid(), metadata.mode() & 0o7777), (1234, 1235, 0o640));
}

#[test]
fn a_signal_ends_the_first_process_of_a_container_too() {
    let scratch = Scratch::new("first_process");
    let unshared = Command::new("unshare").args(["-pf", "--kill-child", "true"]).output();
    if !unshared.is_ok_and(|output| output.status.success()) {
        eprintln!("no namespaces can be made here: not run");
        return;
    }
    scratch.put("out", b"yesterday");
    let mut command = Command::new("unshare");
    command.args(["-pf", "--kill-child", "python3", "-c", UNTRAPPED, PROGRAM]).args(TO_OUT.split_whitespace());
    let mut child = waiting(&scratch, command, 1);
    // The process that has the number 1 inside is the child of the one that was started.
    let children = fs::read_to_string(format!("/proc/{0}/task/{0}/children", child.id())).expect("the system tells children");
    send("TERM", children.trim());
    let waited = Instant::now();
    while child.try_wait().expect("it can be asked").is_none() {
        assert!(waited.elapsed() < Duration::from_secs(60), "it ends");
        thread::sleep(Duration::from_millis(5));
    }
    assert_eq!((scratch.parts(), scratch.get("out")), (vec![], b"yesterday".to_vec()));
}
