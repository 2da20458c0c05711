//! The command on one thread and on many, as it reads a file, a pipe, or an input of any length: the same bytes, the same words, little memory.

mod shell;

use std::fs::{self, File};
use std::io::{Read, Write};
use std::process::Command;
use std::sync::mpsc;
use std::thread;
use std::time::Duration;

use sailmortar::{convert_to_vec, Error, Refused, Rows};
use shell::{Said, Scratch, PROGRAM};

const FIELDS: &str = "<FIELD name='sky' datatype='short'><VALUES null='-99'/></FIELD>\
    <FIELD name='note' datatype='char' arraysize='200*'/><FIELD name='clear' datatype='boolean'/>";
const KINDS: [Rows; 3] = [Rows::TableData, Rows::Binary, Rows::Binary2];
const THREADS: [usize; 4] = [1, 2, 3, 8];

/// Rows of a megabyte or more in each kind, which has some twenty parts.
const MANY: usize = 12_000;

/// A row of text, on two lines.
fn row(number: usize) -> String {
    let (sky, note) = (number as i16, "fog &amp; dew, ".repeat(number % 14));
    format!("<TR><TD>{sky}</TD>\n<TD>{number} {note}</TD><TD>{}</TD></TR>\n", ["T", "F", ""][number % 3])
}

fn rows(from: usize, to: usize) -> Vec<u8> {
    (from..to).map(row).collect::<String>().into_bytes()
}

/// What one call of the library makes of an input, and how it refuses it.
fn converted(from: Rows, to: Rows, input: &[u8]) -> (Vec<u8>, Option<Refused>) {
    let mut out = Vec::new();
    match convert_to_vec(FIELDS.as_bytes(), from, to, input, &mut out) {
        Ok(_) => (out, None),
        Err(Error::Refused(refused)) => (out, Some(refused)),
        Err(other) => panic!("{other}"),
    }
}

/// Rows as they are written.
fn good(kind: Rows, from: usize, to: usize) -> Vec<u8> {
    let (bytes, refused) = converted(Rows::TableData, kind, &rows(from, to));
    assert_eq!(refused, None);
    bytes
}

/// Rows as they are read, of which text has two lines each.
fn night(kind: Rows, from: usize, to: usize) -> Vec<u8> {
    match kind {
        Rows::TableData => rows(from, to),
        _ => good(kind, from, to),
    }
}

fn scratch(test: &str) -> Scratch {
    let scratch = Scratch::new(test);
    scratch.put("fields", FIELDS.as_bytes());
    scratch
}

fn way(from: Rows, to: Rows) -> String {
    format!("convert --fields fields --from {from} --to {to}")
}

/// A file that a run may have made, taken away.
fn taken(scratch: &Scratch, name: &str) -> Option<Vec<u8>> {
    let bytes = scratch.has(name).then(|| scratch.get(name));
    let _ = fs::remove_file(scratch.path(name));
    bytes
}

#[test]
fn any_number_of_threads_writes_the_same_in_all_nine_ways() {
    let scratch = scratch("threads_ways");
    for from in KINDS {
        let night = night(from, 0, 2 * MANY);
        assert!(night.len() > 2_000_000, "{from} has several parts");
        scratch.put("night", &night);
        for to in KINDS {
            let (expected, words) = (good(to, 0, 2 * MANY), way(from, to));
            for threads in THREADS {
                assert_eq!(scratch.run(&format!("{words} night -o out --threads {threads}")), Said::good(b""), "{words}");
                assert!(taken(&scratch, "out").as_ref() == Some(&expected), "{words}, {threads} threads");
            }
            for words in [format!("{words} --threads 3"), words.clone(), format!("{words} --long"), format!("{words} --long --threads=2")] {
                assert!(scratch.run_with(&words, &night) == Said::good(&expected), "{words}, a pipe");
                assert!(scratch.run(&format!("{words} night")) == Said::good(&expected), "{words}, a file");
            }
        }
    }
}

#[test]
fn few_rows_are_the_same_on_many_threads() {
    let scratch = scratch("threads_few");
    for from in KINDS {
        for count in [0, 1, 2, 100] {
            scratch.put("night", &night(from, 0, count));
            for words in ["--threads 1", "--threads 8", "--long", "--long --threads 8"] {
                let words = format!("{} {words} -v", way(from, Rows::Binary2));
                let (said, piped) = (scratch.run(&format!("{words} night")), scratch.run_with(&words, &night(from, 0, count)));
                assert_eq!((said.status, &said.out), (0, &good(Rows::Binary2, 0, count)), "{words}");
                assert_eq!(said.err, piped.err.replace("standard input", "night"), "{words}");
                let rows = if count == 1 { "1 row,".to_string() } else { format!("{count} rows,") };
                assert!(said.err.contains(&rows), "{}", said.err);
            }
        }
    }
}

/// A row that is refused, with what stands behind it cut off or not.
struct Bad {
    number: u64,
    from: Rows,
    to: Rows,
    row: &'static [u8],
    is_last: bool,
}

const fn bad(number: u64, from: Rows, to: Rows, row: &'static [u8]) -> Bad {
    Bad { number, from, to, row, is_last: false }
}

const BAD: [Bad; 9] = [
    Bad { is_last: true, ..bad(8, Rows::Binary, Rows::TableData, b"\x00\x07\x00\x00\x00\x04fo") },
    Bad { is_last: true, ..bad(8, Rows::Binary2, Rows::Binary, b"\x00\x00") },
    bad(9, Rows::Binary, Rows::Binary2, b"\x00\x07\x00\x00\x00\xC9"),
    bad(10, Rows::TableData, Rows::Binary2, b"\n <TR><TD>7</TD><TD>fog &nbsp;</TD><TD/></TR>\n"),
    bad(10, Rows::TableData, Rows::Binary, b"<TR><TD>7</TD><TD/><TD/><TD/></TR>\n"),
    bad(11, Rows::TableData, Rows::TableData, b"<TR>\n<TD>7</TD>\n<TD>fog</TD><TD>\nmaybe</TD></TR>\n"),
    bad(11, Rows::Binary2, Rows::Binary2, b"\x00\x00\x07\x00\x00\x00\x03fogY"),
    bad(14, Rows::Binary2, Rows::TableData, b"\x00\x00\x07\x00\x00\x00\x00T"),
    bad(18, Rows::TableData, Rows::Binary, b"<TR><TD>99999</TD><TD/><TD/></TR>"),
];

impl Bad {
    /// So many good rows, this one, and good ones up to `all`.
    fn among(&self, before: usize, all: usize) -> Vec<u8> {
        let behind = if self.is_last { vec![] } else { night(self.from, before + 1, all) };
        [night(self.from, 0, before), self.row.to_vec(), behind].concat()
    }
}

/// Where rows go and how their end is told, and with which options a file is gone through for that.
const TELLINGS: [(&str, &[&str]); 3] = [
    ("", &["--threads 1", "--threads 2", "--threads 3", "--threads 8", "--long --threads 2"]),
    ("-o out --rest rest", &["--threads 3", "--long"]),
    ("--json", &["--threads 2"]),
];

/// A pipe is read whole, and a file as it is converted: what is said and written is the same, and is what one call answers.
fn refused_alike(scratch: &Scratch, bad: &Bad, before: usize, all: usize) {
    let night = bad.among(before, all);
    scratch.put("night", &night);
    let (expected, refused) = converted(bad.from, bad.to, &night);
    let refused = refused.expect("it is refused");
    assert_eq!((refused.number, refused.row, refused.rows), (bad.number, before as u64, before as u64));
    let kept = (Some(expected.clone()).filter(|_| before > 0), Some(night[refused.offset..].to_vec()));
    for (telling, options) in TELLINGS {
        let words = format!("{} {telling}", way(bad.from, bad.to));
        let is_kept = |more: &str, said: &Said| match telling.contains("-o") {
            true => assert!((taken(scratch, "out"), taken(scratch, "rest")) == kept, "{words} {more}"),
            false => assert!(said.out == expected, "{words} {more}"),
        };
        let piped = scratch.run_with(&words, &night);
        assert!(piped.status == 1 && piped.err.contains(&bad.number.to_string()), "{words}: {}", piped.err);
        is_kept("from a pipe", &piped);
        let err = piped.err.replace("standard input", "night");
        for more in options {
            let said = scratch.run(&format!("{words} night {more}"));
            assert_eq!((said.status, &said.err), (1, &err), "{words} {more}");
            is_kept(more, &said);
        }
        let long = scratch.run_with(&format!("{words} --long"), &night);
        assert_eq!((long.status, &long.err), (1, &piped.err), "{words} --long");
        is_kept("--long from a pipe", &long);
    }
}

#[test]
fn a_refused_row_is_told_the_same_on_any_number_of_threads() {
    let scratch = scratch("threads_refused");
    for bad in &BAD {
        for before in [0, MANY / 2, MANY - 1] {
            refused_alike(&scratch, bad, before, MANY);
        }
    }
}

#[test]
fn a_refused_row_among_few_is_told_the_same_on_any_number_of_threads() {
    let scratch = scratch("threads_refused_few");
    for bad in &BAD {
        for before in [0, 2] {
            refused_alike(&scratch, bad, before, 3);
        }
    }
}

#[test]
fn check_says_the_same_on_any_number_of_threads() {
    let scratch = scratch("threads_check");
    for bad in &BAD {
        let words = format!("check --fields fields --from {} --to {}", bad.from, bad.to);
        for night in [night(bad.from, 0, MANY), bad.among(MANY / 2, MANY)] {
            scratch.put("night", &night);
            let piped = scratch.run_with(&words, &night);
            let name = |text: String| text.replace("standard input", "night");
            let expected =
                Said { status: piped.status, out: name(String::from_utf8(piped.out).expect("text")).into(), err: name(piped.err) };
            for threads in THREADS {
                assert_eq!(scratch.run(&format!("{words} night --threads {threads}")), expected, "{words}");
            }
            assert_eq!(scratch.run(&format!("{words} --long night")), expected, "{words} --long");
        }
    }
}

#[test]
fn lines_count_from_where_the_run_began_to_read() {
    let scratch = scratch("threads_lines");
    let before = MANY - 1;
    let night = BAD[5].among(before, MANY);
    scratch.put("night", &[b"\n\nanother's\n", &night[..]].concat());
    let words = "\"$PROGRAM\" convert --fields fields --from tabledata --to tabledata -o out";
    let line = 2 * before + 1;
    let said = format!("row {before} begins in line {line}, at byte {}, column 2 in line {}, at byte ", rows(0, before).len(), line + 2);
    for threads in ["--threads 1", "--threads 2", "--long"] {
        let err = Said::of(scratch.shell(&format!("{{ dd bs=1 count=12 of=/dev/null status=none; {words} {threads}; }} < night"))).err;
        assert!(err.contains(&said), "{threads}: {err}");
        let err = Said::of(scratch.shell(&format!("tail -c +13 night | {words} {threads}"))).err;
        assert!(err.contains(&said), "{threads}, a pipe: {err}");
    }
}

/// What an input most likely is shows in its first bytes, which are long gone where a later row is refused.
#[test]
fn hints_know_how_an_input_begins() {
    let scratch = scratch("threads_hints");
    scratch.put("fields", b"<FIELD datatype='short'/><FIELD datatype='boolean'/>");
    scratch.put("letters", &[&b"aaT".repeat(9)[..], b"AAXA"].concat());
    let said = scratch.run("convert --fields fields --from binary --to tabledata letters");
    assert!(
        said.err.contains("at row 9,") && said.err.ends_with("hint: this looks like base64: is --base64-in missing?\n"),
        "{}",
        said.err
    );
    // A row of TABLEDATA that is refused behind others is not the start of anything.
    scratch.put("text", b"<TR><TD>7</TD><TD/></TR>AAAHVAAACEY=");
    let said = scratch.run("convert --fields fields --from tabledata --to binary2 text");
    assert!(said.err.contains("at row 1,") && !said.err.contains("hint"), "{}", said.err);
    scratch.put("text", b"\n AAAHVAAACEY=");
    let said = scratch.run("convert --fields fields --from tabledata --to binary2 text");
    assert!(said.err.contains("hint: is this the base64 of BINARY or BINARY2 rows"), "{}", said.err);
}

#[test]
fn an_input_that_is_the_output_is_replaced_by_all_of_it_or_stays() {
    let scratch = scratch("threads_in_place");
    for threads in THREADS {
        let words = format!("{} night -o night --threads {threads}", way(Rows::TableData, Rows::Binary2));
        scratch.put("night", &rows(0, MANY));
        assert_eq!(scratch.run(&words), Said::good(b""), "{words}");
        assert!(scratch.get("night") == good(Rows::Binary2, 0, MANY), "{words}");
        let night = BAD[3].among(MANY - 1, MANY);
        scratch.put("night", &night);
        let said = scratch.run(&words);
        assert!(said.status == 1 && said.err.contains("rows before it are written to night.rows, and night is left as it was"), "{said:?}");
        assert!(scratch.get("night") == night, "{words}");
        assert!(taken(&scratch, "night.rows") == Some(good(Rows::Binary2, 0, MANY - 1)), "{words}");
        assert_eq!(scratch.parts(), [""; 0]);
    }
}

#[test]
fn base64_is_the_same_on_any_number_of_threads() {
    let scratch = scratch("threads_base64");
    scratch.put("binary2", &good(Rows::Binary2, 0, MANY));
    assert_eq!(scratch.run("base64 encode --wrap 76 binary2 -o letters"), Said::good(b""));
    scratch.put("night", &rows(0, MANY));
    scratch.put("cut", &[rows(0, MANY), b"<TR>".to_vec()].concat());
    for threads in THREADS {
        let words = format!("{} --base64-out --wrap 76 --threads {threads}", way(Rows::TableData, Rows::Binary2));
        assert!(scratch.run(&format!("{words} night")) == Said::good(&scratch.get("letters")), "{words}");
        let refused = scratch.run(&format!("{words} cut"));
        assert!((refused.status, refused.out) == (1, scratch.get("letters")), "{words}");
        let words = format!("{} --base64-in letters --threads {threads}", way(Rows::Binary2, Rows::TableData));
        assert!(scratch.run(&words) == Said::good(&good(Rows::TableData, 0, MANY)), "{words}");
    }
}

#[test]
fn a_sink_that_fails_in_the_middle_ends_the_run() {
    let scratch = scratch("threads_sink");
    scratch.put("night", &rows(0, MANY));
    scratch.put("out", b"yesterday");
    for threads in THREADS {
        let words = format!("{} --threads {threads}", way(Rows::TableData, Rows::Binary2));
        let full = File::options().write(true).open("/dev/full").expect("the device");
        let said = Said::of(scratch.command(&format!("{words} night")).stdout(full).output().expect("the program runs"));
        assert_eq!(said, Said::trouble("standard output: No space left on device"), "{words}");
        let said = Said::of(scratch.shell(&format!("ulimit -f 1024; exec \"$PROGRAM\" {words} night -o out")));
        assert_eq!(said, Said::trouble("out: File too large"), "{words}");
        assert_eq!((scratch.get("out"), scratch.parts()), (b"yesterday".to_vec(), vec![]), "{words}");
        for input in ["night", "--long < night"] {
            let said = scratch.shell(&format!("{{ \"$PROGRAM\" {words} {input}; echo $? >&2; }} | head -c 100000"));
            assert_eq!((&said.stdout[..], &said.stderr[..]), (&good(Rows::Binary2, 0, MANY)[..100_000], &b"3\n"[..]), "{words} {input}");
        }
    }
}

#[test]
fn with_long_rows_come_out_of_a_pipe_while_others_come_in() {
    let scratch = scratch("threads_along");
    // More than what is in memory at any time, so that some of it must have been written.
    let (first, second) = (rows(0, 10 * MANY), rows(10 * MANY, 10 * MANY + 100));
    let expected = good(Rows::Binary2, 0, 10 * MANY + 100);
    for threads in THREADS {
        let mut child = scratch.spawn(&format!("{} --long --threads {threads}", way(Rows::TableData, Rows::Binary2)));
        let (mut input, mut output) = (child.stdin.take().expect("a pipe"), child.stdout.take().expect("a pipe"));
        let first = first.clone();
        let (early, wanted) = (mpsc::channel(), expected.len() / 4);
        let reader = thread::spawn(move || {
            let mut rows = vec![0; wanted];
            output.read_exact(&mut rows).expect("rows");
            early.0.send(()).expect("someone waits");
            output.read_to_end(&mut rows).expect("rows");
            rows
        });
        let feeder = thread::spawn(move || {
            input.write_all(&first).expect("it reads");
            input
        });
        let mut input = feeder.join().expect("the feeder ends");
        early.1.recv_timeout(Duration::from_secs(60)).expect("it does not wait for the end of its input");
        input.write_all(&second).expect("it reads");
        drop(input);
        assert!(reader.join().expect("the reader ends") == expected, "{threads} threads");
        assert_eq!(Said::of(child.wait_with_output().expect("it ends")), Said::good(b""));
    }
}

/// Runs a program until its output has some bytes, sends a signal to the thread that was started last, and says whether there was more than one
/// and no more than were asked for, and whether that signal ended it.
const SIGNALLED: &str = "
import ctypes, glob, os, signal, subprocess, sys, time
run = subprocess.Popen(sys.argv[1:])
asked = int(sys.argv[-1])
written = lambda: sum(os.path.getsize(part) for part in glob.glob('out.*.part'))
while written() < 1 << 20:
    time.sleep(0.001)
threads = sorted(int(name) for name in os.listdir('/proc/%d/task' % run.pid))
ctypes.CDLL(None).tgkill(run.pid, threads[-1], signal.SIGTERM)
print((len(threads) > 1) == (asked > 1), len(threads) <= asked + 1, -run.wait() == signal.SIGTERM)
";

#[test]
fn a_signal_to_any_thread_ends_the_run_and_leaves_nothing() {
    let scratch = scratch("threads_signal");
    zeros(&scratch, 1 << 30);
    scratch.put("out", b"yesterday");
    for threads in ["1", "2", "8"] {
        let mut python = Command::new("python3");
        python.args(["-c", SIGNALLED, PROGRAM]).args("convert --fields longs --from binary --to tabledata zeros -o out".split(' '));
        let said = Said::of(python.args(["--threads", threads]).current_dir(&scratch.0).output().expect("python3 runs"));
        assert_eq!(said, Said::good(b"True True True\n"), "{threads} threads");
        assert_eq!((scratch.get("out"), scratch.parts()), (b"yesterday".to_vec(), vec![]));
    }
}

/// Runs a line of the shell and says the most memory, in kilobytes, that a process of it had.
const MEMORY: &str = "
import resource, subprocess, sys
run = subprocess.run(['sh', '-c', sys.argv[1]], stdout=subprocess.PIPE)
sys.stdout.buffer.write(run.stdout)
sys.stderr.write(str(resource.getrusage(resource.RUSAGE_CHILDREN).ru_maxrss))
sys.exit(run.returncode)
";

fn with_peak(scratch: &Scratch, line: &str) -> (Vec<u8>, usize) {
    let mut python = Command::new("python3");
    python.args(["-c", MEMORY, line]).env("PROGRAM", PROGRAM).current_dir(&scratch.0);
    let output = python.output().expect("python3 runs");
    let peak = String::from_utf8(output.stderr).expect("text");
    assert!(output.status.success(), "{line}: {peak}");
    (output.stdout, peak.parse::<usize>().unwrap_or_else(|_| panic!("{line}: {peak}")) * 1024)
}

/// A file with a hole is a stream of zeros, and takes next to no disk.
fn zeros(scratch: &Scratch, bytes: u64) {
    scratch.put("longs", b"<FIELD datatype='long' arraysize='4096'/>");
    File::create(scratch.path("zeros")).and_then(|file| file.set_len(bytes)).expect("a long file");
}

#[test]
fn a_file_takes_little_memory_and_so_does_a_pipe_with_long() {
    let scratch = scratch("threads_memory");
    let bytes = 200 << 20;
    zeros(&scratch, bytes);
    let lines = [
        "\"$PROGRAM\" convert --fields longs --from binary --to binary2 zeros | cat > /dev/null",
        "\"$PROGRAM\" check --fields longs --from binary --threads 8 zeros",
        "\"$PROGRAM\" check --fields longs --from binary --long zeros",
        "cat zeros | \"$PROGRAM\" check --fields longs --from binary --long",
    ];
    for line in lines {
        let (_, peak) = with_peak(&scratch, line);
        assert!(peak < 100_000_000, "{line} takes {peak} bytes");
    }
    // A pipe without --long is held whole, which shows that what is measured is the run.
    let (_, peak) = with_peak(&scratch, "cat zeros | \"$PROGRAM\" check --fields longs --from binary");
    assert!(peak > bytes as usize, "{peak} bytes");
}

#[test]
fn with_long_an_input_over_a_gibibyte_is_converted() {
    let scratch = scratch("threads_long");
    let row = 8 * 4096;
    zeros(&scratch, (1 << 30) + row + 1);
    let said = scratch.run("check --fields longs --from binary --long zeros");
    let first = "sailmortar: zeros: refusal 8 at row 32769, column 0: long 4096, 1 of its 32,768 bytes is left (00): ";
    assert!(said.status == 1 && said.err.starts_with(first), "{}", said.err);
    assert!(said.err.contains("the 32,769 rows before it are good"), "{}", said.err);
    assert!(said.err.contains(&format!("row 32769 begins at byte {}, column 0 at byte ", (1 << 30) + row)), "{}", said.err);
}

/// A cell that is white space for more than that reads well where all of it is held.
#[test]
fn with_long_a_row_is_judged_by_64_mebibytes() {
    let scratch = scratch("threads_long_row");
    let wide = [b"<TR><TD>", &b" ".repeat(65 << 20)[..], b"7</TD><TD/><TD/></TR>\n"].concat();
    scratch.put("night", &[row(0).as_bytes(), &wide, row(1).as_bytes()].concat());
    let words = "check --fields fields --from tabledata";
    assert_eq!(scratch.run(&format!("{words} night")).status, 0);
    let lines = [
        "sailmortar: night: refusal 10 at row 1, column 0 (sky): short, the first 64 MiB of the row end where </TD> should stand: \
         TABLEDATA tags or references are broken, or the number of cells is wrong",
        "sailmortar: hint: with --long a row of TABLEDATA is judged by its first 64 MiB, and this one goes on behind them",
    ];
    let said = scratch.run(&format!("{words} --long night"));
    assert_eq!((said.status, said.err.lines().next(), said.err.lines().last()), (1, Some(lines[0]), Some(lines[1])));
    let piped = Said::of(scratch.shell(&format!("cat night | \"$PROGRAM\" {words} --long")));
    assert_eq!(piped.err.replace("standard input", "night"), said.err);
    // What is broken is told from what is long, and what stands behind 64 MiB is in the rest all the same.
    let broken = [row(0).as_bytes(), b"<TR><TD>7</TD></TR>\n", &wide, &wide[..20 << 20]].concat();
    scratch.put("night", &broken);
    let said = scratch.run(&format!("{} night -o out --rest - --long", way(Rows::TableData, Rows::Binary2)));
    assert!(said.err.contains("at row 1, column 1 (note): char 200*, '</TR>' where <TD> should stand: "), "{}", said.err);
    assert!(!said.err.contains("hint"), "{}", said.err);
    assert!(said.out == broken[row(0).trim_end().len()..], "the rest is whole");
}

/// Files of the system's own say that they have no bytes, or a page of them, and have others.
#[test]
fn a_file_of_another_length_than_it_says_is_read_to_its_end() {
    let scratch = scratch("threads_system");
    scratch.put("byte", b"<FIELD datatype='unsignedByte'/>");
    for name in ["/proc/version", "/sys/kernel/mm/transparent_hugepage/enabled"] {
        let Ok(bytes) = fs::read(name) else {
            eprintln!("{name} is not there: not run");
            continue;
        };
        assert!(!bytes.is_empty() && fs::metadata(name).expect("it is there").len() != bytes.len() as u64, "{name}");
        for words in ["", "--long", "--threads 1"] {
            let words = format!("convert --fields byte --from binary --to binary {name} {words}");
            assert_eq!(scratch.run(&words), Said::good(&bytes), "{words}");
        }
    }
}
