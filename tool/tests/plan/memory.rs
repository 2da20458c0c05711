//! Memory that does not grow with the input: one of some hundred megabytes, which a reader makes up, to a sink that throws it away.

use std::io::{self, Read};
use std::process::Command;

use sailmortar::{Error, Plan, Rows};

const LENGTH: u64 = 300_000_000;
/// Well under the input; some parts of it and what they become are a few megabytes.
const MOST: u64 = 40_000_000;

const FIELDS: &[u8] = b"<FIELD datatype='long' arraysize='*'/><FIELD datatype='char' arraysize='*'/>";

/// The same rows over and over.
struct Over {
    rows: Vec<u8>,
    read: usize,
}

impl Read for Over {
    fn read(&mut self, bytes: &mut [u8]) -> io::Result<usize> {
        let rest = &self.rows[self.read % self.rows.len()..];
        let count = rest.len().min(bytes.len());
        bytes[..count].copy_from_slice(&rest[..count]);
        self.read += count;
        Ok(count)
    }
}

/// The greatest memory that this process had, in bytes.
fn peak() -> u64 {
    let status = std::fs::read_to_string("/proc/self/status").expect("Linux tells");
    let line = status.lines().find_map(|line| line.strip_prefix("VmHWM:")).expect("it tells the peak");
    line.trim().trim_end_matches(" kB").parse::<u64>().expect("a number") * 1_024
}

/// A process of its own for a test of this file, which the harness runs only so; in the shell, after such words.
fn in_a_process(test: &str, words: &str) {
    let program = std::env::current_exe().expect("this program");
    let mut shell = Command::new("sh");
    shell.arg("-c").arg(format!("{words} exec \"$0\" --ignored --exact --test-threads=1 plan::memory::{test}")).arg(program);
    let output = shell.output().expect("it runs");
    let said = String::from_utf8_lossy(&output.stdout);
    assert!(output.status.success() && said.contains("1 passed"), "{said}{}", String::from_utf8_lossy(&output.stderr));
}

fn row() -> Vec<u8> {
    [&500_u32.to_be_bytes()[..], &[1; 4_000], &5_u32.to_be_bytes(), b"hello"].concat()
}

#[test]
#[ignore = "in_a_process"]
fn some_hundred_megabytes() {
    let row = row();
    let whole = LENGTH / row.len() as u64 * row.len() as u64;
    for plan in [Plan::new().threads(2).length(whole), Plan::new().threads(2).long(), Plan::new().threads(1).long()] {
        let input = Over { rows: row.repeat(100), read: 0 }.take(whole);
        let done = plan.convert(FIELDS, Rows::Binary, Rows::Binary2, input, io::sink()).expect("it is good");
        assert_eq!(done.rows, whole / row.len() as u64);
    }
    assert!(peak() < MOST, "{} bytes", peak());
}

#[test]
fn memory_does_not_grow_with_the_input() {
    in_a_process("some_hundred_megabytes", "");
}

#[test]
#[ignore = "in_a_process"]
fn a_row_that_takes_all_memory() {
    let mut input = Over { rows: b"<TR><TD/></TR>".to_vec(), read: 0 };
    for plan in [Plan::new().threads(1).length(1 << 30), Plan::new().threads(2).length(1 << 30)] {
        match plan.convert(FIELDS, Rows::TableData, Rows::Binary2, &mut input, io::sink()) {
            Err(Error::System(cause)) => assert_eq!(cause.kind(), io::ErrorKind::OutOfMemory),
            other => panic!("{other:?}"),
        }
    }
}

/// Whether a row of text that is broken might go on is known at the end of the input, which does not fit here.
#[test]
fn where_memory_ends_the_answer_is_the_system_s() {
    in_a_process("a_row_that_takes_all_memory", "ulimit -v 400000;");
}

#[test]
#[ignore = "in_a_process"]
fn rows_on_eight_threads() {
    let mut bytes = Vec::new();
    let plan = Plan::new().threads(8).part(10_000).length(400 * row().len() as u64);
    plan.convert(FIELDS, Rows::Binary, Rows::Binary, &row().repeat(400)[..], &mut bytes).expect("it is good");
    assert!(bytes == row().repeat(400));
}

/// Where no thread can be started, since there is no memory for its stack, the one that calls converts.
#[test]
fn without_threads_it_is_converted_all_the_same() {
    in_a_process("rows_on_eight_threads", "");
    in_a_process("rows_on_eight_threads", "ulimit -v 400000; RUST_MIN_STACK=1000000000");
}
