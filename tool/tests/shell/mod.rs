//! The command as a shell meets it: a folder of its own for each test, runs, and what they say.

// Each test file is a program of its own, and none needs all of this.
#![allow(dead_code)]

use std::fs;
use std::io::Write;
use std::path::{Path, PathBuf};
use std::process::{Child, Command, Output, Stdio};
use std::thread;

pub const PROGRAM: &str = env!("CARGO_BIN_EXE_sailmortar");

pub const FIELDS: &str = concat!(
    "<FIELD name='sky' datatype='short'><VALUES null='-99'/></FIELD>\n",
    "<FIELD name='note' datatype='char' arraysize='4'/>\n",
    "<FIELD datatype='boolean'/>\n"
);
pub const TABLEDATA: &[u8] = b"<TR><TD>7</TD><TD>a&amp;b</TD><TD>T</TD></TR>\n<TR><TD/><TD>dusk</TD><TD/></TR>\n";
pub const BINARY: &[u8] = &[0x00, 0x07, 0x61, 0x26, 0x62, 0x00, 0x54, 0xFF, 0x9D, 0x64, 0x75, 0x73, 0x6B, 0x3F];
pub const BINARY2: &[u8] = &[0x00, 0x00, 0x07, 0x61, 0x26, 0x62, 0x00, 0x54, 0xA0, 0x00, 0x00, 0x64, 0x75, 0x73, 0x6B, 0x00];
pub const NIGHT: [(&str, &[u8]); 3] = [("tabledata", TABLEDATA), ("binary", BINARY), ("binary2", BINARY2)];

/// A folder of its own for a test, with the sample night in it.
pub struct Scratch(pub PathBuf);

impl Scratch {
    pub fn new(test: &str) -> Scratch {
        let folder = Path::new(env!("CARGO_TARGET_TMPDIR")).join(test);
        let _ = fs::remove_dir_all(&folder);
        fs::create_dir_all(&folder).expect("a scratch folder");
        let scratch = Scratch(folder);
        scratch.put("fields", FIELDS.as_bytes());
        for (kind, bytes) in NIGHT {
            scratch.put(&format!("night.{kind}"), bytes);
        }
        scratch
    }

    pub fn path(&self, name: &str) -> PathBuf {
        self.0.join(name)
    }

    pub fn put(&self, name: &str, bytes: &[u8]) {
        fs::write(self.path(name), bytes).expect("a scratch file");
    }

    pub fn get(&self, name: &str) -> Vec<u8> {
        fs::read(self.path(name)).unwrap_or_else(|cause| panic!("{name}: {cause}"))
    }

    pub fn has(&self, name: &str) -> bool {
        self.path(name).exists()
    }

    /// The temporary files of runs that did not end.
    pub fn parts(&self) -> Vec<String> {
        self.names().into_iter().filter(|name| name.ends_with(".part")).collect()
    }

    pub fn command(&self, words: &str) -> Command {
        let mut command = Command::new(PROGRAM);
        command.args(words.split_whitespace()).current_dir(&self.0).stdin(Stdio::null());
        command
    }

    pub fn run(&self, words: &str) -> Said {
        Said::of(self.command(words).output().expect("the program runs"))
    }

    pub fn run_with(&self, words: &str, input: &[u8]) -> Said {
        let mut child = self.spawn(words);
        let mut stdin = child.stdin.take().expect("a pipe");
        let input = input.to_vec();
        let feeder = thread::spawn(move || drop(stdin.write_all(&input)));
        let output = child.wait_with_output().expect("the program runs");
        feeder.join().expect("the feeder ends");
        Said::of(output)
    }

    /// A line of the shell, in which PROGRAM stands for the command.
    pub fn shell(&self, line: &str) -> Output {
        let mut command = Command::new("sh");
        command.args(["-c", line]).env("PROGRAM", PROGRAM).current_dir(&self.0).stdin(Stdio::null());
        command.output().expect("sh runs")
    }

    /// Every name in the folder, in order.
    pub fn names(&self) -> Vec<String> {
        let names = fs::read_dir(&self.0).expect("the scratch folder").map(|entry| entry.expect("an entry").file_name());
        let mut names: Vec<_> = names.map(|name| name.to_string_lossy().into_owned()).collect();
        names.sort();
        names
    }

    pub fn spawn(&self, words: &str) -> Child {
        let mut command = self.command(words);
        command.stdin(Stdio::piped()).stdout(Stdio::piped()).stderr(Stdio::piped());
        command.spawn().expect("the program runs")
    }
}

impl Drop for Scratch {
    fn drop(&mut self) {
        if !thread::panicking() {
            let _ = fs::remove_dir_all(&self.0);
        }
    }
}

/// What a run said.
#[derive(Debug, PartialEq)]
pub struct Said {
    pub status: i32,
    pub out: Vec<u8>,
    pub err: String,
}

impl Said {
    pub fn of(output: Output) -> Said {
        let status = output.status.code().expect("it was not killed");
        Said { status, out: output.stdout, err: String::from_utf8(output.stderr).expect("messages are text") }
    }

    pub fn good(bytes: &[u8]) -> Said {
        Said { status: 0, out: bytes.to_vec(), err: String::new() }
    }

    pub fn refused(bytes: &[u8], lines: &[&str]) -> Said {
        Said { status: 1, out: bytes.to_vec(), err: said_lines(lines) }
    }

    pub fn trouble(line: &str) -> Said {
        Said { status: 3, out: Vec::new(), err: said_lines(&[line]) }
    }
}

fn said_lines(lines: &[&str]) -> String {
    lines.iter().map(|line| format!("sailmortar: {line}\n")).collect()
}
