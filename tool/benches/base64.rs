//! Base64 of a night's BINARY2: Sailmortar beside plain Rust, coreutils' base64 and an earlier version, which all take turns.

use std::hint::black_box;
use std::path::PathBuf;
use std::process::{Command, ExitStatus, Stdio};

use crate::before::{assert_written, columns, figures, Version, Versions};
use crate::measure::{best_of_runs, mega};
use crate::plain;

/// Each figure is the best of at least so many runs: a process finds the machine quiet less often than a call does.
const RUNS: usize = 9;

/// Letters of the short texts.
const SHORT: [usize; 4] = [4, 76, 1_000, 4_000];

/// Letters that a turn decodes in all: a short text so often that the clock can tell.
const LETTERS_OF_TURN: usize = 4_000_000;

#[derive(Clone, Copy)]
enum Step {
    Encode,
    Decode,
}

/// Each hands out the bytes written, or nothing where it refuses.
impl Step {
    fn by_sailmortar(self, versions: Option<&Versions>, input: &[u8], out: &mut [u8]) -> Option<usize> {
        let done = match (versions, self) {
            (Some(versions), _) => return self.by_version(&versions.now, input, out),
            (None, Step::Encode) => sailmortar::base64_encode(input, out),
            (None, Step::Decode) => sailmortar::base64_decode(input, out),
        };
        done.ok().map(|done| done.bytes as usize)
    }

    fn by_version(self, version: &Version, input: &[u8], out: &mut [u8]) -> Option<usize> {
        match self {
            Step::Encode => version.base64_encode(input, out),
            Step::Decode => version.base64_decode(input, out),
        }
    }

    fn plainly(self, input: &[u8], out: &mut [u8]) -> Option<usize> {
        match self {
            Step::Encode => Some(plain::base64_encode(input, out)),
            Step::Decode => plain::base64_decode(input, out),
        }
    }
}

pub fn tables(bytes: &[u8], versions: Option<&Versions>) {
    let [names, rules] = columns(versions);
    println!(
        "| base64 of BINARY2 | MB | Sailmortar MB/s | plain MB/s | Sailmortar / plain | coreutils MB/s | Sailmortar / coreutils |{names}"
    );
    println!("|---|--:|--:|--:|--:|--:|--:|{rules}");
    let letters = encoded(bytes);
    line("encode", Step::Encode, bytes, &letters, versions);
    line("decode, one line", Step::Decode, &letters, bytes, versions);
    for (what, length, end) in [
        ("decode, lines of 64", 64, "\n"),
        ("decode, lines of 75", 75, "\n"),
        ("decode, lines of 76", 76, "\n"),
        ("decode, lines of 76 ended by 13 10", 76, "\r\n"),
    ] {
        let lines: Vec<u8> = letters.chunks(length).flat_map(|line| [line, end.as_bytes()].concat()).collect();
        line(what, Step::Decode, &lines, bytes, versions);
    }
    println!();
    short_texts(bytes, versions);
}

fn encoded(bytes: &[u8]) -> Vec<u8> {
    let mut letters = vec![0; bytes.len().div_ceil(3) * 4];
    plain::base64_encode(bytes, &mut letters);
    letters
}

/// Times one step in all ways that there are, and looks at what each has written.
fn line(what: &str, step: Step, input: &[u8], expected: &[u8], versions: Option<&Versions>) {
    let coreutils = Coreutils::on(step, input, expected);
    let mut outputs = [(); 3].map(|()| vec![0xff; expected.len()]);
    let [out, plain_out, before_out] = &mut outputs;
    let whole = Some(expected.len());
    let [ours, plain, before, process] = best_of_runs(
        RUNS,
        [
            &mut || assert_eq!(step.by_sailmortar(versions, input, out), whole, "{what}"),
            &mut || assert_eq!(step.plainly(input, plain_out), whole, "plain: {what}"),
            &mut || {
                assert!(versions.is_none_or(|versions| step.by_version(&versions.before, input, before_out) == whole), "before: {what}")
            },
            &mut || coreutils.run(),
        ],
    );
    assert_written(versions, &outputs, expected, what);
    let size = mega(input.len());
    let (beside_coreutils, beside_before) = (coreutils.figures(size, [ours, process]), figures(versions, size, [ours, before]));
    println!("| {what} | {size:.1} | {:.0} | {:.0} | {:.2} |{beside_coreutils}{beside_before}", size / ours, size / plain, plain / ours);
}

/// coreutils' base64: a process that reads a file and writes to nowhere.
struct Coreutils {
    file: PathBuf,
    argument: &'static str,
    /// How it ended when it was tried; nothing where there is no such program.
    status: Option<ExitStatus>,
}

impl Coreutils {
    /// Tries it once on the input, and looks at what it has written where it says that all went well.
    fn on(step: Step, input: &[u8], expected: &[u8]) -> Coreutils {
        let file = std::env::temp_dir().join(format!("sailmortar-bench-{}", std::process::id()));
        std::fs::write(&file, input).expect("a temporary file");
        let argument = match step {
            Step::Encode => "-w0",
            Step::Decode => "-d",
        };
        let mut coreutils = Coreutils { file, argument, status: None };
        if let Ok(output) = coreutils.command().output() {
            assert!(!output.status.success() || output.stdout == expected, "base64 {argument}");
            coreutils.status = Some(output.status);
        }
        coreutils
    }

    fn command(&self) -> Command {
        let mut command = Command::new("base64");
        command.arg(self.argument).arg(&self.file);
        command
    }

    fn runs(&self) -> bool {
        self.status.is_some_and(|status| status.success())
    }

    fn run(&self) {
        if self.runs() {
            let status = self.command().stdout(Stdio::null()).status();
            assert!(status.is_ok_and(|status| status.success()), "base64 {} did it before", self.argument);
        }
    }

    /// Its two columns of a line, by the seconds that Sailmortar and the process took for so many MB.
    fn figures(&self, size: f64, [ours, process]: [f64; 2]) -> String {
        match self.status {
            None => " not here | - |".to_string(),
            Some(status) if !status.success() => format!(" refused ({status}) | - |"),
            Some(_) => format!(" {:.0} | {:.2} |", size / process, process / ours),
        }
    }
}

impl Drop for Coreutils {
    fn drop(&mut self) {
        let _ = std::fs::remove_file(&self.file);
    }
}

/// What a call costs by itself: texts on one line.
fn short_texts(bytes: &[u8], versions: Option<&Versions>) {
    let [names, rules] = versions.map_or([""; 2], |_| [" before ns |", "--:|"]);
    println!("| short texts, letters decoded in a call | Sailmortar ns | plain ns |{names}");
    println!("|--:|--:|--:|{rules}");
    for length in SHORT {
        let expected: Vec<u8> = bytes.iter().copied().cycle().take(length / 4 * 3).collect();
        let [ours, plain, before] = short_text(&encoded(&expected), &expected, versions);
        let beside_before = versions.map_or(String::new(), |_| format!(" {before:.1} |"));
        println!("| {length} | {ours:.1} | {plain:.1} |{beside_before}");
    }
    println!();
}

/// Nanoseconds of a call of Sailmortar, of plain Rust and of the version before.
fn short_text(text: &[u8], expected: &[u8], versions: Option<&Versions>) -> [f64; 3] {
    let mut outputs = [(); 3].map(|()| vec![0xff; expected.len()]);
    let [out, plain_out, before_out] = &mut outputs;
    let whole = Some(expected.len());
    let seconds = best_of_runs(
        RUNS,
        [
            &mut || decode_often(text, |text| assert_eq!(Step::Decode.by_sailmortar(versions, text, black_box(out)), whole)),
            &mut || decode_often(text, |text| assert_eq!(Step::Decode.plainly(text, black_box(plain_out)), whole)),
            &mut || {
                if let Some(versions) = versions {
                    decode_often(text, |text| assert_eq!(Step::Decode.by_version(&versions.before, text, black_box(before_out)), whole));
                }
            },
        ],
    );
    assert_written(versions, &outputs, expected, "a short text");
    seconds.map(|seconds| seconds * 1e9 / calls_of_turn(text) as f64)
}

fn calls_of_turn(text: &[u8]) -> usize {
    LETTERS_OF_TURN / text.len()
}

fn decode_often(text: &[u8], mut decode: impl FnMut(&[u8])) {
    for _ in 0..calls_of_turn(text) {
        decode(black_box(text));
    }
}
