//! The README's commands run as they stand.

mod shell;

use std::fs;
use std::path::Path;
use std::process::Command;

use shell::{Scratch, PROGRAM, TABLEDATA};

const ROOT: &str = env!("CARGO_MANIFEST_DIR");
const README: &str = include_str!("../../README.md");

/// The README's lines for a shell that begin with this word.
fn lines_of(word: &str) -> Vec<&'static str> {
    README.lines().filter(|line| line.starts_with("    ")).map(str::trim_start).filter(|line| line.starts_with(word)).collect()
}

/// A folder with the repository's own in it, so that nothing is left in the repository.
fn folder(test: &str) -> Scratch {
    let scratch = Scratch::new(test);
    for place in ["examples", "include", "python", "target"] {
        std::os::unix::fs::symlink(Path::new(ROOT).join(place), scratch.path(place)).expect("a link");
    }
    scratch
}

fn run(scratch: &Scratch, line: &str) -> String {
    let path = format!("{}:{}", Path::new(PROGRAM).parent().expect("a folder").display(), std::env::var("PATH").unwrap_or_default());
    let mut shell = Command::new("sh");
    shell.args(["-c", line]).env("PATH", path).env("PYTHONDONTWRITEBYTECODE", "1").current_dir(&scratch.0);
    let output = shell.output().expect("sh runs");
    assert!(output.status.success() && output.stderr.is_empty(), "{line}: {}", String::from_utf8_lossy(&output.stderr));
    String::from_utf8(output.stdout).expect("text")
}

#[test]
fn every_line_of_the_command_runs() {
    let scratch = folder("readme_command");
    let said: Vec<String> = lines_of("sailmortar ").into_iter().map(|line| run(&scratch, line)).collect();
    assert!(said.len() >= 8, "the README shows what the command can do");
    assert_eq!(said.iter().filter(|said| said.as_bytes() == TABLEDATA).count(), 2, "the night comes back twice");
    assert_eq!(scratch.get("night.binary2"), shell::BINARY2);
    assert_eq!(said.iter().filter(|said| *said == "<TR><TD/><TD>dusk</TD><TD/></TR>\n").count(), 1, "one row is fetched");
}

#[test]
fn the_lines_for_c_and_python_run() {
    let scratch = folder("readme_programs");
    for (word, says) in [("cc ", "number 8, row 1, column 2, rows 1"), ("python3 ", "refusal 8 at row 1, column 2")] {
        let lines = lines_of(word);
        assert_eq!(lines.len(), 1, "{word}");
        assert!(run(&scratch, lines[0]).contains(says), "{word}");
    }
}

#[test]
fn what_the_readme_names_is_there() {
    let links = README.split("](").skip(1).filter_map(|rest| rest.split(')').next());
    let named =
        links.chain(["tool/install", "toolchain.txt", "tool/tests/model", "crates/demands/specs/Demands.antt", "crates/demands/proofs"]);
    for place in named {
        assert!(fs::exists(Path::new(ROOT).join(place)).expect("the file system answers"), "{place}");
    }
}
