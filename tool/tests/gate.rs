//! The gate's exit status and last line, with an rt and a cargo that only say what they were told to.

mod shell;

use std::fs;
use std::os::unix::fs::PermissionsExt;
use std::path::Path;
use std::process::Command;

use shell::{Said, Scratch};

const ROOT: &str = env!("CARGO_MANIFEST_DIR");
const RT: &str = r#"#!/bin/sh
case $1 in
version) cat toolchain.txt ;;
ci) [ $# = 1 ] || exit 9; printf 'rt: number proved (1 s)\nnot a line of rt\n%s\n%s\n' "$SAYS" "$LAST"; exit "$CI" ;;
*) exit 9 ;;
esac
"#;
const CARGO: &str = r#"#!/bin/sh
echo "cargo $*"
case $1 in
test) [ "${SAILMORTAR_PROVED_SINCE:-0}" -gt 1000000000000000000 ] || exit 9; exit "$TESTS" ;;
bench) exit "$BENCHES" ;;
esac
"#;

/// What each of the gate's steps answers, and what rt ci says before its last line.
struct Steps {
    ci: u8,
    says: &'static str,
    tests: u8,
    benches: u8,
}

const GOOD: Steps = Steps { ci: 0, says: GOOD_EDITS, tests: 0, benches: 0 };
const GOOD_EDITS: &str = "rt: ok; handles allowed: none; must-fail edits: 40 refused, 20 of them only by a limit; the others are kept";
const PASSED: &str = "21 passed, 0 failed";
const FAILED: &str = "20 passed, 1 failed";

fn gate(test: &str, steps: Steps) -> Said {
    let scratch = Scratch::new(test);
    for folder in [".ci", "bin", "tmp"] {
        fs::create_dir(scratch.path(folder)).expect("a folder");
    }
    for (name, text) in [("bin/rt", RT), ("bin/cargo", CARGO)] {
        scratch.put(name, text.as_bytes());
        fs::set_permissions(scratch.path(name), fs::Permissions::from_mode(0o755)).expect("a program");
    }
    for name in [".ci/run", "toolchain.txt"] {
        fs::copy(Path::new(ROOT).join(name), scratch.path(name)).expect("a copy");
    }
    let path = format!("{}:{}", scratch.path("bin").display(), std::env::var("PATH").unwrap_or_default());
    let mut run = Command::new("bash");
    run.arg(scratch.path(".ci/run")).env("PATH", path).env("TMPDIR", scratch.path("tmp"));
    run.env("SAYS", steps.says).env("LAST", if steps.ci == 0 { PASSED } else { FAILED });
    for (name, status) in [("CI", steps.ci), ("TESTS", steps.tests), ("BENCHES", steps.benches)] {
        run.env(name, status.to_string());
    }
    let said = Said::of(run.output().expect("bash runs"));
    assert_eq!(fs::read_dir(scratch.path("tmp")).expect("a folder").count(), 0, "what was kept is removed");
    said
}

fn lines(said: &Said) -> Vec<&str> {
    std::str::from_utf8(&said.out).expect("text").lines().collect()
}

#[test]
fn all_pass() {
    let said = gate("gate_all_pass", GOOD);
    assert_eq!(said.status, 0);
    assert_eq!(
        lines(&said)[2..],
        [
            "rt: number proved (1 s)",
            GOOD_EDITS,
            "cargo test --locked --offline",
            "cargo bench --no-run --locked --offline",
            "rt: number proved (1 s)",
            "not a line of rt",
            GOOD_EDITS,
            PASSED
        ]
    );
}

#[test]
fn tests_or_benches_fail() {
    for (steps, word) in [(Steps { tests: 101, ..GOOD }, "tests"), (Steps { benches: 101, ..GOOD }, "benches")] {
        let said = gate("gate_tests_fail", steps);
        let lines = lines(&said);
        assert_eq!(said.status, 1, "{word}");
        assert_eq!(lines[lines.len() - 2], PASSED, "{word}");
        assert!(lines[lines.len() - 1].contains("did not") && lines[lines.len() - 1].contains(word), "{lines:?}");
    }
}

#[test]
fn a_proof_fails() {
    for (ci, tests) in [(1, 0), (3, 0), (1, 101), (2, 101)] {
        let said = gate("gate_a_proof_fails", Steps { ci, tests, says: "rt: FAILED: number", ..GOOD });
        assert_eq!(said.status, i32::from(ci));
        assert_eq!(lines(&said).last(), Some(&FAILED));
        assert!(!lines(&said).iter().any(|line| line.starts_with("cargo")), "nothing is tested over what is not proved");
    }
}

/// An edit that cannot be applied or read is passed by rt ci, and not by the gate.
#[test]
fn an_edit_that_must_fail_is_bad() {
    for (says, word) in [
        ("rt: ok; handles allowed: none; must-fail edits: 40 refused, 20 of them only by a limit, 1 bad; the others are kept", "bad"),
        ("rt: ok; handles allowed: none; must-fail edits: 0 refused, 20 bad; every proof was done in this run", "bad"),
        ("rt: nothing of edits", "nothing"),
    ] {
        let said = gate("gate_bad_edits", Steps { says, ..GOOD });
        let lines = lines(&said);
        assert_eq!(said.status, 1, "{says}");
        assert_eq!(lines[lines.len() - 2], PASSED, "{says}");
        assert!(lines[lines.len() - 1].contains("did not") && lines[lines.len() - 1].contains(word), "{lines:?}");
        assert!(!lines.iter().any(|line| line.starts_with("cargo")), "the tests wait for the edits");
    }
    for says in ["rt: ok; must-fail edits: 40 refused, 0 bad", "rt: ok; handles allowed: none; every proof was done in this run"] {
        assert_eq!(gate("gate_no_bad_edits", Steps { says, ..GOOD }).status, 0, "{says}");
    }
}

/// It is rt ci that looks at the layout of every crate.
#[test]
fn not_in_the_layout() {
    let said = gate("gate_not_in_the_layout", Steps { ci: 1, says: "rt: run rt fmt in the crate's folder", ..GOOD });
    assert_eq!(said.status, 1);
    assert!(lines(&said).iter().any(|line| line.contains("run rt fmt")), "{said:?}");
    assert!(!lines(&said).iter().any(|line| line.starts_with("cargo")), "nothing is tested over what is not proved");
}
