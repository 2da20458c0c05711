//! A sink that fails, at each piece that there is: that is the answer, at once, and what was not converted is told.

use std::io::{self, Write};

use super::one_call::{ways, Night, Steps};
use sailmortar::{Error, Plan, Rows};

const FIELDS: &str = "<FIELD datatype='short'/><FIELD datatype='char' arraysize='*'/>";

fn night(from: Rows) -> Night {
    let text = (0..60).map(|row| format!("<TR><TD>{row}</TD><TD>{}</TD></TR>\n", "x".repeat(1 + row % 7))).collect::<String>();
    let text = Night::new(FIELDS, Rows::TableData, text);
    Night::new(FIELDS, from, text.in_one_call(from).bytes)
}

/// The plan with a sink that takes so many pieces; how many it was given, and whether it failed.
fn with_sink(night: &Night, to: Rows, plan: &Plan, pieces: usize) -> (usize, bool) {
    let expected = night.in_one_call(to);
    let (mut taken, mut bytes, mut read, mut left) = (0, Vec::new(), 0, Vec::new());
    let mut reader = Steps::new(&night.input, 50);
    let answer = plan.convert_pieces(&night.declarations, night.from, to, &mut reader, &mut left, |piece| {
        (taken, read) = (taken + 1, piece.read);
        bytes.extend_from_slice(piece.bytes);
        if taken > pieces {
            return Err(io::Error::other("a sink that fails"));
        }
        Ok(())
    });
    assert!(expected.bytes.starts_with(&bytes));
    match answer {
        Ok(done) => {
            assert!(Ok(done) == expected.answer && bytes == expected.bytes && left.is_empty());
            (taken, false)
        }
        Err(Error::System(cause)) => {
            assert_eq!(cause.to_string(), "a sink that fails");
            assert!([&left, reader.rest()].concat() == night.input[read..], "what is left from {read} on");
            (taken, true)
        }
        Err(other) => panic!("{other}"),
    }
}

#[test]
fn a_sink_that_fails_at_each_piece_is_the_answer() {
    for (from, to) in ways() {
        let night = night(from);
        let length = night.input.len() as u64;
        for plan in [Plan::new(), Plan::new().length(length), Plan::new().long()] {
            for (threads, part) in [(1, 100), (2, 100), (3, 40), (2, 1 << 20)] {
                let plan = plan.clone().threads(threads).part(part);
                let (all, failed) = with_sink(&night, to, &plan, usize::MAX);
                assert!(!failed && (part > 100 || all > 3), "{all} pieces");
                for pieces in 0..all {
                    assert_eq!(with_sink(&night, to, &plan, pieces), (pieces + 1, true), "{from} to {to}, {plan:?}");
                }
            }
        }
    }
}

/// A writer that fails when it is flushed.
struct Unflushed;

impl Write for Unflushed {
    fn write(&mut self, bytes: &[u8]) -> io::Result<usize> {
        Ok(bytes.len())
    }

    fn flush(&mut self) -> io::Result<()> {
        Err(io::Error::other("it is not flushed"))
    }
}

#[test]
fn a_writer_is_flushed_whatever_the_answer() {
    for input in [&b"\0\x07\0\0\0\x01a"[..], b"\0\x07\0"] {
        for plan in [Plan::new(), Plan::new().long()] {
            match plan.convert(FIELDS.as_bytes(), Rows::Binary, Rows::Binary, input, Unflushed) {
                Err(Error::System(cause)) => assert_eq!(cause.to_string(), "it is not flushed"),
                other => panic!("{other:?}"),
            }
        }
    }
}
