//! Readers that fail, and readers that are slow.

use std::cell::Cell;
use std::io::{self, Read};
use std::time::Duration;

use super::one_call::{ways, Night, Steps};
use sailmortar::{Error, Plan, Rows};

const FIELDS: &str = "<FIELD datatype='short'/><FIELD datatype='char' arraysize='*'/>";

/// So many rows, in each kind.
fn night(from: Rows, rows: usize) -> Night {
    let row: &[u8] = match from {
        Rows::TableData => b"<TR><TD>7</TD><TD>dusk</TD></TR>\n",
        Rows::Binary => b"\0\x07\0\0\0\x04dusk",
        _ => b"\0\0\x07\0\0\0\x04dusk",
    };
    Night::new(FIELDS, from, row.repeat(rows))
}

/// What it has handed on by then are whole rows, and nothing is lost between them.
#[test]
fn a_reader_that_fails_is_the_answer() {
    for (from, to) in ways() {
        let night = night(from, 30);
        let expected = night.in_one_call(to).bytes;
        let row = expected.len() / 30;
        for fails_at in [0, 1, 100, night.input.len() / 2, night.input.len() - 1, night.input.len()] {
            for plan in [Plan::new(), Plan::new().length(night.input.len() as u64 + 1), Plan::new().long()] {
                for (threads, part) in [(1, 1), (2, 40), (3, 64), (2, 1 << 20)] {
                    let mut reader = Steps::new(&night.input, 7);
                    reader.fails_at = Some(fails_at);
                    let mut bytes = Vec::new();
                    let plan = plan.clone().threads(threads).part(part);
                    match plan.convert(&night.declarations, from, to, reader, &mut bytes) {
                        Err(Error::System(cause)) => assert_eq!(cause.to_string(), "a reader that fails"),
                        other => panic!("{other:?}"),
                    }
                    assert!(expected.starts_with(&bytes) && bytes.len() % row == 0 && bytes.len() / row <= fails_at, "{plan:?}");
                }
            }
        }
    }
}

/// A reader that gives a row in a while, and never ends before some rows have come out.
struct Slow<'a> {
    row: &'a [u8],
    given: usize,
    handed_on: &'a Cell<u64>,
}

impl Read for Slow<'_> {
    fn read(&mut self, bytes: &mut [u8]) -> io::Result<usize> {
        if self.handed_on.get() > 0 {
            return Ok(0);
        }
        assert!(self.given < 100, "no row has come out");
        std::thread::sleep(Duration::from_millis(20));
        self.given += 1;
        bytes[..self.row.len()].copy_from_slice(self.row);
        Ok(self.row.len())
    }
}

#[test]
fn rows_of_a_slow_reader_come_out() {
    for from in [Rows::TableData, Rows::Binary, Rows::Binary2] {
        for threads in [1, 2] {
            let (night, handed_on) = (night(from, 1), Cell::new(0));
            let mut reader = Slow { row: &night.input, given: 0, handed_on: &handed_on };
            let plan = Plan::new().threads(threads).long();
            let done = plan.convert_pieces(&night.declarations, from, Rows::Binary, &mut reader, &mut Vec::new(), |piece| {
                handed_on.set(piece.rows);
                Ok(())
            });
            assert_eq!(done.expect("it is good").rows, reader.given as u64);
        }
    }
}
