//! Bytes that show nothing change nothing: content under a set flag, and what stands behind the first NUL of a text.

use super::archive;
use super::compare::seeds;
use crate::generate::columns::{declarations, some};
use crate::generate::rows::{spelled, table};
use crate::generate::Random;
use crate::model::converter::{Rows, EVERY_KIND_OF_ROWS};
use crate::model::{Column, Kind, Length};

/// The places in a valid BINARY2 stream that nobody looks at, found by walking its rows.
fn unseen_places(columns: &[Column], stream: &[u8]) -> Vec<usize> {
    let mut places = Vec::new();
    let mut at = 0;
    while at < stream.len() {
        let flags = at;
        at += columns.len().div_ceil(8);
        for (place, column) in columns.iter().enumerate() {
            let count = match column.length {
                Length::Fixed(size) => size,
                _ => {
                    at += 4;
                    usize::from(stream[at - 2]) << 8 | usize::from(stream[at - 1])
                }
            };
            let end = at + column.content_size(count);
            let is_flagged = stream[flags + place / 8] & (0x80 >> (place % 8)) != 0;
            if is_flagged {
                places.extend(at..end);
            } else if column.kind == Kind::Char {
                let nul = (at..end).find(|byte| stream[*byte] == 0);
                places.extend(nul.map_or(end, |nul| nul + 1)..end);
            }
            at = end;
        }
    }
    places
}

/// The whole outcome of a call: its answer and its buffer.
fn outcome(text: &[u8], to: Rows, stream: &[u8], room: usize) -> ([u64; 5], Vec<u8>) {
    let mut out = vec![0xee; room];
    let answer = archive::convert(text, Rows::Binary2.number(), to.number(), stream, &mut out);
    (answer, out)
}

#[test]
fn bytes_change_nothing() {
    let mut changed_bytes = 0;
    for seed in seeds(40_000_000, 20_000) {
        let mut random = Random::new(seed);
        let columns = some(&mut random, 1, 9);
        let text = declarations(&columns);
        let table = table(&mut random, &columns, Rows::Binary2, 3);
        let stream = spelled(&mut random, &columns, Rows::Binary2, &table);
        let places = unseen_places(&columns, &stream);
        for to in EVERY_KIND_OF_ROWS {
            let mut changed = stream.clone();
            for place in &places {
                changed[*place] = if random.one_in(4) { 0 } else { random.next() as u8 };
            }
            changed_bytes += changed.iter().zip(&stream).filter(|(one, other)| one != other).count();
            let room = random.pick(&[10_000, 100_000, 50]);
            let (before, after) = (outcome(&text, to, &stream, room), outcome(&text, to, &changed, room));
            let told = || format!("seed {seed} to {to:?}: {} {}", stream.escape_ascii(), changed.escape_ascii());
            assert!(before == after, "{}", told());
        }
    }
    assert!(changed_bytes > 1_000, "only {changed_bytes} bytes were changed: the test shows nothing");
}

/// A night on which the probe died: its flag is set and the last good reading still stands beneath it.
#[test]
fn last_good_reading_under_a_flag_is_never_written() {
    let text = b"<FIELD datatype='short'/><FIELD datatype='char' arraysize='6*'/>";
    let good = b"\x00\x12\x34\x00\x00\x00\x05clear";
    let dead = b"\xc0\x12\x34\x00\x00\x00\x05clear";
    let stream = [&good[..], dead, dead].concat();
    let (answer, out) = outcome(text, Rows::TableData, &stream, 200);
    let line = "<TR><TD>4660</TD><TD>clear</TD></TR>\n<TR><TD/><TD/></TR>\n<TR><TD/><TD/></TR>\n";
    assert_eq!(answer, [0, 0, 0, 3, line.len() as u64]);
    assert_eq!(&out[..line.len()], line.as_bytes());
    let (answer, out) = outcome(text, Rows::Binary2, &stream, 200);
    assert_eq!(answer, [0, 0, 0, 3, 26]);
    assert_eq!(&out[12..26], b"\xc0\0\0\0\0\0\0\xc0\0\0\0\0\0\0");
}
