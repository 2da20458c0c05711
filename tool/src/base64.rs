//! Base64 that makes its own room: to the end of a Vec, and as a writer in front of another, with lines of any length.

use std::io::{self, Write};

use crate::proved::{decode_behind, encode_behind};
use crate::{Done, Error, INPUT_LIMIT};

/// [`base64_decode`](crate::base64_decode) to the end of `out`, with as much room as it takes. A refusal (6 or 7) writes nothing.
pub fn base64_decode_to_vec(input: &[u8], out: &mut Vec<u8>) -> Result<Done, Error> {
    out.try_reserve(input.len().min(INPUT_LIMIT) / 4 * 3 + 3)?;
    Ok(decode_behind(input, out)?)
}

/// [`base64_encode`](crate::base64_encode) to the end of `out`, with as much room as it takes. A refusal (6) writes nothing.
pub fn base64_encode_to_vec(input: &[u8], out: &mut Vec<u8>) -> Result<Done, Error> {
    out.try_reserve(input.len().min(INPUT_LIMIT).div_ceil(3) * 4)?;
    Ok(encode_behind(input, out)?)
}

/// Bytes that are encoded at once, a multiple of three so that no `=` stands before the end.
const HELD: usize = 3 << 14;

/// A writer that encodes what is written to it and hands the letters to another. Its memory does not grow, and its output has no bound.
///
/// Once the other has failed, letters may be missing, and every later call fails too.
#[must_use = "the last letters are written by finish"]
#[derive(Debug)]
pub struct Base64Writer<W: Write> {
    inner: W,
    wrap: usize,
    /// The letters in the line that is begun.
    line: usize,
    held: Vec<u8>,
    letters: Vec<u8>,
    lines: Vec<u8>,
    failed: bool,
}

impl<W: Write> Base64Writer<W> {
    /// Letters go to `inner`, in lines of `wrap` letters with a line feed behind each; 0 is for no line feed at all.
    pub fn new(inner: W, wrap: usize) -> io::Result<Base64Writer<W>> {
        let (mut held, mut letters, mut lines) = (Vec::new(), Vec::new(), Vec::new());
        held.try_reserve_exact(HELD)?;
        letters.try_reserve_exact(HELD / 3 * 4)?;
        if wrap > 0 {
            lines.try_reserve_exact(HELD / 3 * 8)?;
        }
        Ok(Base64Writer { inner, wrap, line: 0, held, letters, lines, failed: false })
    }

    /// The last letters, and the end of the last line. A writer that is dropped without this has not written them.
    pub fn finish(mut self) -> io::Result<W> {
        self.check()?;
        self.hand_on()?;
        if self.line > 0 {
            self.inner.write_all(b"\n")?;
        }
        self.inner.flush()?;
        Ok(self.inner)
    }

    fn hand_on(&mut self) -> io::Result<()> {
        self.letters.clear();
        encode_behind(&self.held, &mut self.letters).map_err(io::Error::other)?;
        self.held.clear();
        // Taken back if all goes well: how much of a broken write has arrived no one knows.
        self.failed = true;
        match self.wrap {
            0 => self.inner.write_all(&self.letters)?,
            _ => {
                self.break_lines();
                self.inner.write_all(&self.lines)?;
            }
        }
        self.failed = false;
        Ok(())
    }

    fn check(&self) -> io::Result<()> {
        match self.failed {
            true => Err(io::Error::other("an earlier write failed, and letters may be missing")),
            false => Ok(()),
        }
    }

    fn break_lines(&mut self) {
        self.lines.clear();
        let mut rest = &self.letters[..];
        while !rest.is_empty() {
            let (line, after) = rest.split_at(rest.len().min(self.wrap - self.line));
            self.lines.extend_from_slice(line);
            self.line += line.len();
            if self.line == self.wrap {
                self.lines.push(b'\n');
                self.line = 0;
            }
            rest = after;
        }
    }
}

impl<W: Write> Write for Base64Writer<W> {
    fn write(&mut self, bytes: &[u8]) -> io::Result<usize> {
        self.check()?;
        let taken = &bytes[..bytes.len().min(HELD - self.held.len())];
        self.held.extend_from_slice(taken);
        if self.held.len() == HELD {
            self.hand_on()?;
        }
        Ok(taken.len())
    }

    /// Up to two bytes have no letters yet, so that only what `inner` has is flushed.
    fn flush(&mut self) -> io::Result<()> {
        self.inner.flush()
    }
}
