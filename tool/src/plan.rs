//! Conversion on all cores, and of an input of any length.
//!
//! Parts of the input are converted by themselves, on several threads, and joined in order. That parts which are joined so are what one call
//! answers and writes is proved of the archive's functions, wherever the input is cut. What is not proved is that each part is handed on once, in
//! order and whole: reading (parts.rs), threads (workers.rs) and writing (joining.rs).

use std::io::{self, Read, Write};
use std::num::NonZero;
use std::thread::available_parallelism;

use crate::cuts::Cuts;
use crate::joining::Joining;
use crate::numbers::INPUT_OVER_SIZE;
use crate::parts::{Slice, Stream, LONGEST_ROW};
use crate::way::Way;
use crate::{declare, read_input, Done, Error, Piece, Refused, Rows, INPUT_LIMIT};

/// The most and the least bytes of a part. Between them, and where the length of the input is known, each thread gets so many parts that none is
/// waited for long at the end.
const PART: usize = 1 << 20;
const LEAST_PART: usize = 1 << 16;
const PARTS_FOR_A_THREAD: usize = 32;

/// What is not longer takes longer on several threads, which have to be started.
const SMALL: usize = 2 * LEAST_PART;

/// How to convert: on how many threads, in parts of what size, and whether while the input is read.
///
/// Whatever is planned, the answer and the bytes are those of one call, [`convert_to_vec`](crate::convert_to_vec).
///
/// ```
/// # fn main() -> Result<(), sailmortar::Error> {
/// use sailmortar::{Plan, Rows};
///
/// let (fields, night) = (b"<FIELD datatype='short'/>", [0, 7, 0, 8]);
/// let mut text = Vec::new();
/// let done = Plan::new().length(4).convert(fields, Rows::Binary, Rows::TableData, &night[..], &mut text)?;
/// assert_eq!(done.rows, 2);
/// assert_eq!(text, b"<TR><TD>7</TD></TR>\n<TR><TD>8</TD></TR>\n");
/// # Ok(())
/// # }
/// ```
#[must_use = "a plan does nothing until it converts"]
#[derive(Clone, Debug, Default)]
pub struct Plan {
    threads: Option<usize>,
    part: Option<usize>,
    cuts: Vec<u64>,
    length: Option<u64>,
    long: bool,
}

impl Plan {
    /// On all cores, in parts of about a megabyte, or less where the input is short. It is read to its end before a row is written, since its size is
    /// judged first.
    pub fn new() -> Plan {
        Plan::default()
    }

    /// On so many threads beside the one that calls, which reads and writes. Where it is one, and for an input of one part, there is none beside it.
    pub fn threads(mut self, threads: usize) -> Plan {
        self.threads = Some(threads.max(1));
        self
    }

    /// In parts of about so many bytes. As many parts as threads, and two more, are in memory, each with what it was converted to.
    pub fn part(mut self, bytes: usize) -> Plan {
        self.part = Some(bytes.clamp(1, LONGEST_ROW));
        self
    }

    /// Cuts the input at such places, where rows begin, instead of guessing, as [`Index::starts`](crate::Index::starts) has them; behind the last of
    /// them it guesses. Places that are wrong cost time, and change nothing.
    pub fn cuts(mut self, places: impl Into<Vec<u64>>) -> Plan {
        self.cuts = places.into();
        self.cuts.sort_unstable();
        self
    }

    /// The input is so long: it is converted while it is read, and no more of it is read. One that ends before is as long as it is.
    pub fn length(mut self, bytes: u64) -> Plan {
        self.length = Some(bytes);
        self
    }

    /// The input may be of any length: none is refused for its size, and it is converted while it is read.
    ///
    /// So that memory stays bounded, a row of TABLEDATA that is not whole within 64 MiB is judged by those, and refused (10), though it might end
    /// well behind them; and where so much white space stands before a refused row, its offset is behind that. All else is as in one call.
    pub fn long(mut self) -> Plan {
        self.long = true;
        self
    }

    /// Converts from a reader to a writer.
    ///
    /// Accepted or refused, the rows done are written whole, and `output` is flushed. Where that fails the answer is the system's error, whatever
    /// else was to be said: then the rows do not stand.
    pub fn convert(&self, decls: &[u8], from: Rows, to: Rows, input: impl Read, mut output: impl Write) -> Result<Done, Error> {
        let done = self.convert_pieces(decls, from, to, input, &mut Vec::new(), |piece| output.write_all(piece.bytes));
        output.flush()?;
        done
    }

    /// Converts from a reader, and hands the output to `sink` in pieces, whole rows each. An error of `sink` ends the conversion, and is the answer.
    ///
    /// Where a row is refused, or `sink` fails, `left` gets what was read of the input and not converted, from where the rows end that were handed
    /// on: so it is, with what the reader still has, the rest of the input. Else it is empty. Where the reader fails, that is the answer, whatever
    /// rows were handed on by then.
    pub fn convert_pieces(
        &self,
        decls: &[u8],
        from: Rows,
        to: Rows,
        mut input: impl Read,
        left: &mut Vec<u8>,
        mut sink: impl FnMut(Piece) -> io::Result<()>,
    ) -> Result<Done, Error> {
        left.clear();
        if self.length.is_none() && !self.long {
            return self.convert_all(decls, from, to, input, left, sink);
        }
        let (threads, part) = self.threads_and_part(self.length);
        let cuts = Cuts::new(decls, from, part, &self.cuts)?;
        let limit = self.length.unwrap_or(u64::MAX);
        self.within_limit(limit)?;
        let source = Stream::new(&mut input, limit, &cuts, self.longest());
        Joining::new(Way { decls, from, to }, source, &mut sink, self.long).run(threads, Some(left))
    }

    /// The same of an input that is read to its end first.
    fn convert_all(
        &self,
        decls: &[u8],
        from: Rows,
        to: Rows,
        input: impl Read,
        left: &mut Vec<u8>,
        mut sink: impl FnMut(Piece) -> io::Result<()>,
    ) -> Result<Done, Error> {
        declare(decls)?;
        let (mut input, mut read) = (read_input(input, 0, INPUT_LIMIT)?, 0);
        let done = self.convert_slice(decls, from, to, &input, |piece| {
            read = piece.read;
            sink(piece)
        });
        if done.is_err() {
            input.drain(..read);
            *left = input;
        }
        done
    }

    /// Converts a slice, and hands the output to `sink` in pieces, whole rows each. An error of `sink` ends the conversion, and is the answer.
    pub fn convert_slice(
        &self,
        decls: &[u8],
        from: Rows,
        to: Rows,
        input: &[u8],
        mut sink: impl FnMut(Piece) -> io::Result<()>,
    ) -> Result<Done, Error> {
        let (threads, part) = self.threads_and_part(Some(input.len() as u64));
        let cuts = Cuts::new(decls, from, part, &self.cuts)?;
        self.within_limit(input.len() as u64)?;
        let source = Slice::new(input, &cuts, self.longest());
        Joining::new(Way { decls, from, to }, source, &mut sink, self.long).run(threads, None)
    }

    /// For an input of this length, where it is known.
    fn threads_and_part(&self, length: Option<u64>) -> (usize, usize) {
        let length = usize::try_from(length.unwrap_or(u64::MAX)).unwrap_or(usize::MAX);
        let threads = match self.threads {
            Some(threads) => threads,
            None if length <= SMALL => 1,
            None => available_parallelism().map_or(1, NonZero::get),
        };
        let share = length / threads.saturating_mul(PARTS_FOR_A_THREAD);
        (threads, self.part.unwrap_or(share.clamp(LEAST_PART, PART)))
    }

    /// One call refuses what is too long before it looks at a row.
    fn within_limit(&self, length: u64) -> Result<(), Refused> {
        match self.long || length <= INPUT_LIMIT as u64 {
            true => Ok(()),
            false => Err(Refused { number: INPUT_OVER_SIZE, row: 0, column: 0, rows: 0, bytes: 0, offset: 0 }),
        }
    }

    /// The most bytes of a part in which there is no place to cut.
    fn longest(&self) -> usize {
        if self.long {
            LONGEST_ROW
        } else {
            INPUT_LIMIT
        }
    }
}
