//! Conversion from a reader to a writer. The input is read whole before a row is written, since its size is judged before any row.

use std::io::{self, Read, Write};

use crate::numbers::INPUT_OVER_SIZE;
use crate::{base64_decode_to_vec, base64_encode, convert_pieces, Base64Writer, Done, Error, Refused, Rows, INPUT_LIMIT};

/// The room for one piece of the output: a row of 64 full columns takes a sixth of it.
pub const ROOM: usize = 32 << 20;

/// Bytes by which a Vec grows at first where the length of the input is not known.
const FIRST: usize = 1 << 16;

/// All that a reader has, or one byte more than `limit`: enough for the converter to see that it is too long.
///
/// `expected` is the length if it is known, else 0. Each growth of memory is tried, and is no longer than the limit asks for.
pub fn read_input(mut input: impl Read, expected: usize, limit: usize) -> io::Result<Vec<u8>> {
    let most = limit.saturating_add(1);
    let mut bytes = Vec::new();
    bytes.try_reserve_exact(expected.saturating_add(1).min(most))?;
    loop {
        let room = (bytes.capacity() - bytes.len()).min(most - bytes.len());
        let read = input.by_ref().take(room as u64).read_to_end(&mut bytes)?;
        if read < room || bytes.len() == most {
            return Ok(bytes);
        }
        bytes.try_reserve_exact(bytes.len().max(FIRST).min(most - bytes.len()))?;
    }
}

/// [`convert`](crate::convert) from a reader to a writer, in memory for the input and one piece of the output. A [`Plan`](crate::Plan) does so on
/// all cores, and in less memory.
///
/// Accepted or refused, the rows done are written whole, and `output` is flushed. Where that fails the answer is the system's error,
/// whatever else was to be said: then the rows do not stand.
///
/// ```
/// # fn main() -> Result<(), sailmortar::Error> {
/// use sailmortar::{convert_stream, Rows};
///
/// let fields = b"<FIELD datatype='short'/>";
/// let mut text = Vec::new();
/// let done = convert_stream(fields, Rows::Binary, Rows::TableData, &[0, 7, 0, 8][..], &mut text)?;
/// assert_eq!(done.rows, 2);
/// assert_eq!(text, b"<TR><TD>7</TD></TR>\n<TR><TD>8</TD></TR>\n");
/// # Ok(())
/// # }
/// ```
pub fn convert_stream(decls: &[u8], from: Rows, to: Rows, input: impl Read, mut output: impl Write) -> Result<Done, Error> {
    let input = read_input(input, 0, INPUT_LIMIT)?;
    let done = convert_pieces(decls, from, to, &input, ROOM, |piece| output.write_all(piece.bytes));
    output.flush()?;
    done
}

/// [`base64_decode`](crate::base64_decode) from a reader to a writer. A refusal writes nothing.
pub fn base64_decode_stream(input: impl Read, mut output: impl Write) -> Result<Done, Error> {
    let (text, mut bytes) = (read_input(input, 0, INPUT_LIMIT)?, Vec::new());
    let done = base64_decode_to_vec(&text, &mut bytes)?;
    output.write_all(&bytes)?;
    output.flush()?;
    Ok(done)
}

/// Base64 from a reader to a writer, in lines of `wrap` letters, or without line feeds where that is 0. A refusal (6) writes nothing.
pub fn base64_encode_stream(input: impl Read, output: impl Write, wrap: usize) -> Result<Done, Error> {
    let bytes = read_input(input, 0, INPUT_LIMIT)?;
    within_limit(&bytes)?;
    let mut counted = Counted { inner: output, bytes: 0 };
    let mut letters = Base64Writer::new(&mut counted, wrap)?;
    letters.write_all(&bytes)?;
    letters.finish()?;
    Ok(Done { rows: 0, bytes: counted.bytes })
}

/// Asked with no room, the proved step says whether an input is over its size.
pub fn within_limit(input: &[u8]) -> Result<(), Refused> {
    match base64_encode(input, &mut []) {
        Err(refused) if refused.number == INPUT_OVER_SIZE => Err(refused),
        _ => Ok(()),
    }
}

/// A writer that counts what goes through it.
struct Counted<W> {
    inner: W,
    bytes: u64,
}

impl<W: Write> Write for Counted<W> {
    fn write(&mut self, bytes: &[u8]) -> io::Result<usize> {
        let written = self.inner.write(bytes)?;
        self.bytes += written as u64;
        Ok(written)
    }

    fn flush(&mut self) -> io::Result<()> {
        self.inner.flush()
    }
}
