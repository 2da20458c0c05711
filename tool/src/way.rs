//! One of the nine ways to convert, under declarations, and a call of it for joining.

use crate::joined::Call;
use crate::proved::convert_behind;
use crate::Rows;

#[derive(Clone, Copy, Debug)]
pub struct Way<'a> {
    pub decls: &'a [u8],
    pub from: Rows,
    pub to: Rows,
}

impl Way<'_> {
    /// Converts the part of an input that begins at `start`, into the room behind `out`.
    pub fn call(&self, start: u64, part: &[u8], out: &mut Vec<u8>) -> Call {
        let room = out.capacity() - out.len();
        let [number, row, column, rows, bytes, place] = convert_behind(self.decls, self.from, self.to, part, out);
        [start, part.len() as u64, room as u64, number, row, column, rows, bytes, place]
    }
}
