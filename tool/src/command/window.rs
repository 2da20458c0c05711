//! What messages see of an input: all of it, or its first bytes and those from a row on, where the rest is not kept.

use crate::text::count;

#[derive(Clone, Copy)]
pub struct Window<'a> {
    /// The first bytes of the input, by which hints tell what it is.
    pub start: &'a [u8],
    /// The bytes from a row on.
    pub bytes: &'a [u8],
    /// Where these begin in the input.
    pub place: usize,
    /// How many line feeds stand before them, where that could be counted.
    pub line_feeds: Option<u64>,
    /// Whether the input goes on behind them, and the row was judged by them alone.
    pub goes_on: bool,
}

impl<'a> Window<'a> {
    /// All of an input.
    pub fn whole(input: &'a [u8]) -> Window<'a> {
        Window { start: input, bytes: input, place: 0, line_feeds: Some(0), goes_on: false }
    }

    /// What stands from a place of the input on; none where that is not seen.
    pub fn from(&self, place: usize) -> Option<&'a [u8]> {
        self.bytes.get(place.checked_sub(self.place)?..)
    }

    /// Where in the input the end of the window begins that is as long as `rest`.
    pub fn place_of(&self, rest: &[u8]) -> usize {
        self.place + self.bytes.len() - rest.len()
    }

    /// The line in which a byte of the window stands, from 1.
    pub fn line(&self, place: usize) -> Option<u64> {
        let before = &self.bytes[..place.saturating_sub(self.place).min(self.bytes.len())];
        Some(1 + self.line_feeds? + count(before, |byte| byte == b'\n'))
    }
}
