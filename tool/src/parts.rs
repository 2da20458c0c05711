//! Parts of an input, in order and without gaps: of a slice, or of a reader as it is read.

use std::io::{self, ErrorKind, Read};
use std::time::{Duration, Instant};

use crate::cuts::Cuts;
use crate::indexed_rows::zeros;
use crate::Error;

/// Without a bound on the input ([`Plan::long`](crate::Plan::long)), a row is judged by so many bytes where they do not hold all of it.
pub const LONGEST_ROW: usize = 64 << 20;

/// A reader that gives less than a part in this time is slow: what it gave is converted and written before it is asked for more.
const PATIENCE: Duration = Duration::from_millis(100);

/// A part of an input.
#[derive(Debug)]
pub struct Part<B> {
    /// Where in the input it begins.
    pub start: u64,
    pub bytes: B,
    /// Whether the input ends with it.
    pub is_last: bool,
}

impl<B: AsRef<[u8]>> Part<B> {
    pub fn length(&self) -> usize {
        self.bytes.as_ref().len()
    }

    pub fn end(&self) -> u64 {
        self.start + self.length() as u64
    }

    /// The bytes from a place of the input on that is in this part, or right behind it.
    pub fn from(&self, place: u64) -> &[u8] {
        &self.bytes.as_ref()[(place - self.start) as usize..]
    }

    /// The length of the input, where this part tells it.
    pub fn length_of_input(&self) -> Option<u64> {
        self.is_last.then(|| self.end())
    }
}

/// What parts come from.
pub trait Source {
    type Bytes: AsRef<[u8]> + Send;

    /// The next part; none behind the last, which may be empty.
    fn next(&mut self) -> Result<Option<Part<Self::Bytes>>, Error>;

    /// One part of what is left of the first from a place on, and of the second, which is the next.
    fn together(&mut self, first: Part<Self::Bytes>, place: u64, second: Part<Self::Bytes>) -> Result<Part<Self::Bytes>, Error>;

    /// The bytes of a part from a place on.
    fn into_vec_from(part: Part<Self::Bytes>, place: u64) -> Vec<u8>;

    /// Whether there is a next part, and it is not likely to take long until it is there.
    fn is_ready(&self) -> bool;

    /// A part's bytes are no longer needed.
    fn give_back(&mut self, _bytes: Self::Bytes) {}

    /// What was read behind the last part that was given.
    fn behind(&self) -> &[u8];
}

/// A slice in parts.
pub struct Slice<'a> {
    input: &'a [u8],
    cuts: &'a Cuts<'a>,
    /// Where the next part begins; none behind the last.
    next: Option<usize>,
    longest: usize,
}

impl<'a> Slice<'a> {
    /// Parts that have a cut within `longest` bytes end there, and others at their end.
    pub fn new(input: &'a [u8], cuts: &'a Cuts<'a>, longest: usize) -> Slice<'a> {
        Slice { input, cuts, next: Some(0), longest }
    }
}

impl<'a> Source for Slice<'a> {
    type Bytes = &'a [u8];

    fn next(&mut self) -> Result<Option<Part<&'a [u8]>>, Error> {
        let Some(start) = self.next else { return Ok(None) };
        let (rest, mut wanted) = (&self.input[start..], self.cuts.part);
        let bytes = loop {
            if wanted >= rest.len() {
                break rest;
            }
            match self.cuts.cut(start as u64, &rest[..wanted]) {
                Some(length) => break &rest[..length],
                None if wanted >= self.longest => break &rest[..wanted],
                None => wanted = (2 * wanted).min(self.longest),
            }
        };
        let is_last = bytes.len() == rest.len();
        self.next = (!is_last).then_some(start + bytes.len());
        Ok(Some(Part { start: start as u64, bytes, is_last }))
    }

    fn together(&mut self, _first: Part<&'a [u8]>, place: u64, second: Part<&'a [u8]>) -> Result<Part<&'a [u8]>, Error> {
        Ok(Part { start: place, bytes: &self.input[place as usize..second.end() as usize], is_last: second.is_last })
    }

    fn into_vec_from(part: Part<&'a [u8]>, place: u64) -> Vec<u8> {
        part.from(place).to_vec()
    }

    fn is_ready(&self) -> bool {
        self.next.is_some()
    }

    fn behind(&self) -> &[u8] {
        self.next.map_or(&[], |next| &self.input[next..])
    }
}

/// Bytes that were read, with room for more. It is filled with zeros once, and then used again for one part after the other.
#[derive(Debug, Default)]
pub struct Buffer {
    room: Vec<u8>,
    filled: usize,
}

impl AsRef<[u8]> for Buffer {
    fn as_ref(&self) -> &[u8] {
        &self.room[..self.filled]
    }
}

impl Buffer {
    /// Makes room for so many bytes in all.
    fn reserve(&mut self, length: usize) -> Result<(), Error> {
        if length > self.room.len() {
            let mut room = zeros(length)?;
            room[..self.filled].copy_from_slice(self.as_ref());
            self.room = room;
        }
        Ok(())
    }

    /// Has these bytes, and no others.
    fn set(&mut self, bytes: &[u8]) -> Result<(), Error> {
        self.filled = 0;
        self.reserve(bytes.len())?;
        self.room[..bytes.len()].copy_from_slice(bytes);
        self.filled = bytes.len();
        Ok(())
    }

    /// Reads once, up to so many bytes in all; whether there is an end instead.
    fn read(&mut self, reader: &mut dyn Read, length: usize) -> io::Result<bool> {
        loop {
            match reader.read(&mut self.room[self.filled..length]) {
                Err(cause) if cause.kind() == ErrorKind::Interrupted => {}
                Err(cause) => return Err(cause),
                Ok(count) => {
                    self.filled += count;
                    return Ok(count == 0);
                }
            }
        }
    }
}

/// A reader in parts.
pub struct Stream<'a> {
    reader: &'a mut dyn Read,
    /// How long the input is at most, as far as that is known.
    limit: u64,
    cuts: &'a Cuts<'a>,
    longest: usize,
    /// Where the next part begins, and what was read of it.
    start: u64,
    begun: Buffer,
    is_at_end: bool,
    is_over: bool,
    is_slow: bool,
    spare: Vec<Buffer>,
}

impl<'a> Stream<'a> {
    /// No more than `limit` bytes are read. Parts that have a cut within `longest` bytes end there, and others at their end.
    pub fn new(reader: &'a mut dyn Read, limit: u64, cuts: &'a Cuts<'a>, longest: usize) -> Stream<'a> {
        let (start, begun, spare) = (0, Buffer::default(), Vec::new());
        Stream { reader, limit, cuts, longest, start, begun, is_at_end: false, is_over: false, is_slow: false, spare }
    }

    /// Reads until there are so many bytes of the next part, or an end, or patience is at one.
    fn read(&mut self, wanted: usize) -> Result<(), Error> {
        let since = Instant::now();
        let wanted = wanted.min(usize::try_from(self.limit - self.start).unwrap_or(usize::MAX));
        self.begun.reserve(wanted)?;
        self.is_slow = false;
        while self.begun.filled < wanted && !self.is_at_end && !self.is_slow {
            self.is_at_end = self.begun.read(self.reader, wanted)?;
            self.is_slow = since.elapsed() > PATIENCE;
        }
        self.is_at_end |= self.start + self.begun.filled as u64 == self.limit;
        Ok(())
    }

    /// How many of the bytes read make a part; none where more have to be read.
    fn length_of_part(&self) -> Option<usize> {
        let bytes = self.begun.as_ref();
        if self.is_at_end {
            return Some(bytes.len());
        }
        self.cuts.cut(self.start, bytes).or((bytes.len() >= self.longest).then_some(bytes.len()))
    }
}

impl Source for Stream<'_> {
    type Bytes = Buffer;

    fn next(&mut self) -> Result<Option<Part<Buffer>>, Error> {
        if self.is_over {
            return Ok(None);
        }
        let mut wanted = self.cuts.part;
        let length = loop {
            self.read(wanted)?;
            match self.length_of_part() {
                Some(length) => break length,
                None => wanted = wanted.max(2 * self.begun.filled).min(self.longest),
            }
        };
        let mut behind = self.spare.pop().unwrap_or_default();
        behind.set(&self.begun.as_ref()[length..])?;
        let mut bytes = std::mem::replace(&mut self.begun, behind);
        bytes.filled = length;
        let part = Part { start: self.start, bytes, is_last: self.is_at_end };
        self.start = part.end();
        self.is_over = part.is_last;
        Ok(Some(part))
    }

    fn together(&mut self, first: Part<Buffer>, place: u64, second: Part<Buffer>) -> Result<Part<Buffer>, Error> {
        let mut room = Self::into_vec_from(first, place);
        room.try_reserve(second.length())?;
        room.extend_from_slice(second.bytes.as_ref());
        self.give_back(second.bytes);
        Ok(Part { start: place, bytes: Buffer { filled: room.len(), room }, is_last: second.is_last })
    }

    fn into_vec_from(part: Part<Buffer>, place: u64) -> Vec<u8> {
        let Buffer { mut room, filled } = part.bytes;
        room.truncate(filled);
        room.drain(..(place - part.start) as usize);
        room
    }

    fn give_back(&mut self, bytes: Buffer) {
        self.spare.push(bytes);
    }

    fn is_ready(&self) -> bool {
        !self.is_over && !self.is_slow
    }

    fn behind(&self) -> &[u8] {
        self.begun.as_ref()
    }
}
