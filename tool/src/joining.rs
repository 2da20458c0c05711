//! A conversion on several threads: parts of the input are given to workers and joined in order, on the thread that reads and writes.

use std::io;
use std::thread::scope;

use crate::joined::Joined;
use crate::parts::{Part, Source, LONGEST_ROW};
use crate::way::Way;
use crate::workers::{Converted, Output, Workers};
use crate::{Done, Error, Piece};

/// How far a conversion has come.
pub struct Joining<'a, S: Source> {
    way: Way<'a>,
    source: S,
    sink: &'a mut dyn FnMut(Piece) -> io::Result<()>,
    /// Whether a row is judged by so many bytes as the longest row may have, where they do not hold all of it.
    is_long: bool,
    joined: Joined,
    /// The part that is joined, but not to its end: a row is not whole in it, or is refused.
    rest: Option<Part<S::Bytes>>,
    /// So many bytes of it were converted, and held no whole row.
    tried: usize,
    /// Whether a row is refused, or the sink has failed.
    is_stopped: bool,
    spare: Vec<Output>,
}

impl<'a, S: Source> Joining<'a, S> {
    pub fn new(way: Way<'a>, source: S, sink: &'a mut dyn FnMut(Piece) -> io::Result<()>, is_long: bool) -> Joining<'a, S> {
        let (joined, spare) = (Joined::default(), Vec::new());
        Joining { way, source, sink, is_long, joined, rest: None, tried: 0, is_stopped: false, spare }
    }

    /// Converts to the end. Where a row is refused, or the sink fails, `left` gets what was read and not converted.
    pub fn run(mut self, threads: usize, left: Option<&mut Vec<u8>>) -> Result<Done, Error> {
        scope(|scope| {
            let mut workers = Workers::new(scope, self.way, threads);
            let done = self.join_all(&mut workers);
            match left {
                Some(left) if self.is_stopped => self.tell(left, &mut workers)?,
                _ => {}
            }
            done
        })
    }

    fn join_all(&mut self, workers: &mut Workers<S::Bytes>) -> Result<Done, Error> {
        loop {
            // What is ready is written before more is read.
            let waits = self.rest.is_some() || workers.are_full() || !self.source.is_ready();
            let joined = match workers.take(waits) {
                Some(converted) => self.take(converted)?,
                None => self.go_on(workers)?,
            };
            if let Some(done) = joined {
                return Ok(done);
            }
        }
    }

    /// Has the next part converted, by a worker or here.
    fn go_on(&mut self, workers: &mut Workers<S::Bytes>) -> Result<Option<Done>, Error> {
        let part = self.source.next()?.expect("the last part ends it");
        let is_alone = part.is_last && workers.are_idle();
        if self.rest.is_some() || is_alone || !workers.hire() {
            return self.convert(part);
        }
        workers.give(part, self.spare.pop().unwrap_or_default());
        Ok(None)
    }

    /// Joins a part that a worker has converted, unless it begins in the middle of a row.
    fn take(&mut self, Converted { part, output, memory }: Converted<S::Bytes>) -> Result<Option<Done>, Error> {
        if self.rest.is_some() {
            self.spare.push(output);
            return self.convert(part);
        }
        memory?;
        self.join(part, output)
    }

    /// Converts here what is left of the part before this one, and this one. A row that was not whole is tried again in twice as many bytes.
    fn convert(&mut self, next: Part<S::Bytes>) -> Result<Option<Done>, Error> {
        let part = match self.rest.take() {
            Some(rest) => self.source.together(rest, self.joined.place(), next)?,
            None => next,
        };
        if part.length() < 2 * self.tried && !part.is_last && !self.is_judged(&part) {
            self.rest = Some(part);
            return Ok(None);
        }
        let mut output = self.spare.pop().unwrap_or_default();
        output.fill(self.way, &part)?;
        self.join(part, output)
    }

    /// Whether a row that is not whole in this part is judged by it.
    fn is_judged(&self, part: &Part<S::Bytes>) -> bool {
        self.is_long && part.length() >= LONGEST_ROW
    }

    fn join(&mut self, mut part: Part<S::Bytes>, output: Output) -> Result<Option<Done>, Error> {
        let before = self.joined;
        self.joined.join(part.length_of_input(), &output.calls);
        if self.joined.place() == before.place() && self.is_judged(&part) {
            part.is_last = true;
            self.joined.join(part.length_of_input(), &output.calls);
        }
        self.tried = if self.joined.place() == before.place() { part.length() } else { 0 };
        let handed_on = self.hand_on(&output, before);
        self.spare.push(output);
        let outcome = self.joined.outcome();
        self.is_stopped = handed_on.is_err() || matches!(outcome, Some(Err(_)));
        match self.is_stopped || self.joined.place() < part.end() {
            true => self.rest = Some(part),
            false => self.source.give_back(part.bytes),
        }
        handed_on?;
        Ok(outcome.transpose()?)
    }

    /// Hands on what the rows take that were joined since.
    fn hand_on(&mut self, output: &Output, before: Joined) -> io::Result<()> {
        let bytes = &output.bytes[..(self.joined.bytes() - before.bytes()) as usize];
        match bytes {
            [] => Ok(()),
            _ => (self.sink)(Piece { bytes, rows: self.joined.rows(), read: self.joined.place() as usize }),
        }
    }

    /// What was read from the place on where the rows joined end.
    fn tell(&mut self, left: &mut Vec<u8>, workers: &mut Workers<S::Bytes>) -> Result<(), Error> {
        if let Some(rest) = self.rest.take() {
            *left = S::into_vec_from(rest, self.joined.place());
        }
        let mut add = |bytes: &[u8]| left.try_reserve(bytes.len()).map(|()| left.extend_from_slice(bytes));
        while let Some(converted) = workers.take(true) {
            add(converted.part.bytes.as_ref())?;
        }
        Ok(add(self.source.behind())?)
    }
}
