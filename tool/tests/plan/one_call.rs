//! A conversion by a plan beside one call of `convert`, and the readers that it reads from.

use std::io::{self, Read};

use crate::generate::columns::{declarations, some};
use crate::generate::damage::damaged;
use crate::generate::rows::{spelled, table};
use crate::generate::Random;
use crate::model::converter::{self, EVERY_KIND_OF_ROWS};
use sailmortar::{convert, Done, Error, Plan, Refused, Rows};

/// The seeds of a test that takes random inputs: `count` of them, times SAILMORTAR_LONG, or SAILMORTAR_SEED alone.
pub fn seeds(first: u64, count: u64) -> Vec<u64> {
    let number = |name| std::env::var(name).ok().map(|value| value.parse::<u64>().expect(name));
    match number("SAILMORTAR_SEED") {
        Some(seed) => vec![seed],
        None => (first..first + count * number("SAILMORTAR_LONG").unwrap_or(1)).collect(),
    }
}

pub fn ways() -> impl Iterator<Item = (Rows, Rows)> {
    Rows::ALL.iter().flat_map(|from| Rows::ALL.iter().map(move |to| (*from, *to)))
}

/// Rows of a kind under declarations.
#[derive(Clone, Debug)]
pub struct Night {
    pub declarations: Vec<u8>,
    pub from: Rows,
    pub input: Vec<u8>,
}

/// What a conversion answers and writes.
#[derive(Debug, PartialEq, Eq)]
pub struct Told {
    pub answer: Result<Done, Refused>,
    pub bytes: Vec<u8>,
}

impl Told {
    /// Where the rows done end, if one is refused.
    pub fn offset(&self) -> Option<usize> {
        self.answer.err().map(|refused| refused.offset)
    }
}

impl Night {
    pub fn new(declarations: &str, from: Rows, input: impl Into<Vec<u8>>) -> Night {
        Night { declarations: declarations.as_bytes().to_vec(), from, input: input.into() }
    }

    /// Up to so many rows of a few columns, all of them good.
    pub fn good(random: &mut Random, from: Rows, rows: usize) -> Night {
        let (columns, rows) = (some(random, 1, 5), random.below(rows + 1));
        let kind = EVERY_KIND_OF_ROWS[from as usize];
        let table = table(random, &columns, kind, rows);
        let input = spelled(random, &columns, kind, &table);
        Night { declarations: declarations(&columns), from, input }
    }

    /// The same, one in three damaged and one in three cut off.
    pub fn random(random: &mut Random, from: Rows, rows: usize) -> Night {
        let good = Night::good(random, from, rows);
        let input = match random.below(3) {
            0 => damaged(random, &good.input),
            1 => good.input[..random.between(0, good.input.len())].to_vec(),
            _ => return good,
        };
        Night { input, ..good }
    }

    /// What one call says, with room enough.
    pub fn in_one_call(&self, to: Rows) -> Told {
        let mut out = vec![0; 4_096];
        loop {
            let answer = convert(&self.declarations, self.from, to, &self.input, &mut out);
            let bytes = answer.map_or_else(|refused| refused.bytes, |done| done.bytes);
            match answer {
                Err(Refused { number: 17, .. }) => out = vec![0; 2 * out.len()],
                _ => return Told { answer, bytes: out[..bytes as usize].to_vec() },
            }
        }
    }

    /// Where the rows before a refused one end.
    pub fn ends(&self) -> Vec<usize> {
        let columns = crate::model::declarations::read(&self.declarations).expect("they are good");
        let (kind, mut at, mut ends) = (EVERY_KIND_OF_ROWS[self.from as usize], 0, Vec::new());
        while let Ok(Some((_, end))) = converter::read_row(&columns, kind, &self.input, at) {
            ends.push(end);
            at = end;
        }
        ends
    }

    /// What a plan says of it as a slice; each piece is whole rows, and says how many they are and where they end.
    pub fn by_slice(&self, plan: &Plan, to: Rows) -> Told {
        let mut bytes = Vec::new();
        let (mut rows, mut read) = (0, 0);
        let answer = plan.convert_slice(&self.declarations, self.from, to, &self.input, |piece| {
            assert!(piece.rows > rows && piece.read > read && piece.read <= self.input.len() && !piece.bytes.is_empty());
            (rows, read) = (piece.rows, piece.read);
            bytes.extend_from_slice(piece.bytes);
            Ok(())
        });
        let answer = refusal(answer);
        assert_eq!(answer.map_or_else(|refused| refused.rows, |done| done.rows), rows);
        Told { answer, bytes }
    }

    /// The same of a reader. At a refusal what is left, and what the reader still has, are the rest of the input.
    pub fn by_reader(&self, plan: &Plan, to: Rows, mut reader: Steps) -> Told {
        let (mut bytes, mut left) = (Vec::new(), b"what it held before".to_vec());
        let answer = plan.convert_pieces(&self.declarations, self.from, to, &mut reader, &mut left, |piece| {
            bytes.extend_from_slice(piece.bytes);
            Ok(())
        });
        let told = Told { answer: refusal(answer), bytes };
        match told.offset() {
            Some(offset) => assert!([&left, reader.rest()].concat() == self.input[offset..], "what is left from {offset} on"),
            None => assert!(left.is_empty() && reader.rest().is_empty()),
        }
        told
    }
}

/// A refusal, and no trouble with the system.
fn refusal(answer: Result<Done, Error>) -> Result<Done, Refused> {
    answer.map_err(|error| *error.refused().unwrap_or_else(|| panic!("{error}")))
}

/// A reader that gives a few bytes at a time, and now and then is interrupted.
pub struct Steps<'a> {
    input: &'a [u8],
    read: usize,
    /// The most bytes that it gives at once.
    step: usize,
    /// Where it fails, if it does.
    pub fails_at: Option<usize>,
    random: Random,
}

impl<'a> Steps<'a> {
    pub fn new(input: &'a [u8], step: usize) -> Steps<'a> {
        Steps { input, read: 0, step, fails_at: None, random: Random::new(step as u64) }
    }

    /// What was not read.
    pub fn rest(&self) -> &'a [u8] {
        &self.input[self.read..]
    }
}

impl Read for Steps<'_> {
    fn read(&mut self, bytes: &mut [u8]) -> io::Result<usize> {
        if self.random.one_in(9) {
            return Err(io::ErrorKind::Interrupted.into());
        }
        let end = self.fails_at.unwrap_or(self.input.len());
        if self.read == end && self.fails_at.is_some() {
            return Err(io::Error::other("a reader that fails"));
        }
        let count = bytes.len().min(self.step).min(end - self.read);
        bytes[..count].copy_from_slice(&self.input[self.read..self.read + count]);
        self.read += count;
        Ok(count)
    }
}
