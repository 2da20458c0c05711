//! Calls on parts of an input, joined to what one call on all of it answers. The sums and the judging are those of the proved
//! `sailmortar_join`; here its numbers have names.

use crate::proved::join;
use crate::{Done, Refused};

/// A call on a part of an input: where the part begins, how long it is, the room it was given, and the six numbers that the call answered.
pub type Call = [u64; 9];

/// The room of an output that takes all, and the length of an input whose end is not known.
const NO_END: u64 = u64::MAX;

/// How far calls were joined.
#[derive(Clone, Copy, Debug, Default)]
pub struct Joined {
    numbers: [u64; 8],
}

impl Joined {
    /// Joins calls, in order, as far as they can be joined. `length` is that of the input, where it is known.
    pub fn join(&mut self, length: Option<u64>, calls: &[Call]) {
        join(length.unwrap_or(NO_END), NO_END, calls, &mut self.numbers);
    }

    pub fn rows(&self) -> u64 {
        self.numbers[3]
    }

    /// How many bytes the rows joined take.
    pub fn bytes(&self) -> u64 {
        self.numbers[4]
    }

    /// Where in the input the rows joined end.
    pub fn place(&self) -> u64 {
        self.numbers[5]
    }

    /// What one call answers, once all is joined that tells it.
    pub fn outcome(&self) -> Option<Result<Done, Refused>> {
        let [number, row, column, rows, bytes, place, _, ended] = self.numbers;
        match (ended, number) {
            (0, _) => None,
            (_, 0) => Some(Ok(Done { rows, bytes })),
            _ => Some(Err(Refused { number, row, column, rows, bytes, offset: place as usize })),
        }
    }
}
