//! Parts of an input, joined: beside the model on any numbers, and beside one call on parts of small nights, wherever they are cut and whatever
//! room they have.

use super::archive;
use super::compare::seeds;
use crate::generate::columns::{column, declarations, some, EVERY_KIND};
use crate::generate::damage::damaged;
use crate::generate::rows::{spelled, table};
use crate::generate::Random;
use crate::model;
use crate::model::converter::{convert_piece, Rows, EVERY_KIND_OF_ROWS};
use crate::model::text::is_white_space;
use crate::model::Length;

const SIZE: u64 = 1 << 30;
const MOST: u64 = u64::MAX;

/// Compares joining these numbers; hands out what the model says.
fn agree(length: u64, room: u64, parts: &[u64], joined: [u64; 8]) -> [u64; 8] {
    let (model, mut proved) = (model::join::join(length, room, parts, joined), joined);
    archive::join(length, room, parts, &mut proved);
    assert_eq!(proved, model, "length {length}, room {room}, parts {parts:?}, joined {joined:?}");
    model
}

/// A number near an end of something.
fn some_number(random: &mut Random) -> u64 {
    let near = random.pick(&[0, 0, 0, 7, 8, 10, 17, 20, SIZE, 1 << 32, MOST / 2, MOST]);
    match random.below(3) {
        0 => near,
        1 => near.saturating_add(random.below(3) as u64),
        _ => near.saturating_sub(random.below(3) as u64),
    }
}

/// A part that can be joined more often than not, all numbers of it at an end now and then.
fn some_part(random: &mut Random, start: u64) -> [u64; 9] {
    let mut part = [start, 40, 40, random.pick(&[0, 0, 8, 10, 17, 11, 9, 6, 1]), 1, 2, 1, 20, 30];
    for number in &mut part {
        if random.one_in(12) {
            *number = some_number(random);
        }
    }
    part
}

#[test]
fn any_numbers_are_joined_as_the_model_joins_them() {
    let (seeds, mut joined_parts, mut ended) = (seeds(120_000_000, 60_000), [0; 8], 0);
    for seed in &seeds {
        let mut random = Random::new(*seed);
        let mut joined = [0; 8];
        if random.one_in(3) {
            joined = joined.map(|_| some_number(&mut random));
            joined[7] = random.pick(&[0, 0, 0, 0, 0, 1, 2, MOST]);
        }
        let (mut parts, mut start) = (Vec::new(), joined[5]);
        for _ in 0..random.below(5) {
            let part = some_part(&mut random, start);
            start = start.wrapping_add(part[8]);
            parts.extend(part);
        }
        let more = random.below(9);
        parts.extend(random.bytes(more).into_iter().map(u64::from));
        let any = [some_number(&mut random), some_number(&mut random)];
        let length = random.pick(&[MOST, start, joined[5].wrapping_add(40), any[0]]);
        let room = random.pick(&[MOST, MOST, 40, 60, joined[4].wrapping_add(40), any[1]]);
        let [.., count, end] = agree(length, room, &parts, joined);
        joined_parts[count.wrapping_sub(joined[6]).min(7) as usize] += 1;
        ended += u64::from(end != joined[7]);
    }
    // All of it happens: parts that are joined and that are not, and ends.
    let all_happen = joined_parts[..4].iter().all(|times| *times > 100) && ended > 1_000;
    assert!(all_happen || seeds.len() == 1, "{joined_parts:?}, {ended}");
}

#[test]
fn each_sum_is_joined_up_to_its_end() {
    let part = [5, 40, 40, 17, 3, 2, 3, 20, 30];
    // The place in what was joined, the number of the part that is added to it, and how that is at most.
    for (at, more) in [(3, 3), (5, 30), (6, 1)] {
        for over in [0, 1] {
            let mut joined = [0, 0, 0, 0, 0, 5, 0, 0];
            let mut part = part;
            joined[at] = MOST - more + over;
            part[0] = joined[5];
            let further = agree(MOST, MOST, &part, joined);
            assert_eq!(further != joined, over == 0, "{at}");
        }
    }
    for (room, is_joined) in [(MOST, true), (MOST - 1, false), (19, false)] {
        let joined = [0, 0, 0, 0, MOST - 20, 5, 0, 0];
        assert_eq!(agree(MOST, room, &part, joined) != joined, is_joined, "{room}");
    }
    for (length, is_joined) in [(SIZE, true), (SIZE + 1, false), (MOST, false)] {
        let part = [0, length, 40, 0, 0, 0, 3, 20, 30];
        assert_eq!(agree(length, MOST, &part, [0; 8]), if is_joined { [0, 0, 0, 3, 20, 30, 1, 1] } else { [0; 8] }, "{length}");
    }
}

#[test]
fn what_is_refused_and_what_goes_on() {
    for number in 0..=300 {
        for (length, is_at_end) in [(45, true), (44, false), (46, false), (MOST, false)] {
            for (room, is_full) in [(47, true), (48, true), (49, false), (MOST, false)] {
                let joined = [0, 0, 0, 4, 8, 5, 1, 0];
                let ends = match number {
                    0 | 8 | 10 => is_at_end,
                    17 => is_full,
                    _ => true,
                };
                let expected = match number {
                    _ if !ends => [0, 0, 0, 7, 28, 35, 2, 0],
                    0 => [0, 0, 2, 7, 28, 35, 2, 1],
                    _ => [number, 7, 2, 7, 28, 35, 2, 1],
                };
                assert_eq!(agree(length, room, &[5, 40, 40, number, 3, 2, 3, 20, 30], joined), expected);
            }
        }
    }
}

/// A small night of any kind, in some of the seeds damaged.
struct Small {
    declarations: Vec<u8>,
    from: Rows,
    to: Rows,
    input: Vec<u8>,
}

impl Small {
    fn new(seed: u64) -> Small {
        let mut random = Random::new(seed);
        let mut columns = some(&mut random, 1, 3);
        columns.retain(|column| column.bound() < 20);
        columns.push(column(random.pick(&EVERY_KIND), Length::Bounded(9)));
        let [from, to] = [random.pick(&EVERY_KIND_OF_ROWS), random.pick(&EVERY_KIND_OF_ROWS)];
        let rows = random.below(7);
        let table = table(&mut random, &columns, from, rows);
        let good = spelled(&mut random, &columns, from, &table);
        let input = if seed.is_multiple_of(3) { damaged(&mut random, &good) } else { good };
        Small { declarations: declarations(&columns), from, to, input }
    }

    /// The nine numbers of a part in so much room, and what it writes.
    fn part(&self, start: usize, end: usize, room: usize) -> ([u64; 9], Vec<u8>) {
        let mut out = vec![0; room];
        let (from, to) = (self.from.number(), self.to.number());
        let six = archive::convert_piece(&self.declarations, from, to, &self.input[start..end], &mut out);
        out.truncate(six[4] as usize);
        let [number, row, column, rows, bytes, place] = six;
        ([start as u64, (end - start) as u64, room as u64, number, row, column, rows, bytes, place], out)
    }

    /// Joins parts that are cut anywhere and have any room, in a room for the whole, until that has ended.
    fn joined(&self, random: &mut Random, room: usize, may_end_in_space: bool) -> ([u64; 8], Vec<u8>) {
        let (mut joined, mut bytes) = ([0; 8], Vec::new());
        while joined[7] == 0 {
            let (start, left) = (joined[5] as usize, room - bytes.len());
            let mut end = random.between(start, self.input.len());
            // Before the end there may be no progress, and so there is an end of trying.
            if joined[6] > 60 || random.one_in(6) {
                end = self.input.len();
            }
            while self.from == Rows::TableData
                && !may_end_in_space
                && (start..self.input.len()).contains(&end)
                && ends_in_space(&self.input[..end])
            {
                end += 1;
            }
            let own_room = if joined[6] > 60 || random.one_in(4) { left } else { random.below(room + 30) };
            let (part, written) = self.part(start, end, own_room);
            let further = agree(self.input.len() as u64, room as u64, &part, joined);
            // A part that wrote more than there is room left for is not joined, and no other is refused.
            assert_eq!(further == joined, written.len() > left, "{part:?} after {joined:?} in {room}");
            if further != joined {
                bytes.extend(written);
            }
            joined = further;
        }
        (joined, bytes)
    }
}

fn ends_in_space(bytes: &[u8]) -> bool {
    bytes.last().is_some_and(|byte| is_white_space(*byte))
}

#[test]
fn parts_of_a_night_are_what_one_call_gives_in_any_room() {
    for seed in seeds(121_000_000, 1_500) {
        let (small, mut random) = (Small::new(seed), Random::new(!seed));
        let enough = convert_piece(&small.declarations, small.from, small.to, &small.input, usize::MAX).written.bytes.len();
        for _ in 0..12 {
            let room = random.below(enough + 3);
            let whole = convert_piece(&small.declarations, small.from, small.to, &small.input, room);
            for may_end_in_space in [false, true] {
                let (joined, bytes) = small.joined(&mut random, room, may_end_in_space);
                let told = format!("seed {seed}, room {room}: {}", small.input.escape_ascii());
                assert_eq!((&joined[..5], &bytes), (&whole.written.answer[..], &whole.written.bytes), "{told}");
                // A part that ends in white space is accepted with it, and the refused row behind it begins without.
                let place = joined[5] as usize;
                let is_moved = may_end_in_space && small.from == Rows::TableData;
                assert!(
                    place == whole.place || is_moved && small.input[whole.place..place].iter().all(|byte| is_white_space(*byte)),
                    "{told}"
                );
            }
        }
    }
}
