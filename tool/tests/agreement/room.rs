//! Room that is exact, short, none at all, or more than is needed.

use super::compare::{agree_on_decoding, agree_on_encoding, seeds, Case};
use crate::generate::columns::{column, declarations, some, EVERY_KIND};
use crate::generate::rows::{spelled, table};
use crate::generate::Random;
use crate::model::converter::EVERY_KIND_OF_ROWS;
use crate::model::{Column, Length};

fn any_short(random: &mut Random) -> Column {
    column(random.pick(&EVERY_KIND), Length::Bounded(9))
}

#[test]
fn of_every_size_for_rows() {
    for seed in seeds(30_000_000, 60) {
        let mut random = Random::new(seed);
        let mut columns = some(&mut random, 1, 4);
        columns.retain(|column| column.bound() < 20);
        columns.push(any_short(&mut random));
        for from in EVERY_KIND_OF_ROWS {
            let table = table(&mut random, &columns, from, 3);
            let input = spelled(&mut random, &columns, from, &table);
            for to in EVERY_KIND_OF_ROWS {
                let case = Case { declarations: &declarations(&columns), from, to, input: &input, seed };
                let needed = case.with_room_enough().bytes.len();
                for room in (0..=needed + 2).chain([needed + 1_000]) {
                    case.agree(room);
                }
            }
        }
    }
}

#[test]
fn one_short_refuses_the_last_row_alone() {
    for seed in seeds(31_000_000, 400) {
        let mut random = Random::new(seed);
        let columns = some(&mut random, 1, 4);
        let from = random.pick(&EVERY_KIND_OF_ROWS);
        let table = table(&mut random, &columns, from, 3);
        let input = spelled(&mut random, &columns, from, &table);
        let case = Case { declarations: &declarations(&columns), from, to: from, input: &input, seed };
        let full = case.with_room_enough();
        if full.answer[0] == 0 {
            let short = case.agree(full.bytes.len() - 1);
            assert_eq!(short[..4], [17, 2, 0, 2], "seed {seed}");
        }
    }
}

#[test]
fn of_every_size_for_base64() {
    for size in 0..=40 {
        let plain = Random::new(size as u64).bytes(size);
        let letters = crate::model::base64::encode(&plain, usize::MAX).bytes;
        for room in 0..=letters.len() + 2 {
            let fits = room >= letters.len();
            assert_eq!(agree_on_encoding(&plain, room, 0)[0], if fits { 0 } else { 17 });
            assert_eq!(agree_on_decoding(&letters, room, 0)[0], if room >= size { 0 } else { 17 });
        }
    }
}
