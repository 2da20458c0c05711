//! Cuts of all kinds, good and silly, in parts of all sizes, on some threads: nothing of the answer depends on them.

use super::one_call::{seeds, ways, Night, Steps};
use crate::generate::Random;
use sailmortar::{Index, Plan, Rows};

const THREADS: [usize; 4] = [1, 2, 3, 8];

/// Places that are no use, or some, or all that there are.
fn some_cuts(random: &mut Random, night: &Night) -> Vec<u64> {
    let length = night.input.len();
    let mut any = |count: usize| (0..count).map(|_| random.below(length + 3) as u64).collect::<Vec<_>>();
    let some = any(9);
    match random.below(7) {
        0 => Vec::new(),
        1 => some,
        2 => (0..=length as u64 + 2).collect(),
        3 => (0..=length as u64).rev().step_by(7).collect(),
        4 => vec![u64::MAX, length as u64, length as u64 + 1, 0, 0, u64::MAX - 1],
        5 => night.ends().into_iter().map(|end| end as u64).collect(),
        _ => night.ends().into_iter().map(|end| end as u64 + 1).rev().collect(),
    }
}

/// A plan of any kind, and the words that tell it.
fn some_plan(random: &mut Random, night: &Night) -> Plan {
    let part = match random.below(4) {
        0 => 1,
        1 => random.between(2, 64),
        2 => random.between(65, 1_000),
        _ => 1 << 20,
    };
    let mut plan = Plan::new().threads(random.pick(&THREADS)).part(part);
    if random.one_in(2) {
        plan = plan.cuts(some_cuts(random, night));
    }
    plan
}

/// Known, not known, and of no bound; and more than there is.
fn some_length(random: &mut Random, night: &Night, plan: Plan) -> Plan {
    let length = night.input.len() as u64;
    match random.below(5) {
        0 => plan,
        1 => plan.length(length),
        2 => plan.long(),
        3 => plan.long().length(length),
        _ => plan.length(length + 1 + random.below(1 << 20) as u64),
    }
}

#[test]
fn a_slice_is_converted_as_in_one_call() {
    for seed in seeds(130_000_000, 300) {
        for (from, to) in ways() {
            let mut random = Random::new(seed);
            let night = Night::random(&mut random, from, 40);
            let mut plan = some_plan(&mut random, &night);
            if random.one_in(4) {
                plan = plan.long();
            }
            assert_eq!(night.by_slice(&plan, to), night.in_one_call(to), "seed {seed}, {from} to {to}, {plan:?}: {night:?}");
        }
    }
}

#[test]
fn a_reader_is_converted_as_in_one_call() {
    for seed in seeds(131_000_000, 300) {
        for (from, to) in ways() {
            let mut random = Random::new(seed);
            let night = Night::random(&mut random, from, 40);
            let plan = some_plan(&mut random, &night);
            let plan = some_length(&mut random, &night, plan);
            let step = random.pick(&[1, 3, 50, 4_000, 1 << 20]);
            let told = night.by_reader(&plan, to, Steps::new(&night.input, step));
            assert_eq!(told, night.in_one_call(to), "seed {seed}, {from} to {to}, {plan:?}, {step} bytes at a time: {night:?}");
        }
    }
}

/// No more is read than the length that was said, and that is the end of the input.
#[test]
fn what_stands_behind_the_length_is_not_read() {
    for seed in seeds(132_000_000, 60) {
        for (from, to) in ways() {
            let mut random = Random::new(seed);
            let mut night = Night::random(&mut random, from, 12);
            let plan = some_plan(&mut random, &night).length(night.input.len() as u64);
            let expected = night.in_one_call(to);
            let more = [&night.input[..], b"and more"].concat();
            let mut reader = Steps::new(&more, 1 + random.below(900));
            let (mut left, mut bytes) = (Vec::new(), Vec::new());
            let answer = plan.convert_pieces(&night.declarations, from, to, &mut reader, &mut left, |piece| {
                bytes.extend_from_slice(piece.bytes);
                Ok(())
            });
            let answer = answer.map_err(|error| *error.refused().expect("a refusal"));
            assert_eq!((answer, bytes), (expected.answer, expected.bytes), "seed {seed}");
            assert!(reader.rest().ends_with(b"and more"));
            night.input = [&left, reader.rest()].concat();
            if let Err(refused) = answer {
                assert!(night.input == more[refused.offset..]);
            }
        }
    }
}

/// Every cut there is, alone, of a few rows with white space between them, the last of which is refused.
#[test]
fn every_single_cut() {
    let rows = "\n<TR><TD>7</TD><TD>ab</TD></TR> \n <TR>\n<TD/><TD>&#38;amp;</TD> </TR >\t\n<TR><TD>8</TD><TD>c</TD></TR>\r\n";
    for behind in ["", " ", "<TR><TD>x</TD><TD/></TR>", "<TR><TD>1</TD>", "x", "<TR><TD>99999</TD></TR>\n"] {
        let fields = "<FIELD datatype='short'/><FIELD datatype='char' arraysize='*'/>";
        let night = Night::new(fields, Rows::TableData, format!("{rows}{behind}"));
        for to in [Rows::TableData, Rows::Binary2] {
            let expected = night.in_one_call(to);
            for cut in 0..=night.input.len() as u64 {
                let plan = Plan::new().threads(1 + cut as usize % 2).part(1).cuts([cut, u64::MAX]);
                assert_eq!(night.by_slice(&plan, to), expected, "{cut} {behind}");
                let plan = plan.length(night.input.len() as u64);
                assert_eq!(night.by_reader(&plan, to, Steps::new(&night.input, 40)), expected, "{cut} {behind}");
            }
        }
    }
}

/// Where the pieces of a good night end, which is where its parts do.
fn ends_of_pieces(plan: &Plan, night: &Night) -> Vec<usize> {
    let mut ends = Vec::new();
    let done = plan.convert_slice(&night.declarations, night.from, Rows::Binary2, &night.input, |piece| {
        ends.push(piece.read);
        Ok(())
    });
    done.expect("it is good");
    ends
}

/// Places at which rows begin, as an index has them: each part ends at one of them.
#[test]
fn parts_end_where_they_are_said_to() {
    let night = Night::new("<FIELD datatype='short'/>", Rows::Binary, (0..200).collect::<Vec<u8>>());
    let plan = Plan::new().threads(3).part(45).cuts((0..100).step_by(10).map(|place| 2 * place).collect::<Vec<u64>>());
    assert_eq!(ends_of_pieces(&plan, &night), [40, 80, 120, 160, 200]);
    assert_eq!(ends_of_pieces(&plan.part(1).cuts([150, 70, 4]), &night)[..3], [4, 70, 150]);
}

/// An index tells where every 64th row begins.
#[test]
fn an_index_tells_where_to_cut() {
    let night = Night::new("<FIELD datatype='char' arraysize='*'/>", Rows::Binary, b"\0\0\0\x01a".repeat(1_000));
    let index = Index::build(&night.declarations, night.from, &night.input).expect("it is good");
    let starts: Vec<u64> = index.starts().iter().map(|start| u64::from(*start)).collect();
    let ends = ends_of_pieces(&Plan::new().threads(2).part(400).cuts(starts), &night);
    let expected: Vec<usize> = (1..16).map(|starts| starts * 64 * 5).chain([5_000]).collect();
    assert_eq!(ends, expected);
}

/// Where a part that begins at `start` is to end by guess: with the last row that is whole in so many bytes, or in twice as many.
fn guessed_end(night: &Night, ends: &[usize], start: usize, part: usize) -> usize {
    let mut reach = start + part;
    while reach < night.input.len() {
        let is_told = |end: usize| match night.from {
            // By the start of the next row.
            Rows::TableData => {
                night.input[end..].windows(3).position(|letters| letters == b"<TR").is_some_and(|tag| end + tag + 3 <= reach)
            }
            _ => end <= reach,
        };
        if let Some(end) = ends.iter().rev().find(|end| **end > start && is_told(**end)) {
            return *end;
        }
        reach += reach - start;
    }
    night.input.len()
}

/// No answer depends on a guess, but how long it takes does.
#[test]
fn guesses_are_right() {
    let (seeds, mut parts) = (seeds(133_000_000, 300), 0);
    for seed in &seeds {
        for from in [Rows::TableData, Rows::Binary, Rows::Binary2] {
            let mut random = Random::new(*seed);
            let (night, part) = (Night::good(&mut random, from, 40), random.between(1, 700));
            let (ends, mut expected) = (night.ends(), Vec::new());
            while expected.last().unwrap_or(&0) < ends.last().unwrap_or(&0) {
                expected.push(guessed_end(&night, &ends, *expected.last().unwrap_or(&0), part));
            }
            let told = ends_of_pieces(&Plan::new().threads(1).part(part), &night);
            assert_eq!(told, expected, "seed {seed}, {from}, parts of {part}: {night:?}");
            parts += told.len();
        }
    }
    // They are not all of one part.
    assert!(seeds.len() == 1 || parts > 10 * seeds.len(), "{parts} parts");
}
