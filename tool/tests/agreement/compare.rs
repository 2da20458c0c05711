//! One call of the proved code beside one of the model.

use super::archive;
use super::line_ends::translated;
use crate::model::compare::{self, Compared};
use crate::model::converter::{self, Piece, Rows};
use crate::model::index::{self, Indexed};
use crate::model::{base64, Answer, Written, MOST_INPUT};
use std::fmt::Write;

/// How many bytes on each side of the room must stay as they are, too; odd, so that the room begins anywhere.
const FENCE: usize = 33;

/// The seeds of a test that takes random inputs: `count` of them, times SAILMORTAR_LONG, or SAILMORTAR_SEED alone.
pub fn seeds(first: u64, count: u64) -> Vec<u64> {
    let number = |name| std::env::var(name).ok().map(|value| value.parse::<u64>().expect(name));
    match number("SAILMORTAR_SEED") {
        Some(seed) => vec![seed],
        None => (first..first + count * number("SAILMORTAR_LONG").unwrap_or(1)).collect(),
    }
}

/// A call of `convert`, the room apart.
#[derive(Clone, Copy)]
pub struct Case<'a> {
    pub declarations: &'a [u8],
    pub from: Rows,
    pub to: Rows,
    pub input: &'a [u8],
    pub seed: u64,
}

impl Case<'_> {
    /// What the model writes where there is room for anything.
    pub fn with_room_enough(&self) -> Written {
        converter::convert(self.declarations, self.from, self.to, self.input, usize::MAX)
    }

    /// Compares the archive's two calls; hands out the answer.
    pub fn agree(&self, room: usize) -> Answer {
        self.agree_on_piece(room).written.answer
    }

    /// The same; hands out all that the model says.
    pub fn agree_on_piece(&self, room: usize) -> Piece {
        agree_by_numbers(self.declarations, self.from.number(), self.to.number(), self.input, room, self.seed)
    }

    /// Compares with exactly the room that is needed; hands out the answer.
    pub fn agree_with_room_enough(&self) -> Answer {
        self.agree(self.with_room_enough().bytes.len())
    }
}

/// Compares the archive's two calls between kinds of rows by their numbers, whether they are any's or not, and what the
/// archive says of the same text with its line ends translated; hands out what the model says.
pub fn agree_by_numbers(declarations: &[u8], from: u32, to: u32, input: &[u8], room: usize, seed: u64) -> Piece {
    let model = converter::convert_numbered(declarations, from, to, input, room);
    let (bytes, both) = (&model.written.bytes, &FILLINGS);
    let of_six = compare(model.six(), bytes, room, both, |out| archive::convert_piece(declarations, from, to, input, out));
    // It has the same loop: a byte that is written would have to be the one that stands there, each time, not to show.
    let of_five = compare(model.written.answer, bytes, room, &both[..1], |out| archive::convert(declarations, from, to, input, out));
    let of_lines = agree_on_line_ends(&model, declarations, from, to, input, room);
    for (call, compared) in [("convert_piece", of_six), ("convert", of_five), ("convert_piece of other line ends", of_lines)] {
        if let Err(difference) = compared {
            let call = format!("{call} from {from} to {to}, room {room}");
            panic!("{}", report(&call, seed, &[("declarations", declarations), ("input", input)], &difference));
        }
    }
    model
}

/// An XML processor in front changes nothing: rows of text are read as the text with its line ends translated is. And no
/// row of text is written with a 13, which such a processor would translate.
fn agree_on_line_ends(model: &Piece, declarations: &[u8], from: u32, to: u32, input: &[u8], room: usize) -> Result<(), String> {
    let (text, bytes) = (Rows::TableData.number(), &model.written.bytes);
    if to == text && bytes.contains(&13) {
        return Err("a literal 13 is written".to_string());
    }
    // What is too long may be so by its line ends alone.
    if from != text || input.len() > MOST_INPUT || !input.contains(&13) {
        return Ok(());
    }
    let moved = Piece { place: translated(&input[..model.place]).len(), ..model.clone() };
    let input = translated(input);
    compare(moved.six(), bytes, room, &FILLINGS[..1], |out| archive::convert_piece(declarations, from, to, &input, out))
}

/// Compares what `declare` and a conversion say of these declarations; hands out what `declare` does.
pub fn agree_on_declarations(declarations: &[u8], seed: u64) -> Answer {
    let model = converter::declare(declarations);
    let proved = archive::declare(declarations);
    if proved != model {
        let difference = format!("proved {proved:?}, model {model:?}");
        panic!("{}", report("declare", seed, &[("declarations", declarations)], &difference));
    }
    let (from, input) = match seed % 3 {
        0 => (Rows::TableData, &b" <TR><TD/></TR>"[..]),
        1 => (Rows::Binary, &b""[..]),
        _ => (Rows::Binary2, &b"\x80\0\0\0\0\0\0\0\0"[..]),
    };
    Case { declarations, from, to: Rows::Binary2, input, seed }.agree(16);
    model
}

pub fn agree_on_decoding(input: &[u8], room: usize, seed: u64) -> Answer {
    let model = base64::decode(input, room);
    let call = |out: &mut [u8]| archive::base64_decode(input, out);
    if let Err(difference) = compare(model.answer, &model.bytes, room, &FILLINGS, call) {
        let call = format!("base64_decode, room {room}");
        panic!("{}", report(&call, seed, &[("input", input)], &difference));
    }
    model.answer
}

pub fn agree_on_encoding(input: &[u8], room: usize, seed: u64) -> Answer {
    let model = base64::encode(input, room);
    let call = |out: &mut [u8]| archive::base64_encode(input, out);
    if let Err(difference) = compare(model.answer, &model.bytes, room, &FILLINGS, call) {
        let call = format!("base64_encode, room {room}");
        panic!("{}", report(&call, seed, &[("input", input)], &difference));
    }
    model.answer
}

/// A stream under declarations, of a kind by its number, be it one that can be indexed or not.
#[derive(Clone, Copy)]
pub struct Night<'a> {
    pub declarations: &'a [u8],
    pub from: u32,
    pub input: &'a [u8],
    pub seed: u64,
}

impl Night<'_> {
    /// Compares indexing into so many places; hands out what the model says.
    pub fn agree_on_index(&self, places: usize) -> Indexed {
        let Night { declarations, from, input, .. } = *self;
        let model = index::index(declarations, from, input, places);
        for filling in FILLINGS.map(|filling| u32::from_le_bytes([filling; 4])) {
            let mut proved: Vec<u32> = (0..places + 2 * FENCE).map(|place| place as u32 ^ filling).collect();
            let mut expected = proved.clone();
            expected[FENCE..FENCE + model.starts.len()].copy_from_slice(&model.starts);
            let answer = archive::index(declarations, from, input, &mut proved[FENCE..FENCE + places]);
            if answer != model.answer || proved != expected {
                let at = proved.iter().zip(&expected).position(|(one, other)| one != other);
                let place = at.map(|at| (at as i64 - FENCE as i64, proved[at], expected[at]));
                let difference = format!("answer: proved {answer:?}, model {:?}; place, proved, model {place:?}", model.answer);
                self.fail(&format!("index of {from}, places {places}"), &difference);
            }
        }
        model
    }

    /// Compares fetching a row by any index and count; hands out what the model says.
    pub fn agree_on_fetch(&self, starts: &[u32], rows: u64, row: u64, room: usize) -> Written {
        let Night { declarations, from, input, .. } = *self;
        let model = index::fetch(declarations, from, input, starts, rows, row, room);
        let call = |out: &mut [u8]| archive::fetch(declarations, from, input, starts, rows, row, out);
        if let Err(difference) = compare(model.answer, &model.bytes, room, &FILLINGS, call) {
            self.fail(&format!("fetch of row {row} of {rows} of {from}, room {room}, starts {starts:?}"), &difference);
        }
        model
    }

    fn fail(&self, call: &str, difference: &str) -> ! {
        panic!("{}", report(call, self.seed, &[("declarations", self.declarations), ("input", self.input)], difference))
    }
}

/// Two inputs under one text of declarations, each of a kind by its number, be it any's or not.
#[derive(Clone, Copy)]
pub struct Nights<'a> {
    pub declarations: &'a [u8],
    pub from: [u32; 2],
    pub inputs: [&'a [u8]; 2],
    pub seed: u64,
}

impl Nights<'_> {
    /// Compares comparing with a buffer of so many numbers; hands out what the model says.
    pub fn agree(&self, length: usize) -> Compared {
        let Nights { declarations, from, inputs, .. } = *self;
        let model = compare::compare(declarations, from, inputs, length);
        for filling in FILLINGS.map(|filling| u32::from_le_bytes([filling; 4])) {
            let mut proved: Vec<u32> = (0..length + 2 * FENCE).map(|place| place as u32 ^ filling).collect();
            let mut expected = proved.clone();
            expected[FENCE..FENCE + model.numbers.len()].copy_from_slice(&model.numbers);
            let answer = archive::compare(declarations, from, inputs, &mut proved[FENCE..FENCE + length]);
            if answer != model.answer || proved != expected {
                let at = proved.iter().zip(&expected).position(|(one, other)| one != other);
                let number = at.map(|at| (at as i64 - FENCE as i64, proved[at], expected[at]));
                self.fail(length, &format!("answer: proved {answer:?}, model {:?}; number, proved, model {number:?}", model.answer));
            }
        }
        model
    }

    /// The same with exactly the buffer that is needed.
    pub fn agree_with_room_enough(&self) -> Compared {
        let all = compare::compare(self.declarations, self.from, self.inputs, 0).answer[4];
        self.agree(2 * all as usize)
    }

    fn fail(&self, length: usize, difference: &str) -> ! {
        let Nights { declarations, from: [first, second], inputs, seed } = *self;
        let texts = [("declarations", declarations), ("first", inputs[0]), ("second", inputs[1])];
        panic!("{}", report(&format!("compare of {first} and {second}, {length} numbers"), seed, &texts, difference))
    }
}

/// Two fillings that differ in every byte, so that a byte which is written shows in one of them.
const FILLINGS: [u8; 2] = [0x5a, 0xa5];

fn filled(size: usize, filling: u8) -> Vec<u8> {
    (0..size).map(|place| (place.wrapping_mul(37) >> 1) as u8 ^ filling).collect()
}

fn compare<const N: usize>(
    model: [u64; N],
    bytes: &[u8],
    room: usize,
    fillings: &[u8],
    call: impl Fn(&mut [u8]) -> [u64; N],
) -> Result<(), String> {
    for filling in fillings {
        let mut proved = filled(room + 2 * FENCE, *filling);
        let mut expected = proved.clone();
        expected[FENCE..FENCE + bytes.len()].copy_from_slice(bytes);
        let answer = call(&mut proved[FENCE..FENCE + room]);
        if answer != model {
            return Err(format!("answer: proved {answer:?}, model {model:?}"));
        }
        if proved != expected {
            let at = proved.iter().zip(&expected).position(|(one, other)| one != other).unwrap_or(0);
            let place = at as i64 - FENCE as i64;
            let (one, other) = (proved[at], expected[at]);
            return Err(format!("byte {place} of the room: proved {one:#04x}, model {other:#04x}"));
        }
    }
    Ok(())
}

/// All that is needed to make the call again, by seed or by hand.
fn report(call: &str, seed: u64, texts: &[(&str, &[u8])], difference: &str) -> String {
    let mut report = format!("the proved code and the model disagree in {call}\n  {difference}\n");
    for (name, bytes) in texts {
        let _ = if bytes.len() <= 20_000 {
            writeln!(report, "  {name}: b\"{}\"", bytes.escape_ascii())
        } else {
            let path = std::env::temp_dir().join(format!("sailmortar-{seed}-{name}"));
            let kept = std::fs::write(&path, bytes);
            writeln!(report, "  {name}: {} bytes, kept in {} ({kept:?})", bytes.len(), path.display())
        };
    }
    // Tests that go through their inputs in order have no seed.
    if seed >= 1_000_000 {
        let test = std::thread::current().name().unwrap_or_default().to_string();
        let _ = writeln!(report, "  again: SAILMORTAR_SEED={seed} cargo test --test agreement {test}");
    }
    report
}
