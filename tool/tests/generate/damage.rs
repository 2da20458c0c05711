//! Damage: what loggers, disks and hands do to good input.

use super::Random;

/// Bytes that mean something somewhere in the rules, or nearly do.
pub const TELLING: &[u8] = b"<>/&;#xX=\"'*+-.?0179TFtfADRS \t\n\r\x00\x01\x0b\x7f\x80\xff";

/// One to three changes, most often one.
pub fn damaged(random: &mut Random, good: &[u8]) -> Vec<u8> {
    let mut bytes = good.to_vec();
    for _ in 0..random.pick(&[1, 1, 1, 2, 3]) {
        change(random, &mut bytes);
    }
    bytes
}

fn change(random: &mut Random, bytes: &mut Vec<u8>) {
    if bytes.is_empty() {
        return bytes.push(random.pick(TELLING));
    }
    let at = random.below(bytes.len());
    let other = random.below(bytes.len());
    let longest = random.pick(&[4, 12, 40]);
    match random.below(11) {
        0 => bytes[at] ^= 1 << random.below(8),
        1 => bytes[at] = random.pick(TELLING),
        2 => bytes[at] = random.next() as u8,
        3 => bytes.insert(at, random.pick(TELLING)),
        4 => bytes.insert(at, bytes[at]),
        5 => drop(bytes.remove(at)),
        6 => bytes.swap(at, other),
        7 => bytes.truncate(at),
        8 => *bytes = with_line_ends(bytes, random.pick(&[b"\r\n", b"\r"])),
        9 => overflow(random, bytes, at),
        _ => {
            let piece = bytes[at..bytes.len().min(at + 1 + random.below(longest))].to_vec();
            bytes.splice(other..other, piece);
        }
    }
}

/// As a meter that overflowed writes the next number: digits more than its kind has room for, up to more than any kind has.
fn overflow(random: &mut Random, bytes: &mut Vec<u8>, from: usize) {
    if let Some(place) = (from..bytes.len()).find(|place| bytes[*place].is_ascii_digit()) {
        let digits: Vec<u8> = (0..random.between(1, 20)).map(|_| random.pick(b"0123456789")).collect();
        bytes.splice(place..place, digits);
    }
}

/// As a copy between two systems has it: another line end for each 10.
pub fn with_line_ends(bytes: &[u8], line_end: &[u8]) -> Vec<u8> {
    bytes.split(|byte| *byte == b'\n').collect::<Vec<_>>().join(line_end)
}

/// Every text that comes of dropping one piece, or of putting one a second time, or instead, in another place.
pub fn rearranged(pieces: &[&str]) -> Vec<String> {
    let mut texts = Vec::new();
    for (from, piece) in pieces.iter().enumerate() {
        let mut without = pieces.to_vec();
        without.remove(from);
        texts.push(without.concat());
        for to in 0..=pieces.len() {
            let mut twice = pieces.to_vec();
            twice.insert(to, piece);
            texts.push(twice.concat());
        }
        for to in 0..without.len() {
            let mut moved = without.clone();
            moved.insert(to, piece);
            texts.push(moved.concat());
        }
    }
    texts
}
