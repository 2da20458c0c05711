//! Parts of an input joined: a part is used only where it begins exactly where the rows joined so far end. Sums have no end here.

const MOST: u128 = u64::MAX as u128;
const LONGEST_PART: u128 = 1_073_741_824;

/// The numbers of a part: where in the input it begins, its length, its room, and what its call answered.
struct Part {
    start: u128,
    length: u128,
    room: u128,
    number: u64,
    row: u128,
    column: u64,
    rows: u128,
    bytes: u128,
    place: u128,
}

impl Part {
    fn of(numbers: &[u64]) -> Option<Part> {
        let &[start, length, room, number, row, column, rows, bytes, place] = numbers else { return None };
        let [start, length, room, row, rows, bytes, place] = [start, length, room, row, rows, bytes, place].map(u128::from);
        Some(Part { start, length, room, number, row, column, rows, bytes, place })
    }
}

/// Joins these parts to what was joined, and answers how far that has come.
pub fn join(length: u64, room: u64, parts: &[u64], joined: [u64; 8]) -> [u64; 8] {
    let mut joined = joined;
    for part in parts.chunks(9).map_while(Part::of) {
        match with(u128::from(length), u128::from(room), &part, joined) {
            Some(further) => joined = further,
            None => break,
        }
    }
    joined
}

/// With one part more, if it can be used.
fn with(length: u128, room: u128, part: &Part, joined: [u64; 8]) -> Option<[u64; 8]> {
    let [rows, bytes, place, parts] = [joined[3], joined[4], joined[5], joined[6]].map(u128::from);
    let (all_rows, all_bytes, end, row) = (rows + part.rows, bytes + part.bytes, place + part.place, rows + part.row);
    let is_said = [all_rows, end, row, parts + 1].iter().all(|sum| *sum <= MOST);
    if joined[7] != 0 || part.start != place || part.length > LONGEST_PART || all_bytes > room || !is_said {
        return None;
    }
    let is_cut = part.start + part.length != length;
    let goes_on = match part.number {
        0 => is_cut,
        // In the middle of a row, perhaps: what follows tells.
        8 | 10 => is_cut,
        // Its own room was full, and that of the whole is not.
        17 => bytes + part.room < room,
        _ => false,
    };
    let counts = [all_rows, all_bytes, end, parts + 1].map(|sum| sum as u64);
    let [rows, bytes, place, parts] = counts;
    Some(match (goes_on, part.number) {
        (true, _) => [0, 0, 0, rows, bytes, place, parts, 0],
        (false, 0) => [0, 0, part.column, rows, bytes, place, parts, 1],
        (false, number) => [number, row as u64, part.column, rows, bytes, place, parts, 1],
    })
}
