//! The sample night from Rust: text to BINARY2 and back, both forms shown and compared, one row by an index, and a cut file.
//!
//!     cargo run --release --example night

use sailmortar::{compare_to_vec, convert_to_vec, Error, Index, Rows};

const FIELDS: &[u8] = include_bytes!("night.fields");
const NIGHT: &[u8] = include_bytes!("night.tabledata");

fn main() -> Result<(), Error> {
    let (mut binary2, mut text) = (Vec::new(), Vec::new());
    let done = convert_to_vec(FIELDS, Rows::TableData, Rows::Binary2, NIGHT, &mut binary2)?;
    println!("TABLEDATA, {} rows:\n{}", done.rows, String::from_utf8_lossy(NIGHT));
    println!("BINARY2, {} bytes:\n{}", done.bytes, hexadigits(&binary2));

    let done = convert_to_vec(FIELDS, Rows::Binary2, Rows::TableData, &binary2, &mut text)?;
    println!("and back, {} rows:\n{}", done.rows, String::from_utf8_lossy(&text));

    // Both forms show the same, whatever the spelling; another night does not.
    let mut places = Vec::new();
    let same = compare_to_vec(FIELDS, Rows::TableData, NIGHT, Rows::Binary2, &binary2, &mut places)?.is_same();
    let other = String::from_utf8_lossy(NIGHT).replace("dusk", "dawn");
    compare_to_vec(FIELDS, Rows::Binary2, &binary2, Rows::TableData, other.as_bytes(), &mut places)?;
    println!("the same: {same}; another night differs at:");
    places.iter().for_each(|place| println!("row {}, column {}\n", place.row, place.column));

    // One row, found by an index; of a long night this takes no longer.
    text.clear();
    let index = Index::build(FIELDS, Rows::Binary2, &binary2)?;
    index.fetch(FIELDS, &binary2, 1, &mut text)?;
    println!("row 1 of {}:\n{}", index.of().rows, String::from_utf8_lossy(&text));

    // The last byte is missing: the first row stands, and the refusal says where it went wrong.
    text.clear();
    match convert_to_vec(FIELDS, Rows::Binary2, Rows::TableData, &binary2[..binary2.len() - 1], &mut text) {
        Err(Error::Refused(refused)) => print!("cut by a byte, {refused}:\n{}", String::from_utf8_lossy(&text)),
        other => panic!("a cut file is refused, and this is {other:?}"),
    }
    Ok(())
}

/// A line for each row of eight bytes: the flags, the short, four characters and the boolean.
fn hexadigits(bytes: &[u8]) -> String {
    let line = |row: &[u8]| row.iter().map(|byte| format!("{byte:02X} ")).collect::<String>() + "\n";
    bytes.chunks(8).map(line).collect()
}
