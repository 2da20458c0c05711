//! The refusals' numbers, names and words, once: the header, the Python module, the man page and `explain` are tested against this list.

/// A refusal: its number, its name (in C with `SAILMORTAR_` before it), and what it means, in a line.
#[derive(Clone, Copy, Debug, PartialEq, Eq)]
#[non_exhaustive]
pub struct Number {
    pub number: u64,
    pub name: &'static str,
    pub meaning: &'static str,
}

const fn refusal(number: u64, name: &'static str, meaning: &'static str) -> Number {
    Number { number, name, meaning }
}

/// Every number that a call can answer but 0, in order. The last, 255, is for callers of the C functions alone.
pub const NUMBERS: &[Number] = &[
    refusal(1, "DECLARATIONS_BROKEN", "the declarations are not FIELD elements of the shape that is carried"),
    refusal(2, "DATATYPE_NOT_CARRIED", "a datatype that is not carried"),
    refusal(3, "ARRAYSIZE_NOT_CARRIED", "an arraysize that is not n, n* or * (n from 1 to 4096)"),
    refusal(4, "NULL_NO_VALUE", "a declared null that is not a value of its column"),
    refusal(5, "COLUMNS_OUT_OF_RANGE", "no column at all, or a 65th"),
    refusal(6, "INPUT_OVER_SIZE", "an input over its size"),
    refusal(7, "BASE64_NOT_VALID", "the base64 is not valid"),
    refusal(8, "STREAM_ENDS", "the BINARY or BINARY2 stream ends inside a row"),
    refusal(9, "COUNT_OVER_BOUND", "an element count over the column's bound"),
    refusal(10, "TABLEDATA_BROKEN", "TABLEDATA tags or references are broken, or the number of cells is wrong"),
    refusal(11, "NO_VALUE", "a byte or a text that is no value of its kind"),
    refusal(12, "WRONG_LENGTH", "a text cell with the wrong number of elements for its column"),
    refusal(13, "PADDING_NOT_ZERO", "a padding bit that is 1"),
    refusal(14, "EMPTY_HAS_NO_FORM", "a cell that is empty but not null, and the target has no form for that"),
    refusal(15, "NULL_HAS_NO_FORM", "a null, and the target has no form for it"),
    refusal(16, "CHARACTER_HAS_NO_FORM", "a character that has no XML form"),
    refusal(17, "NO_ROOM", "the row, or the base64 result, is longer than the room left, or an index has no place left"),
    refusal(18, "OUT_OF_RANGE", "an integer outside its kind's range"),
    refusal(20, "PAST_THE_END", "a row past the end of the stream"),
    refusal(255, "NO_SUCH_KIND", "a kind of rows that the call does not know, or does not take"),
];

pub(crate) const INPUT_OVER_SIZE: u64 = 6;
pub(crate) const NO_ROOM: u64 = 17;

/// What a refusal's number means, in a line; none for a number that is no refusal's.
pub fn meaning(number: u64) -> Option<&'static str> {
    NUMBERS.iter().find(|known| known.number == number).map(|known| known.meaning)
}
