//! Reports about inputs that are refused.

use std::ffi::OsStr;

use sailmortar::{base64_decode, convert_to_vec, declare, Error, Refused, Rows};

use crate::report::{self, Report, Stream, Value};
use crate::window::Window;

/// What the caller of a report says of the rows that stand.
pub const STANDS: &str = "the rows before it stand";

/// Rows of one kind for another.
#[derive(Clone, Copy)]
pub struct Way {
    pub from: Rows,
    pub to: Rows,
}

/// How the converter refuses rows.
pub fn refused(fields: &[u8], way: Way, input: &[u8]) -> Option<Refused> {
    match convert_to_vec(fields, way.from, way.to, input, &mut Vec::new()) {
        Err(Error::Refused(refused)) => Some(refused),
        _ => None,
    }
}

/// What is said of rows that are refused.
pub fn of_rows(fields: &str, way: Way, input: &[u8]) -> Report {
    let refused = refused(fields.as_bytes(), way, input).unwrap_or_else(|| panic!("{} is accepted", input.escape_ascii()));
    of_refused(fields.as_bytes(), way, input, &refused)
}

/// What is said of a refusal, be it of these rows or of others.
pub fn of_refused(fields: &[u8], way: Way, input: &[u8], refused: &Refused) -> Report {
    of_seen(fields, way, Window::whole(input), refused)
}

/// The same where so much is seen of the rows.
pub fn of_seen(fields: &[u8], Way { from, to }: Way, window: Window, refused: &Refused) -> Report {
    let columns = sailmortar::columns(fields).expect("the fields are good");
    let stream = Stream { input_name: OsStr::new("night"), columns: &columns, from, to, decoded: false, is_second: false, window };
    report::row(&stream, refused, STANDS)
}

/// What is said of declarations that are refused.
pub fn of_declarations(fields: &[u8]) -> Report {
    let refused = declare(fields).expect_err("the declarations are refused");
    report::declarations(OsStr::new("fields"), fields, &refused)
}

/// What is said of base64 that is refused.
pub fn of_base64(text: &[u8]) -> Report {
    let refused = base64_decode(text, &mut []).expect_err("the base64 is refused");
    report::base64(OsStr::new("letters"), text, &refused)
}

impl Report {
    pub fn number_of(&self, fact: &str) -> Option<u64> {
        self.facts.iter().find_map(|(name, value)| match value {
            Value::Number(number) if *name == fact => Some(*number),
            _ => None,
        })
    }

    pub fn text_of(&self, fact: &str) -> Option<&str> {
        self.facts.iter().find_map(|(name, value)| match value {
            Value::Text(text) if *name == fact => Some(text.as_str()),
            _ => None,
        })
    }

    /// The hint, which ends a message as a line of its own.
    pub fn hint_of(&self) -> Option<&str> {
        let hint = self.text_of("hint");
        assert_eq!(self.lines.last().and_then(|line| line.strip_prefix("hint: ")), hint);
        hint
    }
}
