//! An object on one line, for programs that run the command.

use std::fmt::Write;

use crate::report::Value;

/// The object that has these members, in this order.
pub fn object<'a>(members: impl IntoIterator<Item = (&'a str, &'a Value)>) -> String {
    let members: Vec<String> = members.into_iter().map(|(name, value)| format!("{}:{}", text(name), written(value))).collect();
    format!("{{{}}}", members.join(","))
}

fn written(value: &Value) -> String {
    match value {
        Value::Number(number) => number.to_string(),
        Value::Text(words) => text(words),
        Value::Null => "null".to_string(),
    }
}

fn text(words: &str) -> String {
    let mut quoted = String::from("\"");
    for letter in words.chars() {
        let _ = match letter {
            '"' | '\\' => write!(quoted, "\\{letter}"),
            ' '..='~' => write!(quoted, "{letter}"),
            _ => letter.encode_utf16(&mut [0; 2]).iter().try_for_each(|unit| write!(quoted, "\\u{unit:04x}")),
        };
    }
    quoted + "\""
}
