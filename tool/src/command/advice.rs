//! The very words of a command that helps on, as they can be pasted into a shell.

use std::ffi::{OsStr, OsString};
use std::path::Path;

use crate::arguments::{Place, Table};
use crate::report::shown;

/// What to do where no index was named: the two commands.
pub fn for_no_index(table: &Table, stream: &Path, asked: &[OsString]) -> String {
    let index = name_for_index(stream);
    let rows: Vec<String> = asked.iter().map(|word| pasted(word)).collect();
    let (build, options) = (to_build(table, stream, &index), options(table, stream));
    format!(
        "row needs --index FILE as well: build it once with '{build}', then ask with 'sailmortar row {} {options} --index {}'",
        rows.join(" "),
        pasted(&index)
    )
}

/// The command that builds this index of the stream.
pub fn to_build(table: &Table, stream: &Path, index: &OsStr) -> String {
    format!("sailmortar index {} -o {}", options(table, stream), pasted(index))
}

/// The command that says what is wrong with the stream.
pub fn to_check(table: &Table, stream: &Path) -> String {
    format!("sailmortar check {}", options(table, stream))
}

fn options(table: &Table, stream: &Path) -> String {
    let fields = match &table.fields {
        Place::Standard => "-".to_string(),
        Place::Named(path) => pasted(path.as_os_str()),
    };
    format!("--fields {fields} --from {} {}", table.from.name().to_lowercase(), pasted(stream.as_os_str()))
}

/// The name that an index has by habit, beside its stream.
pub fn name_for_index(stream: &Path) -> OsString {
    let mut name = stream.as_os_str().to_owned();
    name.push(".index");
    name
}

/// A name as a shell takes it, in double quotes where it would not take it as it is; what a terminal would act on is spelt out all the same.
fn pasted(name: &OsStr) -> String {
    let text = shown(name);
    let is_plain = |letter: char| letter.is_alphanumeric() || "_-./+,:@%=".contains(letter);
    match text.chars().all(is_plain) {
        true => text,
        false => format!("\"{}\"", text.replace(['"', '$', '`'], "?")),
    }
}
