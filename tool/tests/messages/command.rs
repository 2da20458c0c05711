//! That the command says what a report says.

use std::fs;
use std::path::Path;
use std::process::{Command, Stdio};

use sailmortar::Rows;

use super::said::{of_rows, Way};

#[test]
fn the_command_says_the_lines_of_the_report() {
    let folder = Path::new(env!("CARGO_TARGET_TMPDIR")).join("messages");
    fs::create_dir_all(&folder).expect("a scratch folder");
    let (fields, input) = ("<FIELD name='sky' datatype='short'/>", b"<TR><TD>7</TD></TR>\n<tr>");
    fs::write(folder.join("fields"), fields).expect("a scratch file");
    fs::write(folder.join("night"), input).expect("a scratch file");
    let mut command = Command::new(env!("CARGO_BIN_EXE_sailmortar"));
    let words = "convert --fields fields --from tabledata --to binary night -o out";
    let output = command.args(words.split(' ')).current_dir(&folder).stdin(Stdio::null()).output().expect("the program runs");
    let said = String::from_utf8(output.stderr).expect("messages are text");
    let report = of_rows(fields, Way { from: Rows::TableData, to: Rows::Binary }, input);
    for line in report.lines.iter().filter(|line| *line != super::said::STANDS) {
        assert!(said.contains(&format!("sailmortar: {line}\n")), "'{line}' is not said in\n{said}");
    }
    assert_eq!(output.status.code(), Some(1));
    let _ = fs::remove_dir_all(&folder);
}
