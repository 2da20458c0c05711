//! The command `sailmortar`: files in, files out, refusals in words. What is converted, and how, the proved archive decides.

#![deny(unsafe_code)]

mod advice;
mod arguments;
mod base64;
mod binary;
mod cell;
mod columns;
mod compare;
mod convert;
mod differing;
mod element;
mod files;
mod hint;
mod index;
mod json;
mod letters;
mod output;
mod probe;
mod progress;
mod report;
mod row;
mod shown;
mod side_by_side;
mod source;
#[allow(unsafe_code)]
mod system;
mod tabledata;
mod text;
mod window;
mod words;

use std::io::{self, Write};
use std::process::ExitCode;

use arguments::{Command, Place, Telling, Usage};
use files::Trouble;
use output::Output;
use report::{Report, Value};

const ACCEPTED: u8 = 0;
const REFUSED: u8 = 1;
const WRONG_USAGE: u8 = 2;
const SYSTEM_SAID_NO: u8 = 3;
/// Of compare, whose refusals have a number of their own.
const DIFFERENT: u8 = 1;
const NOT_COMPARED: u8 = 4;

/// How a run ends that does not end well.
enum End {
    Refused(Report),
    /// A row is refused, and the system said no to what was to be kept before it.
    NotKept(Report),
    /// Two inputs are good, and differ.
    Different(Report),
    /// One of two inputs is refused.
    NotCompared(Report),
    Trouble(Trouble),
    Usage(Usage),
}

impl From<Trouble> for End {
    fn from(trouble: Trouble) -> End {
        End::Trouble(trouble)
    }
}

impl From<Usage> for End {
    fn from(usage: Usage) -> End {
        End::Usage(usage)
    }
}

fn main() -> ExitCode {
    system::limits_are_errors();
    let words: Vec<_> = std::env::args_os().skip(1).collect();
    let mut telling = Telling { verbose: false, json: arguments::asks_for_json(&words) };
    let ended = arguments::request(words).map_err(End::Usage).and_then(|request| {
        telling = request.telling;
        run(&request.command, telling)
    });
    let (status, said) = match ended {
        Ok(report) => (ACCEPTED, told(ACCEPTED, report, telling)),
        Err(End::Refused(report)) => (REFUSED, told(REFUSED, report, telling)),
        Err(End::Different(report)) => (DIFFERENT, told(DIFFERENT, report, telling)),
        Err(End::NotCompared(report)) => (NOT_COMPARED, told(NOT_COMPARED, report, telling)),
        Err(End::NotKept(report)) => (SYSTEM_SAID_NO, told(SYSTEM_SAID_NO, report, telling)),
        Err(End::Trouble(trouble)) if trouble.is_closed_pipe() => (SYSTEM_SAID_NO, String::new()),
        Err(End::Trouble(trouble)) => (SYSTEM_SAID_NO, told(SYSTEM_SAID_NO, said_in_a_line(trouble.to_string()), telling)),
        Err(End::Usage(Usage(wrong))) => (WRONG_USAGE, told(WRONG_USAGE, said_in_a_line(wrong), telling)),
    };
    // Where standard error is closed there is no one to tell; the status still does.
    let _ = io::stderr().write_all(said.as_bytes());
    ExitCode::from(status)
}

fn said_in_a_line(line: String) -> Report {
    Report { facts: vec![("message", Value::Text(line.clone()))], lines: vec![line], is_urgent: false }
}

/// What standard error says of the end: an object, lines for people, or nothing where all is well and no one asked.
fn told(status: u8, report: Report, telling: Telling) -> String {
    let is_asked = status != ACCEPTED || telling.verbose || telling.json || report.is_urgent;
    if report.lines.is_empty() || !is_asked {
        return String::new();
    }
    if telling.json {
        let status = Value::Number(status.into());
        let members = [("status", &status)].into_iter().chain(report.facts.iter().map(|(name, value)| (*name, value)));
        return json::object(members) + "\n";
    }
    let help = if status == WRONG_USAGE { "Try 'sailmortar --help'.\n" } else { "" };
    report.lines.iter().map(|line| format!("sailmortar: {line}\n")).collect::<String>() + help
}

fn run(command: &Command, telling: Telling) -> Result<Report, End> {
    match command {
        Command::Help(topic) => say(topic.help()),
        Command::Version => say(concat!("sailmortar ", env!("CARGO_PKG_VERSION"), "\n")),
        Command::Explain(None) => say(&words::list()),
        Command::Explain(Some(number)) => say(&words::explanation(*number)),
        Command::Encode(encoding) => base64::encode(encoding),
        Command::Decode(files) => base64::decode(files),
        Command::Convert(conversion) => convert::convert(conversion),
        Command::Check(checking) => convert::check(checking, telling),
        Command::Compare(comparing) => compare::compare(comparing, telling),
        Command::Index(indexing) => index::index(indexing),
        Command::Row(fetching) => row::row(fetching),
        Command::Columns(fields) => columns::columns(fields, telling),
    }
}

/// Says it on standard output; there is nothing more to tell then.
fn say(text: &str) -> Result<Report, End> {
    let mut output = Output::open(&Place::Standard)?;
    output.write_all(text.as_bytes()).map_err(|cause| output.trouble(cause))?;
    output.finish()?;
    Ok(Report::default())
}
