//! What is said of a refusal, lines for people and facts for programs: the file, the place, what stands there, the meaning, what is left.

use std::ffi::OsStr;

use sailmortar::{Column, Indexed, Misfit, Refused, Rows, DECLARATIONS_LIMIT, INPUT_LIMIT};

use crate::cell::{self, Place};
use crate::text::{line, without_space};
use crate::window::Window;
use crate::{element, hint, letters, shown};

/// What is said of how a run ended.
#[derive(Clone, Debug, Default, PartialEq, Eq)]
pub struct Report {
    /// For people, without 'sailmortar: ' before each.
    pub lines: Vec<String>,
    /// For programs, in order.
    pub facts: Vec<(&'static str, Value)>,
    /// Whether it is said even where all is well and no one asked.
    pub is_urgent: bool,
}

/// A fact's value.
#[derive(Clone, Debug, PartialEq, Eq)]
pub enum Value {
    Number(u64),
    Text(String),
    Null,
}

/// A file's name as messages show it.
pub fn shown(name: &OsStr) -> String {
    shown::file(name)
}

/// A refusal of declarations (1 to 6).
pub fn declarations(file: &OsStr, decls: &[u8], refused: &Refused) -> Report {
    let number = refused.number;
    let mut report = Report::of(file, refused);
    if number == 6 {
        let most = shown::number(DECLARATIONS_LIMIT as u64);
        report.lines.push(format!("{}: refusal 6: the declarations are over {most} bytes", shown(file)));
        report.nothing(number);
        return report;
    }
    let standing = element::standing(decls, refused);
    let element::Standing { place, words, .. } = &standing;
    report.lines.push(format!("{}: refusal {number}{place}: {words}: {}", shown(file), refused.meaning()));
    report.nothing(number);
    report.number("column", refused.column);
    report.element(decls, &standing);
    report.hint(hint::of_declarations(decls).filter(|_| number == 1));
    report
}

/// A refusal of an input that is too long (6); `step` says which step was to read it.
pub fn too_long(file: &OsStr, step: &str) -> Report {
    let mut report = Report::of_number(file, 6, sailmortar::meaning(6).unwrap_or_default());
    let most = shown::number(INPUT_LIMIT as u64);
    report.lines.push(format!("{}: refusal 6{step}: the input is over {most} bytes (1 GiB)", shown(file)));
    report.nothing(6);
    report
}

/// A refusal of base64 (6 and 7).
pub fn base64(file: &OsStr, text: &[u8], refused: &Refused) -> Report {
    let step = " in the base64 step";
    let number = refused.number;
    if number == 6 {
        return too_long(file, step);
    }
    let mut report = Report::of(file, refused);
    let fault = letters::fault(text);
    let place = fault.as_ref().map_or(String::new(), |fault| report.letters(text, fault));
    report.lines.push(format!("{}: refusal {number}{step}{place}: {}", shown(file), refused.meaning()));
    report.nothing(number);
    report.hint(fault.and_then(|fault| hint::of_letters(text, fault.byte)));
    report
}

/// Where rows come from and go to.
pub struct Stream<'a> {
    pub input_name: &'a OsStr,
    pub columns: &'a [Column],
    pub from: Rows,
    pub to: Rows,
    /// Whether the input was decoded from base64 first.
    pub decoded: bool,
    /// Whether it is the second of two inputs, whose options have names of their own.
    pub is_second: bool,
    /// What is seen of the input.
    pub window: Window<'a>,
}

/// A refusal of a row (8 to 16, and 18); `stands` says what is written.
pub fn row(stream: &Stream, refused: &Refused, stands: &str) -> Report {
    let standing = cell::standing(stream, refused);
    let (file, number) = (shown(stream.input_name), refused.number);
    let mut report = Report::of(stream.input_name, refused);
    let place = report.place(stream, refused, standing.as_ref());
    let words = standing.as_ref().map_or(String::new(), |standing| format!(" {}:", standing.words));
    report.lines.push(format!("{file}: refusal {number} {place}:{words} {}", refused.meaning()));
    report.lines.push(stands.to_string());
    report.number("rows", refused.rows);
    report.number("bytes", refused.bytes);
    let spot = report.spot(stream, refused, standing.as_ref());
    report.lines.push(format!("rows and columns count from 0; {spot}; 'sailmortar explain {number}' says more"));
    report.hint(hint::of_row(stream, refused, standing.and_then(|standing| standing.fault)).as_deref());
    report
}

/// A refusal of a row that a stream does not have (20); `check` is the command that says why its rows end before it does, if they do.
pub fn past_the_end(file: &OsStr, of: &Indexed, refused: &Refused, check: &str, stands: &str) -> Report {
    let mut report = Report::of(file, refused);
    let (row, is_whole) = (refused.row, of.end == of.length);
    let has = match of.rows.checked_sub(1) {
        None if is_whole => "the stream has no rows".to_string(),
        None => "no row of the stream can be read".to_string(),
        Some(last) if is_whole => format!("the stream has rows 0 to {last}"),
        Some(last) => format!("of the stream rows 0 to {last} can be read, and what stands behind them cannot"),
    };
    report.lines.push(format!("{}: refusal 20 at row {row}: {has}, row {row} is past the end", shown(file)));
    report.lines.push(stands.to_string());
    for (name, value) in [("row", row), ("column", refused.column), ("count", of.rows), ("rows", refused.rows), ("bytes", refused.bytes)] {
        report.number(name, value);
    }
    report.lines.push("rows count from 0; 'sailmortar explain 20' says more".to_string());
    let hint = format!("'{check}' says what is wrong behind them");
    report.hint((!is_whole).then_some(&*hint));
    report
}

/// An index that is not used; `stands` says what is written, and `build` is the command that builds the right one.
pub fn misfit(file: &OsStr, misfit: Misfit, stands: &str, build: &str) -> Report {
    let mut report = Report::default();
    report.text("file", file.to_string_lossy());
    report.text("message", misfit.to_string());
    report.text("build", build);
    report.lines.push(format!("{}: {misfit}", shown(file)));
    report.lines.push(format!("it is not used, and {stands}; build the index with '{build}'"));
    report
}

impl Report {
    /// The facts that every refusal has.
    fn of(file: &OsStr, refused: &Refused) -> Report {
        Report::of_number(file, refused.number, refused.meaning())
    }

    fn of_number(file: &OsStr, number: u64, meaning: &str) -> Report {
        let mut report = Report::default();
        report.text("file", file.to_string_lossy());
        report.number("number", number);
        report.text("meaning", meaning);
        report
    }

    pub fn number(&mut self, name: &'static str, value: u64) {
        self.facts.push((name, Value::Number(value)));
    }

    fn text(&mut self, name: &'static str, value: impl Into<String>) {
        self.facts.push((name, Value::Text(value.into())));
    }

    /// The line that says that nothing is written.
    fn nothing(&mut self, number: u64) {
        self.lines.push(format!("no row was read and nothing is written; 'sailmortar explain {number}' says more"));
    }

    pub fn hint(&mut self, hint: Option<&str>) {
        if let Some(hint) = hint {
            self.text("hint", hint);
            self.lines.push(format!("hint: {hint}"));
        }
    }

    /// The facts of an element of declarations.
    fn element(&mut self, decls: &[u8], standing: &element::Standing) {
        let Some(element) = standing.element else {
            return;
        };
        if let Some(name) = element.name() {
            self.text("name", name);
        }
        for attribute in ["datatype", "arraysize"] {
            if let Some(value) = element.attribute(attribute) {
                self.text(attribute, shown::plain(value));
            }
        }
        self.text("shown", &*standing.shown);
        self.number("byte", element.start as u64);
        self.number("line", line(decls, element.start));
        self.text("element", shown::plain(element::tag(element.text)));
    }

    /// Where base64 goes wrong, in words and as facts.
    fn letters(&mut self, text: &[u8], fault: &letters::Fault) -> String {
        let letters::Fault { byte, words } = fault;
        let line = line(text, *byte);
        self.text("shown", shown::plain(shown::character(text.get(*byte..).unwrap_or_default())));
        self.number("byte", *byte as u64);
        self.number("line", line);
        format!(", in line {line}, at byte {byte}: {words}")
    }

    /// Which part of which row is refused, in words and as facts. What is no cell is not put down to a column.
    fn place(&mut self, stream: &Stream, refused: &Refused, standing: Option<&cell::Standing>) -> String {
        let Refused { row, column, .. } = *refused;
        self.number("row", row);
        self.number("column", column);
        let place = standing.map_or(Place::Cell, |standing| standing.place);
        self.text("place", place.name());
        let title = match place {
            Place::Start => " (the start of the row)".to_string(),
            Place::Flags => " (the flags of the row)".to_string(),
            Place::Cell | Place::End => self.title(stream.columns, column),
        };
        if let Some(standing) = standing {
            self.text("shown", &*standing.shown);
        }
        format!("at row {row}, column {column}{title}")
    }

    fn title(&mut self, columns: &[Column], place: u64) -> String {
        let Some(column) = usize::try_from(place).ok().and_then(|place| columns.get(place)) else {
            return " (after the last cell)".to_string();
        };
        if let Some(name) = &column.name {
            self.text("name", &**name);
        }
        self.text("datatype", column.kind.name());
        self.text("arraysize", column.length.to_string());
        column.name.as_ref().map_or(String::new(), |name| format!(" ({})", shown::name(name)))
    }

    /// Where in the bytes the refused row and its cell begin, in words and as facts; their numbers alone are hard to find in a long file.
    fn spot(&mut self, stream: &Stream, refused: &Refused, standing: Option<&cell::Standing>) -> String {
        let Refused { row, column, .. } = *refused;
        let start = row_start(stream, refused);
        let cell = standing.map_or(start, |standing| standing.byte.max(start));
        self.number("offset", start as u64);
        self.number("byte", cell as u64);
        let lines = stream.window.line(start).zip(stream.window.line(cell)).filter(|_| stream.from == Rows::TableData);
        let (start_line, cell_line) = lines.map_or_else(Default::default, |(start_line, cell_line)| {
            self.number("line", cell_line);
            (format!("in line {start_line}, "), format!("in line {cell_line}, "))
        });
        let of = if stream.decoded { " of the decoded stream" } else { "" };
        match standing.map(|standing| standing.place) {
            Some(Place::Cell | Place::End) => {
                format!("row {row} begins {start_line}at byte {start}, column {column} {cell_line}at byte {cell}{of}")
            }
            _ => format!("row {row} begins {start_line}at byte {start}{of}"),
        }
    }
}

/// White space before a row of TABLEDATA counts as part of it; the reader looks for the tag.
fn row_start(stream: &Stream, refused: &Refused) -> usize {
    let rest = stream.window.from(refused.offset).unwrap_or_default();
    match stream.from {
        Rows::TableData => stream.window.place_of(without_space(rest)),
        _ => stream.window.place_of(rest),
    }
}
