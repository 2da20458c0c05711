//! Conversion from file to file, and the check that writes nothing.

use std::io::{self, Write};

use sailmortar::{Base64Writer, Column, Done, Error, Refused, Rows};

use crate::arguments::{Checking, Conversion, Place, Table, Telling, Usage};
use crate::base64::not_to_a_terminal;
use crate::files::{Identity, Input, Trouble};
use crate::output::Output;
use crate::report::{self, shown, Report, Stream, Value};
use crate::shown::counted;
use crate::source::Source;
use crate::window::Window;
use crate::{say, End};

/// Declarations that are good.
pub struct Fields {
    pub identity: Option<Identity>,
    shared: Option<Identity>,
    pub decls: Vec<u8>,
    pub columns: Vec<Column>,
}

impl Fields {
    pub fn read(place: &Place) -> Result<Fields, End> {
        let mut input = Input::open(place)?;
        let decls = input.read(sailmortar::DECLARATIONS_LIMIT, |_| {})?;
        match sailmortar::columns(&decls) {
            Ok(columns) => Ok(Fields { identity: input.identity(), shared: input.shared(), decls, columns }),
            Err(refused) => Err(End::Refused(report::declarations(&input.name, &decls, &refused))),
        }
    }

    /// The rows' file, opened. A pipe that the fields were read from has nothing left, which would look like a table without rows.
    pub fn open_rows(&self, place: &Place) -> Result<Input, End> {
        let input = Input::open(place)?;
        match self.shared.is_some() && self.shared == input.shared() {
            true => Err(Usage("the fields and the rows cannot both come from one pipe or terminal".to_string()).into()),
            false => Ok(input),
        }
    }
}

pub fn convert(conversion: &Conversion) -> Result<Report, End> {
    let fields = Fields::read(&conversion.table.fields)?;
    let mut input = fields.open_rows(&conversion.files.input)?;
    let mut outputs = Outputs::open(conversion, &[fields.identity, input.identity()])?;
    let mut source = Source::open(&mut input, &conversion.table, conversion.working)?;
    match convert_into(&mut outputs.output, conversion, &fields.decls, &mut source) {
        Ok(done) => outputs.finish(&source, &done),
        Err(Error::Refused(refused)) if refused.number == 6 => Err(source.too_long()),
        Err(Error::Refused(refused)) => {
            let stands = outputs.stop(&mut source, &refused);
            let stream = stream(source.input, &fields, &conversion.table, conversion.to, source.window(&refused));
            Err(refused_row(&stream, &refused, stands))
        }
        Err(Error::System(cause)) => Err(source.trouble(cause, &outputs.output).into()),
        Err(other) => Err(outputs.output.trouble(io::Error::other(other)).into()),
    }
}

pub fn stream<'a>(input: &'a Input, fields: &'a Fields, table: &Table, to: Rows, window: Window<'a>) -> Stream<'a> {
    Stream { input_name: &input.name, columns: &fields.columns, from: table.from, to, decoded: table.base64_in, is_second: false, window }
}

/// The words and facts of a refused row, and of what stands before it, or could not be kept.
pub fn refused_row(stream: &Stream, refused: &Refused, stands: Result<Stands, Trouble>) -> End {
    refused_with(stands, |words| report::row(stream, refused, words))
}

/// The same of any report that says what stands.
pub fn refused_with(stands: Result<Stands, Trouble>, report: impl Fn(&str) -> Report) -> End {
    match stands {
        Ok(Stands { words, facts }) => {
            let mut report = report(&words);
            report.facts.extend(facts);
            End::Refused(report)
        }
        Err(trouble) => {
            let mut report = report(&format!("what stands before it could not be kept: {trouble}"));
            report.facts.push(("message", Value::Text(trouble.to_string())));
            End::NotKept(report)
        }
    }
}

/// What became of the rows before a refused one.
pub struct Stands {
    pub words: String,
    pub facts: Vec<(&'static str, Value)>,
}

impl Stands {
    /// No row was good: an output that is there stays as it was, and none is made.
    pub fn nothing(output: &Output) -> Stands {
        let left = if output.is_there() { format!("{} is left as it was", shown(&output.name)) } else { "nothing is written".to_string() };
        Stands { words: format!("no row stands before it, and {left}"), facts: vec![] }
    }
}

/// What is said of a run whose rows all were good, so many bytes of its input read.
pub fn done_well(input: &Input, read: u64, rows: u64, output: &Output) -> Report {
    let [bytes_read, bytes] = [read, output.written].map(|bytes| counted(bytes, "byte", "bytes"));
    let [from, to] = [&input.name, &output.name].map(|name| shown(name));
    let said = format!("{from}: {}, {bytes_read} read, {bytes} written to {to}", counted(rows, "row", "rows"));
    let counts = [("rows", rows), ("read", read), ("bytes", output.written)];
    let mut facts: Vec<_> = counts.into_iter().map(|(name, number)| (name, Value::Number(number))).collect();
    facts.push(named("output", output));
    Report { lines: vec![said], facts, is_urgent: false }
}

/// Where rows go, and where the rest goes if a row is refused.
struct Outputs {
    output: Output,
    rest: Option<Output>,
    /// Whether the output would take the place of what is read.
    replaces_input: bool,
}

impl Outputs {
    /// Both are opened before the rows are read, so that trouble shows early.
    fn open(conversion: &Conversion, inputs: &[Option<Identity>]) -> Result<Outputs, End> {
        let output = Output::open(&conversion.files.output)?;
        let binary = conversion.to != Rows::TableData && !conversion.base64_out;
        if binary && !conversion.files.output_is_said && output.is_terminal() {
            return Err(not_to_a_terminal(conversion.to.name()).into());
        }
        output.keep_off(inputs)?;
        let rest = conversion.rest.as_ref().map(Output::open).transpose()?;
        if let Some(rest) = &rest {
            if rest.is_same_as(&output) || inputs.iter().any(|input| rest.replaces(*input)) {
                return Err(Usage(format!("--rest wants a file of its own, and {} has another use", shown(&rest.name))).into());
            }
        }
        let replaces_input = inputs.iter().any(|input| output.replaces(*input));
        Ok(Outputs { output, rest, replaces_input })
    }

    /// All rows are good. That a night is replaced by nothing at all is said even where no one asked.
    fn finish(mut self, source: &Source, done: &Done) -> Result<Report, End> {
        let is_urgent = source.read() == 0 && self.output.replaces_something();
        self.output.finish()?;
        Ok(Report { is_urgent, ..done_well(source.input, source.read(), done.rows, &self.output) })
    }

    /// A row is refused: keeps what stands before it, and answers what became of that. The rest is written first: only where it stands
    /// whole is the output moved.
    fn stop(&mut self, source: &mut Source, refused: &Refused) -> Result<Stands, Trouble> {
        if let Some(rest) = &mut self.rest {
            source.write_rest(refused, rest)?;
            rest.sync()?;
        }
        let mut stands = self.keep_rows(refused)?;
        if let Some(rest) = &mut self.rest {
            rest.finish()?;
            stands.words += &format!("; everything from row {} on is in {}", refused.row, shown(&rest.name));
            stands.facts.push(named("rest", rest));
        }
        Ok(stands)
    }

    fn keep_rows(&mut self, refused: &Refused) -> Result<Stands, Trouble> {
        let name = shown(&self.output.name);
        if refused.rows == 0 {
            return Ok(Stands::nothing(&self.output));
        }
        let before = format!("{} written to", rows_before(refused.rows));
        if !self.replaces_input {
            self.output.finish()?;
            return Ok(Stands { words: format!("{before} {name}"), facts: vec![named("output", &self.output)] });
        }
        let beside = self.output.finish_beside(self.rest.as_ref())?;
        let words = format!("{before} {}, and {name} is left as it was", shown(&beside));
        Ok(Stands { words, facts: vec![("output", Value::Text(beside.to_string_lossy().into_owned()))] })
    }
}

pub fn named(fact: &'static str, output: &Output) -> (&'static str, Value) {
    (fact, Value::Text(output.name.to_string_lossy().into_owned()))
}

pub fn rows_before(rows: u64) -> String {
    format!("the {} before it {}", counted(rows, "row", "rows"), if rows == 1 { "is" } else { "are" })
}

fn convert_into(output: &mut Output, conversion: &Conversion, decls: &[u8], source: &mut Source) -> Result<Done, Error> {
    let mut write = |target: &mut dyn Write| source.convert(decls, conversion.to, "converted", |piece| target.write_all(piece.bytes));
    if !conversion.base64_out {
        return write(output);
    }
    let mut letters = Base64Writer::new(output, conversion.wrap)?;
    let converted = write(&mut letters);
    // The rows before a refused one stand whole, and so does their base64.
    if !matches!(converted, Err(Error::System(_))) {
        letters.finish()?;
    }
    converted
}

pub fn check(checking: &Checking, telling: Telling) -> Result<Report, End> {
    let fields = Fields::read(&checking.table.fields)?;
    let mut input = fields.open_rows(&checking.input)?;
    let mut source = Source::open(&mut input, &checking.table, checking.working)?;
    // BINARY2 has a form for whatever a cell shows, so that only reading can refuse.
    let to = checking.to.unwrap_or(Rows::Binary2);
    match source.convert(&fields.decls, to, "checked", |_| Ok(())) {
        Ok(done) => good(&source, done.rows, fields.columns.len(), telling),
        Err(Error::Refused(refused)) if refused.number == 6 => Err(source.too_long()),
        Err(Error::Refused(refused)) => {
            let words = match refused.rows {
                0 => "no row stands before it".to_string(),
                rows => format!("{} good", rows_before(rows)),
            };
            let stream = stream(source.input, &fields, &checking.table, to, source.window(&refused));
            Err(refused_row(&stream, &refused, Ok(Stands { words, facts: vec![] })))
        }
        Err(Error::System(cause)) => Err(Trouble::with(&source.input.name)(cause).into()),
        Err(other) => Err(Trouble::with(&source.input.name)(io::Error::other(other)).into()),
    }
}

fn good(source: &Source, count: u64, columns: usize, telling: Telling) -> Result<Report, End> {
    let (rows, bytes) = (counted(count, "row", "rows"), counted(source.read(), "byte", "bytes"));
    let line = format!("{}: {rows}, {bytes}, {}", shown(&source.input.name), counted(columns as u64, "column", "columns"));
    if !telling.json {
        return say(&(line + "\n"));
    }
    let numbers = [("rows", count), ("read", source.read()), ("columns", columns as u64)];
    let facts = numbers.into_iter().map(|(name, number)| (name, Value::Number(number))).collect();
    Ok(Report { lines: vec![line], facts, is_urgent: false })
}
