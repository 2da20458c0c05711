//! The words of the command line, by the habits people have.

use std::ffi::{OsStr, OsString};
use std::fmt;
use std::num::NonZeroUsize;
use std::ops::RangeInclusive;
use std::os::unix::ffi::{OsStrExt, OsStringExt};
use std::path::PathBuf;
use std::str::FromStr;

use sailmortar::Rows;

use crate::advice;
use crate::report::shown;
use crate::words::Topic;

/// What is to be done, and how it is told.
pub struct Request {
    pub command: Command,
    pub telling: Telling,
}

/// What is to be done.
pub enum Command {
    Help(Topic),
    Version,
    Explain(Option<u64>),
    Encode(Encoding),
    Decode(Files),
    Convert(Conversion),
    Check(Checking),
    Columns(Place),
    Index(Indexing),
    Row(Fetching),
    Compare(Comparing),
}

/// How the end of a run is told.
#[derive(Clone, Copy, Default)]
pub struct Telling {
    /// Success too.
    pub verbose: bool,
    /// An object a line.
    pub json: bool,
}

/// Where a text comes from or goes to.
#[derive(Clone, Debug, PartialEq, Eq)]
pub enum Place {
    Standard,
    Named(PathBuf),
}

impl Place {
    fn of(word: Option<OsString>) -> Place {
        match word {
            Some(word) if word != "-" => Place::Named(word.into()),
            _ => Place::Standard,
        }
    }
}

pub struct Files {
    pub input: Place,
    pub output: Place,
    /// Whether the output was named, as standard output is by `-o -`.
    pub output_is_said: bool,
}

pub struct Encoding {
    pub files: Files,
    pub wrap: usize,
}

/// Rows to be read.
pub struct Table {
    pub fields: Place,
    pub from: Rows,
    pub base64_in: bool,
}

/// How rows are gone through.
#[derive(Clone, Copy)]
pub struct Working {
    /// On how many threads, where that was said.
    pub threads: Option<NonZeroUsize>,
    /// Whether an input may be of any length, and is converted as it is read.
    pub long: bool,
}

pub struct Conversion {
    pub table: Table,
    pub to: Rows,
    pub working: Working,
    pub base64_out: bool,
    pub wrap: usize,
    pub files: Files,
    pub rest: Option<Place>,
}

pub struct Checking {
    pub table: Table,
    pub to: Option<Rows>,
    pub working: Working,
    pub input: Place,
}

pub struct Indexing {
    pub table: Table,
    pub files: Files,
}

/// Rows to be fetched from a stream by its index, in the order in which they were asked for.
pub struct Fetching {
    pub rows: Vec<RangeInclusive<u64>>,
    pub table: Table,
    pub stream: PathBuf,
    pub index: PathBuf,
    pub output: Place,
}

/// Two inputs under the same declarations.
pub struct Comparing {
    pub first: Compared,
    pub second: Compared,
    /// Whether nothing is listed or counted: the exit status tells.
    pub quiet: bool,
    /// The most cells that are listed.
    pub limit: u64,
}

/// One of two inputs.
pub struct Compared {
    pub table: Table,
    pub input: Place,
}

/// What is wrong with the words, in a line.
pub struct Usage(pub String);

impl<T: fmt::Display> From<T> for Usage {
    fn from(words: T) -> Usage {
        Usage(words.to_string())
    }
}

/// An option of a command: its long name, its letter, and whether a value follows.
struct Known {
    long: &'static str,
    letter: Option<u8>,
    valued: bool,
}

const fn valued(long: &'static str) -> Known {
    Known { long, letter: None, valued: true }
}

const fn plain(long: &'static str) -> Known {
    Known { long, letter: None, valued: false }
}

const OUTPUT: Known = Known { long: "output", letter: Some(b'o'), valued: true };
const VERBOSE: Known = Known { long: "verbose", letter: Some(b'v'), valued: false };
const QUIET: Known = Known { long: "quiet", letter: Some(b'q'), valued: false };
const JSON: Known = plain("json");
const THREADS: Known = valued("threads");
const LONG: Known = plain("long");

/// Whether the words ask for `--json`, for the case that something is wrong with the rest of them.
pub fn asks_for_json(words: &[OsString]) -> bool {
    words.iter().take_while(|word| *word != "--").any(|word| word == "--json")
}

const COMMANDS: &str = "convert, check, compare, index, row, columns, base64, explain and help";

/// The command line without the program's name.
pub fn request(words: Vec<OsString>) -> Result<Request, Usage> {
    let mut words = words.into_iter();
    let Some(first) = words.next() else {
        return Err("say what to do: convert, check, compare, index, row, columns, base64, explain or help".into());
    };
    match first.as_bytes() {
        b"-h" | b"--help" => Ok(plain_request(Command::Help(Topic::All))),
        b"-V" | b"--version" => Ok(plain_request(Command::Version)),
        b"help" => Ok(plain_request(Command::Help(topic(words)?))),
        [b'-', ..] => Err(format!("unknown option '{}'", shown(&first)).into()),
        _ => match Topic::named(&first) {
            Some(topic) => request_of(topic, words),
            None => Err(format!("unknown command '{}'; there are {COMMANDS}", shown(&first)).into()),
        },
    }
}

fn plain_request(command: Command) -> Request {
    Request { command, telling: Telling::default() }
}

fn topic(mut words: impl Iterator<Item = OsString>) -> Result<Topic, Usage> {
    match (words.next(), words.next()) {
        (None, _) => Ok(Topic::All),
        (Some(word), None) => {
            Topic::named(&word).ok_or_else(|| format!("there is no command '{}'; there are {COMMANDS}", shown(&word)).into())
        }
        _ => Err("help takes one command at most".into()),
    }
}

fn request_of(topic: Topic, words: impl Iterator<Item = OsString>) -> Result<Request, Usage> {
    let known = match topic {
        Topic::All | Topic::Explain => vec![],
        Topic::Convert => {
            let files = [valued("fields"), valued("from"), valued("to"), plain("base64-in"), plain("base64-out")];
            files.into_iter().chain([valued("wrap"), valued("rest"), OUTPUT, THREADS, LONG, VERBOSE, JSON]).collect()
        }
        Topic::Check => vec![valued("fields"), valued("from"), valued("to"), plain("base64-in"), THREADS, LONG, JSON],
        Topic::Compare => {
            let inputs = [valued("fields"), valued("from"), valued("and"), plain("base64-in"), plain("base64-and")];
            inputs.into_iter().chain([valued("limit"), QUIET, VERBOSE, JSON]).collect()
        }
        Topic::Index => vec![valued("fields"), valued("from"), plain("base64-in"), OUTPUT, VERBOSE, JSON],
        Topic::Row => vec![valued("fields"), valued("from"), valued("index"), plain("base64-in"), OUTPUT, VERBOSE, JSON],
        Topic::Columns => vec![valued("fields"), JSON],
        Topic::Base64 => vec![valued("wrap"), OUTPUT, VERBOSE, JSON],
    };
    let mut words = match split(topic, words, &known)? {
        Split::Help => return Ok(plain_request(Command::Help(topic))),
        Split::Version => return Ok(plain_request(Command::Version)),
        Split::Words(words) => words,
    };
    let telling = Telling { verbose: words.take("verbose").is_some(), json: words.take("json").is_some() };
    let command = match topic {
        Topic::All => Command::Help(Topic::All),
        Topic::Compare => comparing(words, telling)?,
        Topic::Explain => explain(words)?,
        Topic::Convert => conversion(words)?,
        Topic::Check => checking(words)?,
        Topic::Index => indexing(words)?,
        Topic::Row => fetching(words)?,
        Topic::Columns => columns(words)?,
        Topic::Base64 => base64(words)?,
    };
    Ok(Request { command, telling })
}

/// The words after the command, taken apart.
enum Split {
    Help,
    Version,
    Words(Words),
}

#[derive(Default)]
struct Words {
    options: Vec<(&'static str, OsString)>,
    operands: Vec<OsString>,
}

impl Words {
    /// Adds an option, with the next word as its value where it needs one and has none yet.
    fn add(&mut self, option: &Known, value: Option<OsString>, rest: &mut dyn Iterator<Item = OsString>) -> Result<(), Usage> {
        if self.options.iter().any(|(name, _)| *name == option.long) {
            return Err(format!("--{} is given twice", option.long).into());
        }
        let value = if option.valued { value.or_else(|| rest.next()) } else { Some(OsString::from("given")) };
        let value = value.filter(|value| !value.is_empty()).ok_or_else(|| Usage(format!("--{} needs a value", option.long)))?;
        self.options.push((option.long, value));
        Ok(())
    }

    fn take(&mut self, long: &str) -> Option<OsString> {
        let place = self.options.iter().position(|(name, _)| *name == long)?;
        Some(self.options.remove(place).1)
    }

    fn input(operands: impl Iterator<Item = OsString>) -> Result<Place, Usage> {
        let mut operands = operands;
        let first = operands.next();
        if first.as_ref().is_some_and(|name| name.is_empty()) {
            return Err("INPUT has no name; '-' is standard input".into());
        }
        let input = Place::of(first);
        match operands.next() {
            Some(second) => Err(format!("one INPUT at most, and '{}' is a second", shown(&second)).into()),
            None => Ok(input),
        }
    }

    fn files(&mut self, operands: impl Iterator<Item = OsString>) -> Result<Files, Usage> {
        let input = Words::input(operands)?;
        let output = self.take("output");
        Ok(Files { input, output_is_said: output.is_some(), output: Place::of(output) })
    }

    /// The length of lines of base64; 0 is for no line breaks, as it is for coreutils.
    fn wrap(&mut self) -> Result<Option<usize>, Usage> {
        let Some(word) = self.take("wrap") else {
            return Ok(None);
        };
        let letters = number(&word);
        letters.map(Some).ok_or_else(|| format!("--wrap takes a number of letters, not '{}'", shown(&word)).into())
    }

    /// How the rows of a table are gone through.
    fn working(&mut self, topic: Topic, table: &Table) -> Result<Working, Usage> {
        let threads = self.take("threads").map(|word| {
            number(&word).ok_or_else(|| Usage(format!("--threads takes a number of threads, from 1 on, not '{}'", shown(&word))))
        });
        let working = Working { threads: threads.transpose()?, long: self.take("long").is_some() };
        match working.long && table.base64_in {
            true => Err(no_long_base64(topic)),
            false => Ok(working),
        }
    }
}

/// Base64 is a step of its own, with a limit of its own.
fn no_long_base64(topic: Topic) -> Usage {
    let command = format!("base64 -d INPUT | sailmortar {} --long ..", topic.name());
    let words = "--long does not go with --base64-in: base64 is decoded whole first, 1 GiB at most";
    Usage(format!("{words}; leave --long out, or decode before this command, as in '{command}'"))
}

/// The number that a word of digits alone stands for.
fn number<N: FromStr>(word: &OsStr) -> Option<N> {
    word.to_str().filter(|digits| digits.bytes().all(|digit| digit.is_ascii_digit()))?.parse().ok()
}

fn split(topic: Topic, mut rest: impl Iterator<Item = OsString>, known: &[Known]) -> Result<Split, Usage> {
    let mut words = Words::default();
    while let Some(word) = rest.next() {
        match word.as_bytes() {
            b"--" => words.operands.extend(rest.by_ref()),
            b"-h" | b"--help" => return Ok(Split::Help),
            b"-V" | b"--version" => return Ok(Split::Version),
            [b'-', b'-', ..] => {
                let (option, value) = long_option(topic, &word, known)?;
                words.add(option, value, &mut rest)?;
            }
            [b'-', _, ..] => add_letters(topic, &word, known, &mut words, &mut rest)?,
            _ => words.operands.push(word),
        }
    }
    Ok(Split::Words(words))
}

/// The option that a word names, and the value that stands in the same word (`--from=binary`).
fn long_option<'a>(topic: Topic, word: &OsStr, known: &'a [Known]) -> Result<(&'a Known, Option<OsString>), Usage> {
    let mut parts = word.as_bytes()[2..].splitn(2, |byte| *byte == b'=');
    let name = parts.next().unwrap_or_default();
    let option = known.iter().find(|option| option.long.as_bytes() == name).ok_or_else(|| unknown(topic, word))?;
    let value = parts.next().map(|value| OsString::from_vec(value.to_vec()));
    match value.is_some() && !option.valued {
        true => Err(format!("--{} takes no value", option.long).into()),
        false => Ok((option, value)),
    }
}

/// The options that the letters of a word name, the last one with its value (`-vo FILE`, `-oFILE`).
fn add_letters(
    topic: Topic,
    word: &OsStr,
    known: &[Known],
    words: &mut Words,
    rest: &mut dyn Iterator<Item = OsString>,
) -> Result<(), Usage> {
    let mut letters = &word.as_bytes()[1..];
    while let Some((letter, after)) = letters.split_first() {
        let option = known.iter().find(|option| option.letter == Some(*letter)).ok_or_else(|| unknown(topic, word))?;
        let value = Some(after).filter(|value| option.valued && !value.is_empty()).map(|value| OsString::from_vec(value.to_vec()));
        words.add(option, value, rest)?;
        letters = if option.valued { &[] } else { after };
    }
    Ok(())
}

fn unknown(topic: Topic, word: &OsStr) -> Usage {
    Usage(format!("unknown option '{}' for {}", shown(word), topic.name()))
}

/// The values of options that a command cannot do without, or the words that say which are missing.
fn needed<const N: usize>(topic: Topic, words: &mut Words, options: [(&str, &str); N]) -> Result<[OsString; N], Usage> {
    let values = options.map(|(long, _)| words.take(long));
    let missing: Vec<_> =
        options.iter().zip(&values).filter(|(_, value)| value.is_none()).map(|((long, kind), _)| format!("--{long} {kind}")).collect();
    if !missing.is_empty() {
        return Err(format!("{} needs {} as well", topic.name(), missing.join(" and ")).into());
    }
    Ok(values.map(Option::unwrap_or_default))
}

fn table(words: &mut Words, fields: OsString, from: &OsStr, input: &Place) -> Result<Table, Usage> {
    let table = Table { fields: Place::of(Some(fields)), from: kind("--from", from)?, base64_in: words.take("base64-in").is_some() };
    two_inputs(&table.fields, input)?;
    for_binary("in", table.base64_in, table.from)?;
    Ok(table)
}

fn two_inputs(fields: &Place, input: &Place) -> Result<(), Usage> {
    match *fields == Place::Standard && *input == Place::Standard {
        true => Err("the fields and the rows cannot both come from standard input".into()),
        false => Ok(()),
    }
}

fn for_binary(option: &str, given: bool, kind: Rows) -> Result<(), Usage> {
    match given && kind == Rows::TableData {
        true => Err(format!("--base64-{option} is for BINARY and BINARY2: TABLEDATA stands in a VOTable as it is").into()),
        false => Ok(()),
    }
}

fn conversion(mut words: Words) -> Result<Command, Usage> {
    let operands = std::mem::take(&mut words.operands);
    let [fields, from, to] = needed(Topic::Convert, &mut words, [("fields", "FILE"), ("from", "KIND"), ("to", "KIND")])?;
    let files = words.files(operands.into_iter())?;
    let wrap = words.wrap()?;
    let table = table(&mut words, fields, &from, &files.input)?;
    let conversion = Conversion {
        working: words.working(Topic::Convert, &table)?,
        table,
        to: kind("--to", &to)?,
        base64_out: words.take("base64-out").is_some(),
        wrap: wrap.unwrap_or(0),
        rest: words.take("rest").map(|rest| Place::of(Some(rest))),
        files,
    };
    for_binary("out", conversion.base64_out, conversion.to)?;
    if wrap.is_some() && !conversion.base64_out {
        return Err("--wrap is for base64: give --base64-out as well".into());
    }
    if conversion.rest == Some(Place::Standard) && conversion.files.output == Place::Standard {
        return Err("the rows and the rest cannot both go to standard output".into());
    }
    Ok(Command::Convert(conversion))
}

fn checking(mut words: Words) -> Result<Command, Usage> {
    let operands = std::mem::take(&mut words.operands);
    let [fields, from] = needed(Topic::Check, &mut words, [("fields", "FILE"), ("from", "KIND")])?;
    let input = Words::input(operands.into_iter())?;
    let to = words.take("to").map(|to| kind("--to", &to)).transpose()?;
    let table = table(&mut words, fields, &from, &input)?;
    Ok(Command::Check(Checking { working: words.working(Topic::Check, &table)?, table, to, input }))
}

fn comparing(mut words: Words, telling: Telling) -> Result<Command, Usage> {
    let operands = std::mem::take(&mut words.operands);
    let [fields, from] = needed(Topic::Compare, &mut words, [("fields", "FILE"), ("from", "KIND")])?;
    let [first, second] = two_operands(operands)?;
    // The second is of the same kind unless it is said to be of another.
    let and = words.take("and").map_or_else(|| kind("--from", &from), |and| kind("--and", &and))?;
    let base64_and = words.take("base64-and").is_some();
    for_binary("and", base64_and, and)?;
    let (limit, quiet) = (words.take("limit"), words.take("quiet").is_some());
    if quiet && (limit.is_some() || telling.verbose) {
        return Err(format!("--quiet says nothing: leave {} out", if telling.verbose { "--verbose" } else { "--limit" }).into());
    }
    let first = Compared { table: table(&mut words, fields, &from, &first)?, input: first };
    two_inputs(&first.table.fields, &second)?;
    let table = Table { fields: first.table.fields.clone(), from: and, base64_in: base64_and };
    let limit = limit.map_or(Ok(u64::MAX), |word| {
        number(&word).ok_or_else(|| Usage(format!("--limit takes a number of cells, not '{}'", shown(&word))))
    })?;
    Ok(Command::Compare(Comparing { first, second: Compared { table, input: second }, quiet, limit }))
}

/// The two inputs that are compared; one of them may be standard input.
fn two_operands(operands: Vec<OsString>) -> Result<[Place; 2], Usage> {
    match &operands[..] {
        [] | [_] => Err("compare needs two inputs, FIRST and SECOND; '-' is standard input".into()),
        [first, second] if first.is_empty() || second.is_empty() => Err("an input has no name; '-' is standard input".into()),
        [first, second] if first == "-" && second == "-" => Err("the two inputs cannot both come from standard input".into()),
        [first, second] => Ok([first, second].map(|word| Place::of(Some(word.clone())))),
        [_, _, third, ..] => Err(format!("compare takes two inputs, and '{}' is a third", shown(third)).into()),
    }
}

fn indexing(mut words: Words) -> Result<Command, Usage> {
    let operands = std::mem::take(&mut words.operands);
    let [fields, from] = needed(Topic::Index, &mut words, [("fields", "FILE"), ("from", "KIND")])?;
    let files = words.files(operands.into_iter())?;
    Ok(Command::Index(Indexing { table: indexed_table(&mut words, fields, &from, &files.input)?, files }))
}

fn fetching(mut words: Words) -> Result<Command, Usage> {
    let (asked, others): (Vec<_>, Vec<_>) = std::mem::take(&mut words.operands).into_iter().partition(|word| looks_like_rows(word));
    let rows = asked.iter().map(|word| rows_asked_for(word)).collect::<Result<Vec<_>, Usage>>()?;
    let [fields, from] = needed(Topic::Row, &mut words, [("fields", "FILE"), ("from", "KIND")])?;
    let stream = stream_of_rows(others)?;
    let table = indexed_table(&mut words, fields, &from, &Place::Named(stream.clone()))?;
    if rows.is_empty() {
        return Err("row needs the rows, from 0: a number as 40312, or a range as 40320-40329".into());
    }
    let index = match words.take("index") {
        Some(index) if index == "-" => return Err("--index takes a file: standard input cannot be read from any place".into()),
        Some(index) => PathBuf::from(index),
        None => return Err(advice::for_no_index(&table, &stream, &asked).into()),
    };
    Ok(Command::Row(Fetching { rows, table, stream, index, output: Place::of(words.take("output")) }))
}

/// Digits, or digits, a `-` and digits. Any other word is the name of the stream.
fn looks_like_rows(word: &OsStr) -> bool {
    let mut ends = word.as_bytes().splitn(2, |byte| *byte == b'-');
    ends.all(|digits| !digits.is_empty() && digits.iter().all(u8::is_ascii_digit))
}

fn rows_asked_for(word: &OsStr) -> Result<RangeInclusive<u64>, Usage> {
    let text = word.to_str().unwrap_or_default();
    let (first, last) = text.split_once('-').unwrap_or((text, text));
    match (first.parse(), last.parse()) {
        (Ok(first), Ok(last)) if first <= last => Ok(first..=last),
        (Ok(_), Ok(_)) => Err(format!("a range of rows goes up, and '{text}' goes down: did you mean '{last}-{first}'?").into()),
        _ => Err(format!("no stream has a row '{text}'").into()),
    }
}

/// The one operand that is no row.
fn stream_of_rows(others: Vec<OsString>) -> Result<PathBuf, Usage> {
    match &others[..] {
        [] => Err("row needs the file of the stream as well; a file whose name looks like rows is given as './40312'".into()),
        [stream] if stream.is_empty() => Err("the file of the stream has no name".into()),
        [stream] if stream == "-" => Err("row takes the stream as a file: standard input cannot be read from any place".into()),
        [stream] => Ok(PathBuf::from(stream)),
        [_, second, ..] => {
            Err(format!("row takes rows and one stream, and '{}' is neither a row, nor a range as 40320-40329", shown(second)).into())
        }
    }
}

/// An index has places in bytes: TABLEDATA and base64 would have to be read whole for each row.
fn indexed_table(words: &mut Words, fields: OsString, from: &OsStr, input: &Place) -> Result<Table, Usage> {
    let table = table(words, fields, from, input)?;
    match table {
        Table { from: Rows::TableData, .. } => {
            Err("an index is for BINARY and BINARY2: convert TABLEDATA first, with 'sailmortar convert --to binary2'".into())
        }
        Table { base64_in: true, .. } => {
            Err("an index is of the bytes themselves: decode the base64 first, with 'sailmortar base64 decode INPUT -o OUTPUT'".into())
        }
        table => Ok(table),
    }
}

fn columns(mut words: Words) -> Result<Command, Usage> {
    let fields = words.take("fields");
    let mut places = std::mem::take(&mut words.operands).into_iter().chain(fields);
    match (places.next(), places.next()) {
        (None, _) => Err("columns needs --fields FILE as well".into()),
        (place, None) => Ok(Command::Columns(Place::of(place))),
        _ => Err("columns takes one file".into()),
    }
}

fn kind(option: &str, word: &OsStr) -> Result<Rows, Usage> {
    word.to_str().and_then(Rows::named).ok_or_else(|| format!("{option} takes tabledata, binary or binary2, not '{}'", shown(word)).into())
}

fn base64(mut words: Words) -> Result<Command, Usage> {
    let mut operands = std::mem::take(&mut words.operands).into_iter();
    let way = operands.next().unwrap_or_default();
    let wrap = words.wrap()?;
    match (way.as_bytes(), wrap) {
        (b"encode", _) => Ok(Command::Encode(Encoding { files: words.files(operands)?, wrap: wrap.unwrap_or(0) })),
        (b"decode", None) => Ok(Command::Decode(words.files(operands)?)),
        (b"decode", Some(_)) => Err("--wrap is for base64 encode".into()),
        (b"", _) => Err("say which: base64 encode or base64 decode".into()),
        _ => Err(format!("base64 can encode and decode, not '{}'", shown(&way)).into()),
    }
}

fn explain(words: Words) -> Result<Command, Usage> {
    match &words.operands[..] {
        [] => Ok(Command::Explain(None)),
        [number] => match number.to_str().and_then(|digits| digits.parse().ok()) {
            Some(number) if sailmortar::meaning(number).is_some() => Ok(Command::Explain(Some(number))),
            _ => Err(format!("there is no refusal '{}': they are {}", shown(number), crate::words::range()).into()),
        },
        _ => Err("explain takes one number at most".into()),
    }
}
