//! The base64 step by itself, and what stands behind base64 for a conversion.

use std::ffi::OsStr;
use std::io::{self, Write};

use sailmortar::{Base64Writer, Error, INPUT_LIMIT};

use crate::arguments::{Encoding, Files, Usage};
use crate::files::{Input, Trouble};
use crate::output::Output;
use crate::progress::Progress;
use crate::report::{self, shown, Report, Value};
use crate::shown::counted;
use crate::End;

pub fn encode(encoding: &Encoding) -> Result<Report, End> {
    let (mut input, mut output) = open(&encoding.files)?;
    let bytes = read(&mut input, "")?;
    if sailmortar::within_limit(&bytes).is_err() {
        return Err(End::Refused(report::too_long(&input.name, "")));
    }
    let letters = Base64Writer::new(&mut output, encoding.wrap).and_then(|mut letters| {
        letters.write_all(&bytes)?;
        letters.finish().map(drop)
    });
    letters.map_err(|cause| output.trouble(cause))?;
    accepted(&input, "encoded", output)
}

pub fn decode(files: &Files) -> Result<Report, End> {
    let (mut input, mut output) = open(files)?;
    if !files.output_is_said && output.is_terminal() {
        return Err(not_to_a_terminal("what base64 stands for").into());
    }
    let text = read(&mut input, STEP)?;
    let bytes = decoded(&input.name, text)?;
    output.write_all(&bytes).map_err(|cause| output.trouble(cause))?;
    accepted(&input, "decoded", output)
}

/// What a message says of the step.
const STEP: &str = " in the base64 step";

fn open(files: &Files) -> Result<(Input, Output), End> {
    let (input, output) = (Input::open(&files.input)?, Output::open(&files.output)?);
    output.keep_off(&[input.identity()])?;
    Ok((input, output))
}

/// All is good. That a file is replaced by nothing at all is said even where no one asked.
fn accepted(input: &Input, done: &str, mut output: Output) -> Result<Report, End> {
    let is_urgent = input.read == 0 && output.replaces_something();
    output.finish()?;
    let [read, written] = [input.read as u64, output.written].map(|bytes| counted(bytes, "byte", "bytes"));
    let line = format!("{}: {read} {done}, {written} written to {}", shown(&input.name), shown(&output.name));
    let facts = [("read", input.read as u64), ("bytes", output.written)].map(|(name, number)| (name, Value::Number(number)));
    Ok(Report { lines: vec![line], facts: facts.to_vec(), is_urgent })
}

/// Someone who forgot `-o` has a screen full of letters, and a terminal that acts on some of them.
pub fn not_to_a_terminal(what: &str) -> Usage {
    format!("{what} is no text, and standard output is a terminal: give '-o FILE', or '-o -' to write it here all the same").into()
}

/// All of the input; `step` says which step is to read it.
pub fn read(input: &mut Input, step: &str) -> Result<Vec<u8>, End> {
    if input.is_over(INPUT_LIMIT) {
        return Err(End::Refused(report::too_long(&input.name, step)));
    }
    let mut progress = Progress::new();
    Ok(input.read(INPUT_LIMIT, |bytes| progress.tick(|| format!("{} MB read", bytes / 1_000_000)))?)
}

/// The rows of an input, base64 taken off where it is said to be base64. The text is dropped here, so that it takes no memory from then on.
pub fn read_rows(input: &mut Input, base64: bool) -> Result<Vec<u8>, End> {
    match base64 {
        true => read(input, STEP).and_then(|text| decoded(&input.name, text)),
        false => read(input, ""),
    }
}

fn decoded(name: &OsStr, text: Vec<u8>) -> Result<Vec<u8>, End> {
    let mut bytes = Vec::new();
    match sailmortar::base64_decode_to_vec(&text, &mut bytes) {
        Ok(_) => Ok(bytes),
        Err(Error::Refused(refused)) => Err(End::Refused(report::base64(name, &text, &refused))),
        Err(Error::System(cause)) => Err(Trouble::with(name)(cause).into()),
        Err(other) => Err(Trouble::with(name)(io::Error::other(other)).into()),
    }
}
