//! Rows of a stream by its index, as lines of TABLEDATA: only the part of the stream is read in which a row stands.

use std::fs::File;
use std::io::{self, ErrorKind, Write};

use sailmortar::{Error, IndexedRows, Misfit, Refused, Rows, ROWS_PER_START};

use crate::advice;
use crate::arguments::{Fetching, Place, Usage};
use crate::binary::row_start;
use crate::convert::{done_well, named, refused_row, refused_with, stream, Fields, Stands};
use crate::files::{Input, Trouble};
use crate::output::Output;
use crate::report::{self, shown, Report};
use crate::shown::counted;
use crate::window::Window;
use crate::End;

const PAST_THE_END: u64 = 20;

/// Bytes of lines that are held before they are written.
const HELD: usize = 1 << 20;

type Found<'a> = IndexedRows<'a, &'a File, &'a File>;

pub fn row(fetching: &Fetching) -> Result<Report, End> {
    let fields = Fields::read(&fetching.table.fields)?;
    let input = open_stream(fetching)?;
    let index = open_index(fetching)?;
    let mut output = Output::open_apart(&fetching.output, &[fields.identity, input.identity(), index.identity()], "what row writes")?;
    let opened = IndexedRows::open(&fields.decls, fetching.table.from, input.file(), index.file());
    let mut rows = opened.map_err(|error| not_opened(fetching, &input, &index, error))?;
    let mut lines = Lines { output: &mut output, held: Vec::new(), rows: 0, bytes: 0 };
    match lines.fetch(&mut rows, fetching) {
        Ok(()) => {
            let (read, done) = (rows.read(), lines.rows);
            output.finish()?;
            Ok(done_well(&input, read, done, &output))
        }
        Err(Stop::Refused(refused)) => {
            let stands = lines.keep();
            let mut refused = refused;
            (refused.rows, refused.bytes) = (lines.rows, lines.bytes);
            Err(refused_one(fetching, &fields, &input, &rows, refused, stands))
        }
        Err(Stop::Misfit(misfit)) => Err(misfitting(fetching, &index, misfit, output.has_gone_out())),
        Err(Stop::Trouble(trouble)) => Err(trouble.into()),
        Err(Stop::System(cause)) => Err(Trouble::with(&input.name)(cause).into()),
    }
}

/// Why no further row is fetched.
enum Stop {
    Refused(Refused),
    Misfit(Misfit),
    /// With the output.
    Trouble(Trouble),
    /// With the stream or its index.
    System(io::Error),
}

/// The lines of the rows that were asked for, on their way to the output.
struct Lines<'a> {
    output: &'a mut Output,
    held: Vec<u8>,
    rows: u64,
    bytes: u64,
}

impl Lines<'_> {
    fn fetch(&mut self, rows: &mut Found, fetching: &Fetching) -> Result<(), Stop> {
        for row in fetching.rows.iter().cloned().flatten() {
            let done = rows.fetch(row, &mut self.held).map_err(|error| match error {
                Error::Refused(refused) => Stop::Refused(refused),
                Error::Misfit(misfit) => Stop::Misfit(misfit),
                Error::System(cause) => Stop::System(cause),
                other => Stop::System(io::Error::other(other)),
            })?;
            (self.rows, self.bytes) = (self.rows + done.rows, self.bytes + done.bytes);
            if self.held.len() >= HELD {
                self.write().map_err(Stop::Trouble)?;
            }
        }
        self.write().map_err(Stop::Trouble)
    }

    fn write(&mut self) -> Result<(), Trouble> {
        self.output.write_all(&self.held).map_err(|cause| self.output.trouble(cause))?;
        self.held.clear();
        Ok(())
    }

    /// A row is refused: those that were asked for before it stand.
    fn keep(&mut self) -> Result<Stands, Trouble> {
        if self.rows == 0 {
            return Ok(Stands::nothing(self.output));
        }
        self.write()?;
        self.output.finish()?;
        let (rows, are) = (counted(self.rows, "row", "rows"), if self.rows == 1 { "is" } else { "are" });
        let words = format!("the {rows} asked for before it {are} written to {}", shown(&self.output.name));
        Ok(Stands { words, facts: vec![named("output", self.output)] })
    }
}

/// The stream, which has to be a plain file: a row is looked up in it and not waited for.
fn open_stream(fetching: &Fetching) -> Result<Input, End> {
    let input = Input::open(&Place::Named(fetching.stream.clone()))?;
    match input.identity() {
        Some(_) => Ok(input),
        None => {
            Err(Usage(format!("row takes the stream as a file, and {} is none: it cannot be read from any place", shown(&input.name)))
                .into())
        }
    }
}

/// Where there is no index yet, the words say how to build it.
fn open_index(fetching: &Fetching) -> Result<Input, End> {
    let index = fetching.index.as_os_str();
    match std::fs::metadata(index) {
        Err(cause) if cause.kind() == ErrorKind::NotFound => {
            let build = advice::to_build(&fetching.table, &fetching.stream, index);
            Err(Trouble::with(index)(io::Error::other(format!("there is no such index; build it with '{build}'"))).into())
        }
        _ => Ok(Input::open(&Place::Named(fetching.index.clone()))?),
    }
}

fn not_opened(fetching: &Fetching, input: &Input, index: &Input, error: Error) -> End {
    match error {
        Error::Refused(refused) if refused.number == 6 => End::Refused(report::too_long(&input.name, "")),
        Error::Misfit(misfit) => misfitting(fetching, index, misfit, false),
        Error::System(cause) => Trouble::with(&index.name)(cause).into(),
        other => Trouble::with(&input.name)(io::Error::other(other)).into(),
    }
}

/// What is no index may be a night that was named by mistake: the words do not say to write over it.
fn misfitting(fetching: &Fetching, index: &Input, misfit: Misfit, has_gone_out: bool) -> End {
    let name = match misfit {
        Misfit::NoIndex => advice::name_for_index(&fetching.stream),
        _ => fetching.index.clone().into_os_string(),
    };
    let build = advice::to_build(&fetching.table, &fetching.stream, &name);
    let stands = if has_gone_out { "what it gave so far is not to be trusted" } else { "nothing is written" };
    End::Refused(report::misfit(&index.name, misfit, stands, &build))
}

fn refused_one(
    fetching: &Fetching,
    fields: &Fields,
    input: &Input,
    rows: &Found,
    mut refused: Refused,
    stands: Result<Stands, Trouble>,
) -> End {
    let Some((bytes, start)) = rows.part().filter(|_| refused.number != PAST_THE_END) else {
        let check = advice::to_check(&fetching.table, &fetching.stream);
        return refused_with(stands, |words| report::past_the_end(&input.name, rows.of(), &refused, &check, words));
    };
    let stream = stream(input, fields, &fetching.table, Rows::TableData, Window::whole(bytes));
    refused.offset = row_start(&stream, start, refused.row % ROWS_PER_START);
    refused_row(&stream, &refused, stands)
}
