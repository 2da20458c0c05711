//! Two inputs compared: which cells differ, and which has more rows. What differs the proved archive decides; this shows it.

use std::io::{self, Write};

use sailmortar::{Comparison, Error, Input as Which, RefusedInput, Rows, ROOM};

use crate::arguments::{Compared, Comparing, Place, Telling, Usage};
use crate::base64::read_rows;
use crate::convert::{rows_before, stream, Fields};
use crate::differing::{Difference, Differing};
use crate::files::{descriptor_named, Input, Trouble};
use crate::output::Output;
use crate::progress::Progress;
use crate::report::{self, shown, Report, Stream, Value};
use crate::shown::counted;
use crate::window::Window;
use crate::{json, side_by_side, End};

/// Bytes of lines that are held before they are written.
const HELD: usize = 1 << 18;

/// Bytes of two inputs that take a while to be compared.
const LONG: usize = 100_000_000;

pub fn compare(comparing: &Comparing, telling: Telling) -> Result<Report, End> {
    judge(comparing, telling).map_err(|end| match end {
        // By its status a refusal is told from nights that differ.
        End::Refused(report) => End::NotCompared(report),
        end => end,
    })
}

fn judge(comparing: &Comparing, telling: Telling) -> Result<Report, End> {
    let fields = Fields::read(&comparing.first.table.fields)?;
    let [mut first, mut second] = open(comparing, &fields)?;
    let output = match comparing.quiet {
        true => None,
        false => Some(open_output(&[&first, &second])?),
    };
    let rows = read_rows(&mut first, comparing.first.table.base64_in).map_err(|end| of_input(0, end))?;
    // Where the second is refused before any row of it is read, the first is still judged before that.
    let (others, refused) = match read_rows(&mut second, comparing.second.table.base64_in) {
        Ok(others) => (others, None),
        Err(End::Refused(report)) => (Vec::new(), Some(of_input(1, End::Refused(report)))),
        Err(end) => return Err(end),
    };
    let pair = Pair {
        fields: &fields,
        first: stream(&first, &fields, &comparing.first.table, Rows::Binary2, Window::whole(&rows)),
        second: Stream { is_second: true, ..stream(&second, &fields, &comparing.second.table, Rows::Binary2, Window::whole(&others)) },
    };
    let compared = pair.compare()?;
    match refused {
        Some(end) => Err(end),
        None => pair.tell(comparing, &compared, telling, output),
    }
}

/// A refusal with the number of its input as a fact.
fn of_input(input: u64, end: End) -> End {
    match end {
        End::Refused(mut report) => {
            report.number("input", input);
            End::Refused(report)
        }
        end => end,
    }
}

/// Both inputs, opened. What one of them has read of a pipe, or of a descriptor's file, the other cannot read.
fn open(comparing: &Comparing, fields: &Fields) -> Result<[Input; 2], End> {
    let first = fields.open_rows(&comparing.first.input)?;
    let second = fields.open_rows(&comparing.second.input)?;
    let is_one_pipe = first.shared().is_some() && first.shared() == second.shared();
    let descriptors = [&comparing.first, &comparing.second].map(descriptor_of);
    match is_one_pipe || descriptors[0].is_some() && descriptors[0] == descriptors[1] {
        true => Err(Usage("the two inputs cannot both come from one pipe, terminal or descriptor".to_string()).into()),
        false => Ok([first, second]),
    }
}

fn descriptor_of(compared: &Compared) -> Option<i32> {
    match &compared.input {
        Place::Standard => Some(0),
        named => descriptor_named(named),
    }
}

/// Standard output, which must be none of the files that are compared.
fn open_output(inputs: &[&Input]) -> Result<Output, Trouble> {
    let output = Output::open(&Place::Standard)?;
    match inputs.iter().any(|input| output.replaces(input.identity())) {
        true => Err(output.trouble(io::Error::other("it is compared as well, and would be written over"))),
        false => Ok(output),
    }
}

/// Two inputs that were read, each whole.
struct Pair<'a> {
    fields: &'a Fields,
    first: Stream<'a>,
    second: Stream<'a>,
}

impl Pair<'_> {
    fn names(&self) -> [String; 2] {
        [self.first.input_name, self.second.input_name].map(shown)
    }

    /// The counts, or the refusal of the one or the other.
    fn compare(&self) -> Result<Comparison, End> {
        let Pair { fields, first, second } = self;
        let (bytes, mut progress) = (first.window.bytes.len() + second.window.bytes.len(), Progress::new());
        if bytes >= LONG {
            progress.announce(|| format!("comparing {} MB", bytes / 1_000_000));
        }
        sailmortar::compare(&fields.decls, first.from, first.window.bytes, second.from, second.window.bytes, &mut [])
            .map_err(|refused| self.refused(&refused))
    }

    /// A refusal of a row as `check` tells it.
    fn refused(&self, RefusedInput { input, refused, .. }: &RefusedInput) -> End {
        let (stream, number) = if *input == Which::Second { (&self.second, 1) } else { (&self.first, 0) };
        if refused.number == 6 {
            return of_input(number, End::Refused(report::too_long(stream.input_name, "")));
        }
        // Converting is refused there, too, and tells where the row begins.
        let decls = &self.fields.decls;
        let refused = match sailmortar::convert_pieces(decls, stream.from, Rows::Binary2, stream.window.bytes, ROOM, |_| Ok(())) {
            Err(Error::Refused(located)) => located,
            _ => *refused,
        };
        let before = match refused.rows {
            0 => "no row stands before it".to_string(),
            rows => format!("{} good", rows_before(rows)),
        };
        let stands = format!("{before}; it was read as {}, and nothing is compared", stream.from);
        of_input(number, End::Refused(report::row(stream, &refused, &stands)))
    }

    /// How many rows both inputs have: all that the first has beyond nothing, but for those that it has beyond the second.
    fn rows_of_both(&self, compared: &Comparison) -> Result<u64, End> {
        let Pair { fields, first, .. } = self;
        let beside_nothing = sailmortar::compare(&fields.decls, first.from, first.window.bytes, first.from, &[], &mut []);
        beside_nothing.map(|all| all.first_beyond - compared.first_beyond).map_err(|refused| self.refused(&refused))
    }

    /// Both were read well before: it is memory that there is too little of.
    fn trouble(&self, error: Error) -> Trouble {
        let cause = match error {
            Error::System(cause) => cause,
            other => io::Error::other(other),
        };
        Trouble::with(self.first.input_name)(cause)
    }

    /// Lists what differs, and says how it ended.
    fn tell(&self, comparing: &Comparing, compared: &Comparison, telling: Telling, output: Option<Output>) -> Result<Report, End> {
        let is_same = compared.is_same();
        if !telling.json && (comparing.quiet || is_same && !telling.verbose) {
            return if is_same { Ok(Report::default()) } else { Err(End::Different(Report::default())) };
        }
        let mut told = Told { pair: self, compared, rows: self.rows_of_both(compared)?, listed: 0 };
        if is_same {
            return Ok(told.same());
        }
        if let Some(output) = output {
            let mut lines = Lines { output, held: String::new(), progress: Progress::new() };
            told.listed = lines.list(self, comparing.limit.min(compared.differing), telling)?;
            if !telling.json {
                lines.held.extend(told.counts().into_iter().map(|line| line + "\n"));
                lines.write()?;
                return Err(End::Different(Report::default()));
            }
        }
        Err(End::Different(Report { lines: told.counts(), facts: told.facts(), is_urgent: false }))
    }
}

/// What is told at the end.
struct Told<'a> {
    pair: &'a Pair<'a>,
    compared: &'a Comparison,
    /// How many rows both inputs have.
    rows: u64,
    listed: u64,
}

impl Told<'_> {
    fn same(&self) -> Report {
        let [first, second] = self.pair.names();
        let cells = self.rows * self.pair.fields.columns.len() as u64;
        let counts = format!("{}, {}", counted(self.rows, "row", "rows"), counted(cells, "cell", "cells"));
        Report { lines: vec![format!("{first} and {second} show the same: {counts}")], facts: self.facts(), is_urgent: false }
    }

    fn facts(&self) -> Vec<(&'static str, Value)> {
        let Comparison { differing, first_beyond, second_beyond, .. } = *self.compared;
        let names = [("first", self.pair.first.input_name), ("second", self.pair.second.input_name)];
        let names = names.map(|(fact, name)| (fact, Value::Text(name.to_string_lossy().into_owned())));
        let counts = [("rows", self.rows), ("differing", differing), ("first_beyond", first_beyond), ("second_beyond", second_beyond)];
        let counts = counts.into_iter().chain([("listed", self.listed)]).map(|(fact, count)| (fact, Value::Number(count)));
        names.into_iter().chain(counts).collect()
    }

    /// How many cells differ, and which input has how many rows more. The names are in every line: lines of many nights may stand in one list.
    fn counts(&self) -> Vec<String> {
        let [first, second] = self.pair.names();
        let cells = format!("{first} and {second}: {}", self.cells());
        let beyond = [(first, self.compared.first_beyond), (second, self.compared.second_beyond)];
        let beyond = beyond.into_iter().filter(|(_, rows)| *rows > 0).map(|(name, rows)| self.more(&name, rows));
        [cells].into_iter().chain(beyond).collect()
    }

    fn cells(&self) -> String {
        let rows = counted(self.rows, "row", "rows");
        let unlisted = match self.compared.differing - self.listed {
            0 => String::new(),
            cells => format!("; {} not listed", counted(cells, "cell is", "cells are")),
        };
        match self.compared.differing {
            _ if self.rows == 0 => "there is no row that both have".to_string(),
            0 => format!("no cell differs in the {rows} that both have"),
            cells => format!("{} in the {rows} that both have{unlisted}", counted(cells, "cell differs", "cells differ")),
        }
    }

    fn more(&self, name: &str, beyond: u64) -> String {
        let last = self.rows + beyond - 1;
        let which = if beyond == 1 { format!("row {last}") } else { format!("rows {} to {last}", self.rows) };
        format!("{name} has {} more: {which}", counted(beyond, "row", "rows"))
    }
}

/// The lines that are listed, on their way to the output.
struct Lines {
    output: Output,
    held: String,
    progress: Progress,
}

impl Lines {
    /// Lists so many cells, the first that differ, and answers how many there were.
    fn list(&mut self, pair: &Pair, most: u64, telling: Telling) -> Result<u64, Trouble> {
        let trouble = |error| pair.trouble(error);
        let (names, mut listed) = (pair.names(), 0);
        let mut differing = Differing::new(&pair.fields.decls, [&pair.first, &pair.second]);
        while listed < most && differing.next_rows().map_err(trouble)? {
            let left = usize::try_from(most - listed).unwrap_or(usize::MAX);
            for place in 0..differing.places().len().min(left) {
                let difference = differing.show(place).map_err(trouble)?;
                self.held += &if telling.json { object(&difference) } else { side_by_side::line(&difference, &names) };
                listed += 1;
                if self.held.len() >= HELD {
                    self.write()?;
                }
            }
            if !self.output.is_terminal() {
                self.progress.tick(|| format!("{listed} of {most} cells listed"));
            }
        }
        self.write()?;
        Ok(listed)
    }

    fn write(&mut self) -> Result<(), Trouble> {
        self.progress.wipe();
        self.output.write_all(self.held.as_bytes()).map_err(|cause| self.output.trouble(cause))?;
        self.held.clear();
        Ok(())
    }
}

/// A cell that differs, as an object on a line.
fn object(difference: &Difference) -> String {
    let mut members = vec![("row", Value::Number(difference.row)), ("column", Value::Number(difference.place as u64))];
    members.extend(difference.column.name.as_ref().map(|name| ("name", Value::Text(name.clone()))));
    members.extend([("first", difference.first.value()), ("second", difference.second.value())]);
    json::object(members.iter().map(|(name, value)| (*name, value))) + "\n"
}
