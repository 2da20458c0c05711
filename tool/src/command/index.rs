//! The index of a stream, from file to file.

use std::io;

use sailmortar::{Error, Index, Rows, Stopped};

use crate::arguments::Indexing;
use crate::base64::{not_to_a_terminal, read_rows};
use crate::convert::{done_well, named, refused_row, stream, Fields, Stands};
use crate::files::Trouble;
use crate::output::Output;
use crate::report::{self, shown, Report};
use crate::shown::counted;
use crate::window::Window;
use crate::End;

pub fn index(indexing: &Indexing) -> Result<Report, End> {
    let (table, files) = (&indexing.table, &indexing.files);
    let fields = Fields::read(&table.fields)?;
    let mut input = fields.open_rows(&files.input)?;
    let mut output = Output::open_apart(&files.output, &[fields.identity, input.identity()], "an index")?;
    if !files.output_is_said && output.is_terminal() {
        return Err(not_to_a_terminal("an index").into());
    }
    let rows = read_rows(&mut input, false)?;
    match Index::build(&fields.decls, table.from, &rows) {
        Ok(index) => {
            let is_urgent = input.read == 0 && output.replaces_something();
            write(&index, &mut output)?;
            Ok(Report { is_urgent, ..done_well(&input, input.read as u64, index.of().rows, &output) })
        }
        Err(Stopped { error: Error::Refused(refused), .. }) if refused.number == 6 => Err(End::Refused(report::too_long(&input.name, ""))),
        Err(Stopped { error: Error::Refused(mut refused), index, .. }) => {
            let stands = keep(&index, &mut output);
            refused.bytes = output.written;
            // Reading alone refuses here, whatever the rows may go to later.
            Err(refused_row(&stream(&input, &fields, table, Rows::Binary2, Window::whole(&rows)), &refused, stands))
        }
        Err(Stopped { error: Error::System(cause), .. }) => Err(Trouble::with(&input.name)(cause).into()),
        Err(Stopped { error, .. }) => Err(Trouble::with(&input.name)(io::Error::other(error)).into()),
    }
}

fn write(index: &Index, output: &mut Output) -> Result<(), Trouble> {
    index.write(&mut *output).map_err(|cause| output.trouble(cause))?;
    output.finish()
}

/// A row is refused: the rows before it are there to be fetched.
fn keep(index: &Index, output: &mut Output) -> Result<Stands, Trouble> {
    let rows = index.of().rows;
    if rows == 0 {
        return Ok(Stands::nothing(output));
    }
    write(index, output)?;
    let words = format!("the index of the {} before it is written to {}", counted(rows, "row", "rows"), shown(&output.name));
    Ok(Stands { words, facts: vec![named("output", output)] })
}
