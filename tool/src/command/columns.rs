//! What declarations are understood as, as a table or as objects.

use sailmortar::Column;

use crate::arguments::{Place, Telling};
use crate::convert::Fields;
use crate::json;
use crate::report::{shown, Report, Value};
use crate::{say, End};

pub fn columns(fields: &Place, telling: Telling) -> Result<Report, End> {
    let fields = Fields::read(fields)?;
    match telling.json {
        true => fields.columns.iter().enumerate().try_for_each(|(place, column)| say(&object(place, column)).map(drop))?,
        false => table(&fields.columns).iter().try_for_each(|line| say(line).map(drop))?,
    }
    Ok(Report::default())
}

fn object(place: usize, column: &Column) -> String {
    let text = |words: &str| Value::Text(words.to_string());
    let mut members = vec![("place", Value::Number(place as u64))];
    members.extend(column.name.as_deref().map(|name| ("name", text(name))));
    members.extend([("datatype", text(column.kind.name())), ("arraysize", text(&column.length.to_string()))]);
    members.extend(column.null.map(|null| ("null", text(&null.to_string()))));
    json::object(members.iter().map(|(name, value)| (*name, value))) + "\n"
}

/// A line for each column under one of titles. Names stand last and are not padded: they may be very long.
fn table(columns: &[Column]) -> Vec<String> {
    let titles = ["place", "datatype", "length", "null", "name"].map(String::from);
    let lines: Vec<_> = [titles].into_iter().chain(columns.iter().enumerate().map(line)).collect();
    let widths: [usize; 4] = std::array::from_fn(|place| lines.iter().map(|line| line[place].len()).max().unwrap_or(0));
    let padded = |line: &[String; 5]| {
        let cells: String = line.iter().zip(widths).map(|(cell, width)| format!("{cell:width$}  ")).collect();
        format!("{cells}{}\n", line[4])
    };
    lines.iter().map(padded).collect()
}

fn line((place, column): (usize, &Column)) -> [String; 5] {
    let null = column.null.map_or("-".to_string(), |null| null.to_string());
    let name = column.name.as_deref().map_or("-".to_string(), |name| shown(name.as_ref()));
    [place.to_string(), column.kind.name().to_string(), column.length.to_string(), null, name]
}
