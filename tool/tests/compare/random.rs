//! What the command lists of random nights, beside what the model says of them: every place, and every cell as TABLEDATA has it.

use crate::generate::cells::{cell, null_has_a_form_in_binary};
use crate::generate::columns::{declarations, some};
use crate::generate::rows::{spelled, table, Table};
use crate::generate::Random;
use crate::model::converter::{write_row, Rows, EVERY_KIND_OF_ROWS};
use crate::model::{Cell, Column};
use crate::shell::Scratch;

/// Two tables of the same columns, of which about a third of the cells are others.
fn tables(random: &mut Random, columns: &[Column], kind: Rows) -> [Table; 2] {
    let (count, other_count) = (random.below(30), random.below(30));
    let rows = table(random, columns, kind, count.max(other_count));
    let mut others = rows.clone();
    for cells in &mut others {
        for (place, column) in columns.iter().enumerate() {
            if random.one_in(3) {
                cells[place] = cell(random, column, kind);
            }
        }
    }
    [rows[..count].to_vec(), others[..other_count].to_vec()]
}

/// A cell as an object has it: as the model writes it, but for characters that have no form.
fn value(column: &Column, cell: &Cell) -> Option<String> {
    match cell {
        Cell::Null => return Some("null".to_string()),
        Cell::Shown(elements) if elements.is_empty() => return Some("\"\"".to_string()),
        Cell::Shown(_) => {}
    }
    let line = write_row(&[*column], Rows::TableData, std::slice::from_ref(cell)).ok()?;
    let line = String::from_utf8(line).expect("ASCII");
    let text = line.strip_prefix("<TR><TD>")?.strip_suffix("</TD></TR>\n")?;
    let quoted = |letter: char| match letter {
        '"' | '\\' => format!("\\{letter}"),
        ' '..='~' => letter.to_string(),
        _ => format!("\\u{:04x}", letter as u32),
    };
    Some(format!("\"{}\"", text.chars().map(quoted).collect::<String>()))
}

/// The lines of objects for two tables; of a cell that the model does not write only the start is told.
fn lines(columns: &[Column], [first, second]: &[Table; 2]) -> Vec<String> {
    let mut lines = Vec::new();
    for (row, (cells, others)) in first.iter().zip(second).enumerate() {
        for (place, column) in columns.iter().enumerate().filter(|(place, _)| cells[*place] != others[*place]) {
            let start = format!("{{\"row\":{row},\"column\":{place},\"first\":");
            lines.push(match (value(column, &cells[place]), value(column, &others[place])) {
                (Some(one), Some(other)) => format!("{start}{one},\"second\":{other}}}"),
                _ => start,
            });
        }
    }
    lines
}

#[test]
fn every_place_and_every_cell_as_the_model_has_them() {
    let scratch = Scratch::new("compare_random");
    let mut listed = 0;
    for seed in 0..150 {
        let mut random = Random::new(seed);
        let kinds = [random.pick(&EVERY_KIND_OF_ROWS), random.pick(&EVERY_KIND_OF_ROWS)];
        let kind = if kinds[0] == kinds[1] { kinds[0] } else { Rows::TableData };
        let mut columns = some(&mut random, 1, 10);
        columns.retain(|column| kind == kinds[0] && kind == kinds[1] || null_has_a_form_in_binary(column));
        if columns.is_empty() {
            continue;
        }
        let tables = tables(&mut random, &columns, kind);
        scratch.put("f", &declarations(&columns));
        scratch.put("a", &spelled(&mut random, &columns, kinds[0], &tables[0]));
        scratch.put("b", &spelled(&mut random, &columns, kinds[1], &tables[1]));
        let name = |rows: Rows| format!("{rows:?}");
        let said = scratch.run(&format!("compare --json --fields f --from {} a --and {} b", name(kinds[0]), name(kinds[1])));
        let (out, expected) = (String::from_utf8(said.out).expect("text"), lines(&columns, &tables));
        assert_eq!(out.lines().count(), expected.len(), "seed {seed}: {}", said.err);
        for (line, expected) in out.lines().zip(&expected) {
            assert!(line == expected || !expected.ends_with('}') && line.starts_with(expected), "seed {seed}: {line} is no {expected}");
        }
        let is_same = expected.is_empty() && tables[0].len() == tables[1].len();
        assert_eq!(said.status, i32::from(!is_same), "seed {seed}");
        listed += expected.len();
    }
    assert!(listed > 1_000, "{listed}");
}
