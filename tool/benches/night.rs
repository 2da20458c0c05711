//! How fast, and with how much memory: the nine ways and base64 on a generated night, beside a plain converter in the
//! same run. Prints Markdown for docs/SPEED.md.
//!
//!     cargo bench                                  # a night of 100 MB of text
//!     SAILMORTAR_BENCH_MB=5 cargo bench            # a shorter one
//!     RUSTFLAGS=-Ctarget-cpu=native cargo bench    # the plain converter compiled for this very machine
//!
//! The plain converter is compiled as cargo bench compiles everything here (opt-level 3, any x86-64). The last of the
//! three lines above makes it faster on most machines, and nothing else: the proved archive is the same in all three.
//! Unlike Sailmortar the plain one trusts its input and its room, so the ratio is also the price of every check.
//!
//! Beside an earlier version, whose build proves it and makes its shared library, and which takes turns with this one:
//!
//!     git worktree add ../before COMMIT && (cd ../before && cargo build)
//!     SAILMORTAR_BENCH_BEFORE=../before/target/library/libsailmortar.so.0 cargo bench --bench night
//!     git worktree remove ../before

mod base64;
mod before;
mod measure;
mod plain;
// The other benches have nights of other rows, or with fewer columns.
#[allow(dead_code)]
mod table;

use before::Versions;
use measure::{best, best_of, form, mega, memory_of, processor, EVERY_KIND, RUNS};
use sailmortar::Rows;
use table::Night;

fn main() {
    let megabytes = std::env::var("SAILMORTAR_BENCH_MB").ok();
    let megabytes: f64 = megabytes.map_or(100.0, |value| value.parse().expect("SAILMORTAR_BENCH_MB: a number of megabytes"));
    let size = (megabytes * 1e6) as usize;
    let versions = Versions::of_environment();
    let versions = versions.as_ref();
    let night = table::night(size);
    heading(&night, versions);
    // First, while the stack has not been used yet; it is told last.
    let memory = memory(&night);
    nine_ways(&night, versions);
    one_columns(versions);
    line_ends(&table::night(size / 10));
    base64::tables(&night.binary2, versions);
    growth(&night, size);
    println!("{memory}");
}

fn heading(night: &Night, versions: Option<&Versions>) {
    let [text, binary, binary2] = [&night.text, &night.binary, &night.binary2].map(|rows| mega(rows.len()));
    println!("A night of {} rows and 20 columns: TABLEDATA {text:.1} MB, BINARY {binary:.1} MB, BINARY2 {binary2:.1} MB.", night.rows);
    println!("Processor: {}; one thread; the best of {RUNS} runs or more; MB are 10^6 bytes of input.\n", processor());
    if let Some(Versions { now, before }) = versions {
        println!("Sailmortar, where a version before stands beside it: {}; before: {}.\n", now.file.display(), before.file.display());
    }
}

fn plainly(rows: Rows) -> plain::Rows {
    match rows {
        Rows::TableData => plain::Rows::TableData,
        Rows::Binary => plain::Rows::Binary,
        Rows::Binary2 => plain::Rows::Binary2,
        other => panic!("there is no night in {other}"),
    }
}

fn nine_ways(night: &Night, versions: Option<&Versions>) {
    let [names, rules] = before::columns(versions);
    println!("| from | to | MB | Sailmortar MB/s | plain MB/s | Sailmortar / plain | Sailmortar, thousand rows/s |{names}");
    println!("|---|---|--:|--:|--:|--:|--:|{rules}");
    for from in EVERY_KIND {
        for to in EVERY_KIND {
            let size = mega(form(night, from).len());
            let [ours, plain, before] = convert_in_turn(night, from, to, versions);
            let (speed, plain_speed, ratio) = (size / ours, size / plain, plain / ours);
            let (rows, beside_before) = (night.rows as f64 / ours / 1e3, before::figures(versions, size, [ours, before]));
            println!("| {from} | {to} | {size:.1} | {speed:.0} | {plain_speed:.0} | {ratio:.2} | {rows:.0} |{beside_before}");
        }
    }
    println!();
}

/// Tables of one column, in three of the ways: there is one cell to a row, so that what a row costs by itself counts for as much.
fn one_columns(versions: Option<&Versions>) {
    const WAYS: [(Rows, Rows); 3] = [(Rows::TableData, Rows::Binary2), (Rows::Binary2, Rows::TableData), (Rows::Binary, Rows::Binary2)];
    let heads = WAYS.map(|(from, to)| format!(" {from} to {to}, ns a row | / plain |{}", versions.map_or("", |_| " / before |")));
    println!("| a row of |{}", heads.concat());
    println!("|---|{}", WAYS.map(|_| versions.map_or("--:|--:|", |_| "--:|--:|--:|")).concat());
    for (name, table) in table::one_columns(20_000) {
        let figures = WAYS.map(|(from, to)| {
            let [ours, plain, before] = convert_in_turn(&table, from, to, versions);
            let beside = versions.map_or(String::new(), |_| format!(" {:.2} |", before / ours));
            format!(" {:.1} | {:.2} |{beside}", ours * 1e9 / table.rows as f64, plain / ours)
        });
        println!("| {name} |{}", figures.concat());
    }
    println!();
}

/// Seconds of Sailmortar, of the plain converter and of the version before for one way; what each has written is looked at.
fn convert_in_turn(night: &Night, from: Rows, to: Rows, versions: Option<&Versions>) -> [f64; 3] {
    let (input, expected) = (form(night, from), form(night, to));
    let columns = plain::columns(std::str::from_utf8(&night.declarations).expect("ASCII"));
    let mut outputs = [(); 3].map(|()| vec![0xff; expected.len()]);
    let [out, plain_out, before_out] = &mut outputs;
    let whole = (night.rows, expected.len());
    let seconds = best_of([
        &mut || match versions {
            Some(versions) => assert_eq!(versions.now.convert(&night.declarations, from, to, input, out), Some(whole)),
            None => convert(night, from, to, out),
        },
        // Sound here: the night is valid, and the room is that of its other form.
        &mut || assert_eq!(unsafe { plain::convert(&columns, plainly(from), plainly(to), input, plain_out) }, whole),
        &mut || {
            if let Some(versions) = versions {
                assert_eq!(versions.before.convert(&night.declarations, from, to, input, before_out), Some(whole));
            }
        },
    ]);
    before::assert_written(versions, &outputs, expected, &format!("{from} to {to}"));
    seconds
}

fn convert(night: &Night, from: Rows, to: Rows, out: &mut [u8]) {
    let answer = sailmortar::convert(&night.declarations, from, to, form(night, from), out);
    assert_eq!(answer.map(|done| done.rows), Ok(night.rows as u64));
}

/// A shorter night with line ends in its texts, each of them a 10 and then a 13 10: both are the same rows.
fn line_ends(night: &Night) {
    println!("| line ends, TABLEDATA to BINARY2 | MB | Sailmortar MB/s | plain MB/s | Sailmortar / plain | Sailmortar, thousand rows/s |");
    println!("|---|--:|--:|--:|--:|--:|");
    let columns = plain::columns(std::str::from_utf8(&night.declarations).expect("ASCII"));
    let mut outputs = Vec::new();
    for (name, line_end) in [("10", "\n"), ("13 10", "\r\n")] {
        let text = table::with_line_ends(&night.text, line_end);
        // A space is a byte of text as a 10 is: there is as much to write as without line ends.
        let (mut out, mut plain_out) = (vec![0xff; night.binary2.len()], vec![0xff; night.binary2.len()]);
        let [ours, plain] = best_of([
            &mut || assert!(sailmortar::convert(&night.declarations, Rows::TableData, Rows::Binary2, &text, &mut out).is_ok()),
            &mut || {
                // Sound here: the rows are valid, and the room is what they take.
                let (rows, _) = unsafe { plain::convert(&columns, plain::Rows::TableData, plain::Rows::Binary2, &text, &mut plain_out) };
                assert_eq!(rows, night.rows);
            },
        ]);
        let (size, rows) = (mega(text.len()), night.rows as f64 / ours / 1e3);
        println!("| {name} | {size:.1} | {:.0} | {:.0} | {:.2} | {rows:.0} |", size / ours, size / plain, plain / ours);
        outputs.extend([out, plain_out]);
    }
    assert!(outputs.windows(2).all(|pair| pair[0] == pair[1]), "a line end of 13 10 is read as a 10 is");
    println!();
}

/// The same two ways on a hundredth, a tenth and all of the size: in a straight line the last column stays the same.
fn growth(night: &Night, size: usize) {
    println!("| from | to | MB | seconds | ns for each byte |");
    println!("|---|---|--:|--:|--:|");
    let [short, middling] = [100, 10].map(|part| table::night(size / part));
    for (from, to) in [(Rows::TableData, Rows::Binary2), (Rows::Binary2, Rows::TableData)] {
        for night in [&short, &middling, night] {
            let bytes = form(night, from).len();
            let mut out = vec![0xff; form(night, to).len()];
            let seconds = best(|| convert(night, from, to, &mut out));
            let each = seconds * 1e9 / bytes as f64;
            println!("| {} | {} | {:.2} | {seconds:.4} | {each:.2} |", from.name(), to.name(), mega(bytes));
        }
    }
    println!();
}

/// What a call takes for itself: the peak while it runs against what the process held before, lent buffers included.
fn memory(night: &Night) -> String {
    let mut lines = vec![
        "| from | to | lent MB (input and room) | process before MB | peak in the call MB | the call's own MB |".to_string(),
        "|---|---|--:|--:|--:|--:|".to_string(),
    ];
    for (from, to) in [(Rows::TableData, Rows::Binary2), (Rows::Binary2, Rows::TableData)] {
        let mut out = vec![0xff; form(night, to).len()];
        let figures = memory_of(form(night, from).len() + out.len(), || convert(night, from, to, &mut out));
        lines.push(format!("| {} | {} | {figures} |", from.name(), to.name()));
    }
    lines.join("\n")
}
