//! How fast two nights are compared, beside converting one of them in the same run, and with how much memory. Prints Markdown for docs/SPEED.md.
//!
//!     cargo bench --bench compare                          # nights of 100 MB of text
//!     SAILMORTAR_BENCH_MB=5 cargo bench --bench compare    # shorter ones
//!
//! Speeds are bytes of the first night for each second, of comparing too, although it reads a second night of about as many: at the same speed
//! as a conversion it would take as long as that. The nights stand apart in memory, also where they are the same.

#[allow(dead_code)]
mod measure;
// The other bench has line ends in its night.
#[allow(dead_code)]
mod table;

use measure::{best, best_of, form, mega, memory_of, processor, EVERY_KIND, RUNS};
use sailmortar::{Comparison, Place, Rows};
use table::Night;

/// Of each kind beside its own, and bytes beside the text that they go out as.
const PAIRS: [[Rows; 2]; 5] = [
    [Rows::TableData, Rows::TableData],
    [Rows::Binary, Rows::Binary],
    [Rows::Binary2, Rows::Binary2],
    [Rows::Binary2, Rows::TableData],
    [Rows::TableData, Rows::Binary2],
];

fn main() {
    let megabytes = std::env::var("SAILMORTAR_BENCH_MB").ok();
    let megabytes: f64 = megabytes.map_or(100.0, |value| value.parse().expect("SAILMORTAR_BENCH_MB: a number of megabytes"));
    let size = (megabytes * 1e6) as usize;
    let [night, copy] = [size; 2].map(table::night);
    heading(&night);
    // First, while the stack has not been used yet; it is told last.
    let memory = memory(&night, &copy);
    speeds(&night, [("the same", copy), ("one cell apart", one_cell_apart(size)), ("all rows apart", table::another_night(size))]);
    growth(size);
    println!("{memory}");
}

fn heading(night: &Night) {
    let [text, binary, binary2] = EVERY_KIND.map(|kind| mega(form(night, kind).len()));
    println!("A night of {} rows and 20 columns: TABLEDATA {text:.1} MB, BINARY {binary:.1} MB, BINARY2 {binary2:.1} MB.", night.rows);
    println!("Processor: {}; one thread; the best of {RUNS} runs or more; MB are 10^6 bytes of the first night.\n", processor());
}

/// The same night but for the last cell of its last row: another last digit, and the lowest bit.
fn one_cell_apart(size: usize) -> Night {
    let mut night = table::night(size);
    let digit = night.text.len() - b"</TD></TR>\n".len() - 1;
    night.text[digit] ^= 1;
    for bytes in [&mut night.binary, &mut night.binary2] {
        *bytes.last_mut().expect("the night has rows") ^= 1;
    }
    night
}

/// Compares with room for one place.
fn compare(night: &Night, other: &Night, [first, second]: [Rows; 2]) -> Comparison {
    let mut places = [Place::default(); 1];
    let compared = sailmortar::compare(&night.declarations, first, form(night, first), second, form(other, second), &mut places);
    let compared = compared.expect("both nights are good");
    assert_eq!(compared.places as u64, compared.differing.min(1));
    compared
}

fn speeds(night: &Night, others: [(&str, Night); 3]) {
    println!("| first | second | nights | cells that differ | MB | compare MB/s | to TABLEDATA MB/s | to BINARY MB/s | to BINARY2 MB/s | compare / convert |");
    println!("|---|---|---|--:|--:|--:|--:|--:|--:|--:|");
    for (name, other) in &others {
        for pair in PAIRS {
            println!("{}", speed(night, name, other, pair));
        }
    }
    println!();
}

/// A line: comparing takes turns with converting the first night to each kind; the last column has the ratio to each of the three.
fn speed(night: &Night, name: &str, other: &Night, pair: [Rows; 2]) -> String {
    let [first, second] = pair;
    let mut compared = Comparison::default();
    let [mut text, mut binary, mut binary2] = EVERY_KIND.map(|to| vec![0xff; form(night, to).len()]);
    let [comparing, converting @ ..] = best_of([
        &mut || compared = compare(night, other, pair),
        &mut || convert(night, first, Rows::TableData, &mut text),
        &mut || convert(night, first, Rows::Binary, &mut binary),
        &mut || convert(night, first, Rows::Binary2, &mut binary2),
    ]);
    assert_eq!(compared.is_same(), name == "the same");
    let size = mega(form(night, first).len());
    let speeds = converting.map(|seconds| format!("{:.0}", size / seconds)).join(" | ");
    let ratios = converting.map(|seconds| format!("{:.2}", seconds / comparing)).join(", ");
    let (differing, speed) = (compared.differing, size / comparing);
    format!("| {} | {} | {name} | {differing} | {size:.1} | {speed:.0} | {speeds} | {ratios} |", first.name(), second.name())
}

fn convert(night: &Night, from: Rows, to: Rows, out: &mut [u8]) {
    let answer = sailmortar::convert(&night.declarations, from, to, form(night, from), out);
    assert_eq!(answer.map(|done| done.rows), Ok(night.rows as u64));
}

/// The same on a hundredth, a tenth and all of the size: in a straight line the last column stays the same.
fn growth(size: usize) {
    println!("| first | second | MB | seconds | ns for each byte |");
    println!("|---|---|--:|--:|--:|");
    let nights = [100, 10, 1].map(|part| [size / part; 2].map(table::night));
    for pair in PAIRS {
        for [night, copy] in &nights {
            let bytes = form(night, pair[0]).len();
            let seconds = best(|| assert!(compare(night, copy, pair).is_same()));
            let each = seconds * 1e9 / bytes as f64;
            println!("| {} | {} | {:.2} | {seconds:.4} | {each:.2} |", pair[0].name(), pair[1].name(), mega(bytes));
        }
    }
    println!();
}

/// What a call takes for itself: the peak while it runs against what the process held before, both nights included.
fn memory(night: &Night, copy: &Night) -> String {
    let mut lines = vec![
        "| first | second | lent MB (both nights) | process before MB | peak in the call MB | the call's own MB |".to_string(),
        "|---|---|--:|--:|--:|--:|".to_string(),
    ];
    for pair in PAIRS {
        let lent = form(night, pair[0]).len() + form(copy, pair[1]).len();
        let figures = memory_of(lent, || assert!(compare(night, copy, pair).is_same()));
        lines.push(format!("| {} | {} | {figures} |", pair[0].name(), pair[1].name()));
    }
    lines.join("\n")
}
