//! How much faster several cores are than one, from what size on that pays, and in how much memory. Prints Markdown for docs/SPEED.md.
//!
//!     cargo bench --bench threads                                  # a night of 100 MB of text, on all cores
//!     SAILMORTAR_BENCH_MB=20 cargo bench --bench threads           # a shorter one
//!
//! One call goes from a slice to room that is there. A plan reads from a slice, which is copied, while it converts, and its sink copies what it is
//! handed to room that is there. So all have the same input and leave the same output, and a plan has two copies more to make.

// The other benches use more of what is shared.
#[allow(dead_code)]
mod measure;
#[allow(dead_code)]
mod table;

use std::num::NonZero;
use std::process::Command;
use std::thread::available_parallelism;

use measure::{best_of_runs, form, mega, memory_of, processor, EVERY_KIND};
use sailmortar::{Plan, Rows};
use table::Night;

/// Each figure is the best of at least so many runs.
const RUNS: usize = 9;

/// Sizes of text, in thousand bytes.
const SIZES: [usize; 6] = [30, 100, 300, 1_000, 3_000, 10_000];

fn main() {
    let megabytes = std::env::var("SAILMORTAR_BENCH_MB").ok();
    let megabytes: f64 = megabytes.map_or(100.0, |value| value.parse().expect("SAILMORTAR_BENCH_MB: a number of megabytes"));
    let night = table::night((megabytes * 1e6) as usize);
    if let Ok(way) = std::env::var(WAY) {
        return memory_of_way(&night, &way);
    }
    let threads = available_parallelism().map_or(1, NonZero::get);
    println!(
        "A night of {} rows and 20 columns. Processor: {}, {threads} cores; the best of {RUNS} runs or more, which take turns;",
        night.rows,
        processor()
    );
    println!("MB are 10^6 bytes of input.\n");
    nine_ways(&night, threads);
    sizes(threads);
    memory();
}

/// Seconds of one call, of a plan on one thread, and of one on all cores.
fn seconds(night: &Night, from: Rows, to: Rows) -> [f64; 3] {
    let (input, expected) = (form(night, from), form(night, to));
    let [mut out, mut out_of_one, mut out_of_all] = [(); 3].map(|()| vec![0xff; expected.len()]);
    let seconds = best_of_runs(
        RUNS,
        [
            &mut || {
                let done = sailmortar::convert(&night.declarations, from, to, input, &mut out);
                assert_eq!(done.map(|done| done.rows), Ok(night.rows as u64));
            },
            &mut || by_plan(Plan::new().threads(1), night, from, to, &mut out_of_one),
            &mut || by_plan(Plan::new(), night, from, to, &mut out_of_all),
        ],
    );
    assert!([out, out_of_one, out_of_all].iter().all(|out| out == expected), "{from} to {to}");
    seconds
}

/// From a reader to room that is there.
fn by_plan(plan: Plan, night: &Night, from: Rows, to: Rows, out: &mut [u8]) {
    let (input, mut written) = (form(night, from), 0);
    let done = plan.length(input.len() as u64).convert_pieces(&night.declarations, from, to, input, &mut Vec::new(), |piece| {
        out[written..written + piece.bytes.len()].copy_from_slice(piece.bytes);
        written += piece.bytes.len();
        Ok(())
    });
    assert_eq!(done.expect("the night is good").rows, night.rows as u64);
}

fn nine_ways(night: &Night, threads: usize) {
    println!("| from | to | MB | one call MB/s | plan, 1 thread MB/s | plan, {threads} cores MB/s | {threads} cores / one call | {threads} cores / 1 thread |");
    println!("|---|---|--:|--:|--:|--:|--:|--:|");
    for from in EVERY_KIND {
        for to in EVERY_KIND {
            let size = mega(form(night, from).len());
            let [call, one, all] = seconds(night, from, to);
            let [call_speed, one_speed, all_speed] = [call, one, all].map(|seconds| size / seconds);
            println!(
                "| {from} | {to} | {size:.1} | {call_speed:.0} | {one_speed:.0} | {all_speed:.0} | {:.2} | {:.2} |",
                call / all,
                one / all
            );
        }
    }
    println!();
}

fn sizes(threads: usize) {
    println!("| from | to | KB | one call µs | plan, 1 thread µs | plan, {threads} cores µs | {threads} cores / one call | {threads} cores / 1 thread |");
    println!("|---|---|--:|--:|--:|--:|--:|--:|");
    for (from, to) in [(Rows::TableData, Rows::Binary2), (Rows::Binary2, Rows::TableData)] {
        for night in SIZES.map(|size| table::night(1_000 * size)) {
            let size = form(&night, from).len() / 1_000;
            let [call, one, all] = seconds(&night, from, to);
            let [call_time, one_time, all_time] = [call, one, all].map(|seconds| seconds * 1e6);
            println!("| {from} | {to} | {size} | {call_time:.0} | {one_time:.0} | {all_time:.0} | {:.2} | {:.2} |", call / all, one / all);
        }
    }
    println!();
}

/// What a plan takes for itself on all cores, where its sink throws away what it is handed: each way in a process of its own, since memory that one has
/// given back is at hand for the next.
fn memory() {
    println!("| from | to | lent MB (input) | process before MB | peak in the call MB | the plan's own MB |");
    println!("|---|---|--:|--:|--:|--:|");
    for from in EVERY_KIND {
        for to in EVERY_KIND {
            let mut process = Command::new(std::env::current_exe().expect("this program"));
            let output = process.env(WAY, format!("{from} {to}")).output().expect("it runs");
            println!("| {from} | {to} | {} |", String::from_utf8_lossy(&output.stdout).trim());
        }
    }
}

/// Names a way to a process of its own.
const WAY: &str = "SAILMORTAR_BENCH_WAY";

fn memory_of_way(night: &Night, way: &str) {
    let (from, to) = way.split_once(' ').and_then(|(from, to)| Some((Rows::named(from)?, Rows::named(to)?))).expect("a way");
    let input = form(night, from);
    let figures = memory_of(input.len(), || {
        let plan = Plan::new().length(input.len() as u64);
        let done = plan.convert(&night.declarations, from, to, input, std::io::sink());
        assert_eq!(done.expect("the night is good").rows, night.rows as u64);
    });
    println!("{figures}");
}
