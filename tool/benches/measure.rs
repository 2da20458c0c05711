//! What the benches share: times of runs that take turns, and the memory that a call takes for itself.

use std::time::Instant;

use sailmortar::Rows;

use crate::table::Night;

/// Each figure is the best of at least so many runs, and of more where they are short.
pub const RUNS: usize = 3;
const SECONDS: f64 = 0.3;

pub const EVERY_KIND: [Rows; 3] = [Rows::TableData, Rows::Binary, Rows::Binary2];

pub fn mega(bytes: usize) -> f64 {
    bytes as f64 / 1e6
}

/// The least time of a few runs, in seconds.
pub fn best(mut run: impl FnMut()) -> f64 {
    best_of([&mut run])[0]
}

/// The least times of several that take turns, so that a slow spell of the machine falls on all of them.
pub fn best_of<const N: usize>(turns: [&mut dyn FnMut(); N]) -> [f64; N] {
    best_of_runs(RUNS, turns)
}

/// The same of so many runs at least: what needs several cores at once finds them free less often.
pub fn best_of_runs<const N: usize>(least_runs: usize, mut turns: [&mut dyn FnMut(); N]) -> [f64; N] {
    let (mut least, mut all, mut runs) = ([f64::INFINITY; N], 0.0, 0);
    while runs < least_runs || all < SECONDS {
        for (turn, least) in turns.iter_mut().zip(&mut least) {
            let start = Instant::now();
            turn();
            let seconds = start.elapsed().as_secs_f64();
            (*least, all) = (least.min(seconds), all + seconds);
        }
        runs += 1;
    }
    least
}

pub fn form(night: &Night, rows: Rows) -> &[u8] {
    match rows {
        Rows::TableData => &night.text,
        Rows::Binary => &night.binary,
        Rows::Binary2 => &night.binary2,
        other => panic!("there is no night in {other}"),
    }
}

pub fn processor() -> String {
    let processor = std::fs::read_to_string("/proc/cpuinfo").unwrap_or_default();
    let name = processor.lines().find_map(|line| line.strip_prefix("model name")).unwrap_or("unknown");
    name.trim_matches(['\t', ':', ' ']).to_string()
}

/// A figure of /proc/self/status, in bytes.
fn status(figure: &str) -> Option<usize> {
    let status = std::fs::read_to_string("/proc/self/status").ok()?;
    let line = status.lines().find_map(|line| line.strip_prefix(figure))?;
    let kilobytes: usize = line.trim_start_matches(':').split_whitespace().next()?.parse().ok()?;
    Some(kilobytes * 1024)
}

/// Four columns of a line: what is lent to a call, what the process held before it, its peak in the call, and what is the call's own of that.
pub fn memory_of(lent: usize, call: impl FnOnce()) -> String {
    // Writing 5 there sets the peak (VmHWM) back to what is held now.
    let is_reset = std::fs::write("/proc/self/clear_refs", "5").is_ok();
    let before = status("VmRSS");
    call();
    match (before, status("VmHWM"), is_reset) {
        (Some(before), Some(peak), true) => {
            let (held, highest, own) = (mega(before), mega(peak), mega(peak.saturating_sub(before)));
            format!("{:.1} | {held:.1} | {highest:.1} | {own:.2}", mega(lent))
        }
        _ => "not told by this system | | |".to_string(),
    }
}
