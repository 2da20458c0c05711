//! How fast an index is built, and a row fetched by it, on streams of several sizes. Prints Markdown for docs/SPEED.md.
//!
//!     cargo bench --bench index                                            # 1 MB and 20 MB
//!     SAILMORTAR_BENCH_INDEX_MB=1,100,1074 cargo bench --bench index       # 1 MB, 100 MB, and the greatest stream there may be
//!
//! A stream is the night of the other bench without two of its columns, over and over, so that 1 GiB has 10 million rows. It stands in memory
//! and in a file under the folder for temporary files, which the system has at hand. Whole conversions go in pieces, as in the command.

// The other benches use all of the night, and more of what is shared; here its BINARY2 alone.
#[allow(dead_code)]
mod measure;
#[allow(dead_code)]
mod table;

use std::fs::{self, File};
use std::hint::black_box;
use std::io::Read;
use std::path::PathBuf;
use std::process::Command;
use std::time::Instant;

use measure::{best, mega, RUNS};
use sailmortar::{convert_pieces, Index, IndexedRows, Rows, INPUT_LIMIT, ROOM};

/// Of fetches the figure is the one in the middle of so many, and of runs of the command.
const FETCHES: usize = 2_001;
const COMMANDS: usize = 51;

/// Bytes of text of the night that is repeated, and the columns that it does without.
const NIGHT: usize = 700_000;
const LEFT_OUT: [&str; 2] = ["sky", "shutters"];

fn main() {
    let sizes = std::env::var("SAILMORTAR_BENCH_INDEX_MB").unwrap_or_else(|_| "1,20".to_string());
    let sizes =
        sizes.split(',').map(|size| size.trim().parse::<f64>().expect("SAILMORTAR_BENCH_INDEX_MB: numbers of megabytes, with commas"));
    let (mut building, mut fetching) = (Vec::new(), Vec::new());
    for size in sizes {
        let stream = Stream::new((size * 1e6) as usize);
        let (built, index) = stream.build();
        building.push(built);
        fetching.push(stream.fetch(&index));
    }
    println!("One thread; MB are 10^6 bytes of BINARY2. Speeds and whole conversions are the best of {RUNS} runs or more, fetches the");
    println!("median of {FETCHES} random rows, the command that of {COMMANDS} runs.\n");
    println!("{BUILDING}\n{}\n", building.join("\n"));
    println!("{FETCHING}\n{}", fetching.join("\n"));
}

const BUILDING: &str = "\
| MB | rows | starts | building the index MB/s | summing the bytes MB/s | read(2) MB/s | convert to BINARY2 MB/s | index / convert |
|--:|--:|--:|--:|--:|--:|--:|--:|";

const FETCHING: &str = "\
| MB | one fetch in memory, µs | from files, µs | bytes read for it | `sailmortar row`, µs | convert of the whole to TABLEDATA, µs |
|--:|--:|--:|--:|--:|--:|";

/// Rows of BINARY2, in memory and in a file.
struct Stream {
    declarations: Vec<u8>,
    bytes: Vec<u8>,
    rows: usize,
    file: PathBuf,
}

impl Drop for Stream {
    fn drop(&mut self) {
        let _ = fs::remove_file(&self.file);
    }
}

impl Stream {
    /// Whole nights up to about this size, at least one.
    fn new(size: usize) -> Stream {
        let night = table::night_without(&LEFT_OUT, NIGHT.min(size * 2));
        let nights = (size.min(INPUT_LIMIT) / night.binary2.len()).max(1);
        let bytes = night.binary2.repeat(nights);
        let file = std::env::temp_dir().join(format!("sailmortar-bench-index-{}-{size}", std::process::id()));
        fs::write(&file, &bytes).expect("a file for the stream");
        Stream { declarations: night.declarations, rows: night.rows * nights, bytes, file }
    }

    fn mega(&self) -> f64 {
        mega(self.bytes.len())
    }

    /// A line of the first table, and the index.
    fn build(&self) -> (String, Index) {
        let mut index = self.indexed();
        let building = best(|| index = self.indexed());
        let summing = best(|| assert_ne!(self.bytes.iter().map(|byte| u64::from(*byte)).sum::<u64>(), 0));
        let reading = best(|| self.read());
        let converting = best(|| self.convert(Rows::Binary2));
        let speed = |seconds: f64| self.mega() / seconds;
        let line = format!(
            "| {:.1} | {} | {} | {:.0} | {:.0} | {:.0} | {:.0} | {:.2} |",
            self.mega(),
            self.rows,
            index.starts().len(),
            speed(building),
            speed(summing),
            speed(reading),
            speed(converting),
            converting / building
        );
        (line, index)
    }

    fn indexed(&self) -> Index {
        let index = Index::build(&self.declarations, Rows::Binary2, &self.bytes).expect("the night is good");
        assert_eq!(index.of().rows, self.rows as u64);
        index
    }

    /// All of the file, through a room that stays in the processor's memory.
    fn read(&self) {
        let (mut file, mut room, mut read) = (File::open(&self.file).expect("the stream's file"), vec![0; 1 << 17], 0);
        loop {
            match file.read(&mut room).expect("it is read") {
                0 => break,
                count => read += count,
            }
            black_box(&room);
        }
        assert_eq!(read, self.bytes.len());
    }

    fn convert(&self, to: Rows) {
        let done = convert_pieces(&self.declarations, Rows::Binary2, to, &self.bytes, ROOM, |piece| {
            black_box(piece.bytes);
            Ok(())
        });
        assert_eq!(done.expect("the night is good").rows, self.rows as u64);
    }

    /// A line of the second table.
    fn fetch(&self, index: &Index) -> String {
        let mut line = Vec::with_capacity(1 << 16);
        let in_memory = self.median(FETCHES, |row| {
            line.clear();
            index.fetch(&self.declarations, &self.bytes, row, &mut line).expect("it has a form");
        });
        let path = self.file.with_extension("index");
        index.write(File::create(&path).expect("a file for the index")).expect("it is written");
        let open = |path| File::open(path).expect("it is there");
        let rows = IndexedRows::open(&self.declarations, Rows::Binary2, open(&self.file), open(&path));
        let mut rows = rows.expect("the index fits");
        let from_files = self.median(FETCHES, |row| {
            line.clear();
            rows.fetch(row, &mut line).expect("it has a form");
        });
        let by_command = self.by_command(&path);
        let _ = fs::remove_file(&path);
        let whole = best(|| self.convert(Rows::TableData));
        let (size, part) = (self.mega(), rows.read() / FETCHES as u64);
        format!("| {size:.1} | {in_memory:.1} | {from_files:.1} | {part} | {by_command:.0} | {:.0} |", whole * 1e6)
    }

    /// Microseconds of a run of the command for one row, from its start to its end.
    fn by_command(&self, index: &PathBuf) -> f64 {
        let fields = self.file.with_extension("fields");
        fs::write(&fields, &self.declarations).expect("a file for the fields");
        let median = self.median(COMMANDS, |row| {
            let mut command = Command::new(env!("CARGO_BIN_EXE_sailmortar"));
            command.args(["row", &row.to_string(), "--from", "binary2", "--fields"]).arg(&fields).arg("--index").arg(index).arg(&self.file);
            let output = command.output().expect("the command runs");
            assert!(output.status.success() && output.stdout.ends_with(b"</TR>\n"));
        });
        let _ = fs::remove_file(&fields);
        median
    }

    /// Microseconds of a fetch of a random row, that of the middle of so many.
    fn median(&self, count: usize, mut fetch: impl FnMut(u64)) -> f64 {
        let mut state = 11_u64;
        let mut times: Vec<f64> = (0..count)
            .map(|_| {
                state = state.wrapping_mul(6364136223846793005).wrapping_add(1442695040888963407);
                let row = (state >> 20) % self.rows as u64;
                let start = Instant::now();
                fetch(row);
                start.elapsed().as_secs_f64() * 1e6
            })
            .collect();
        times.sort_by(f64::total_cmp);
        times[count / 2]
    }
}
