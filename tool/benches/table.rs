//! A night of an observatory as a table, in the three kinds of rows at once, from one list of values: twenty columns
//! of all kinds and shapes; and tables of one column. Deterministic.

/// A night's rows in each kind, as the rules have them written.
pub struct Night {
    pub declarations: Vec<u8>,
    pub text: Vec<u8>,
    pub binary: Vec<u8>,
    pub binary2: Vec<u8>,
    pub rows: usize,
}

struct Column {
    name: &'static str,
    datatype: &'static str,
    arraysize: Option<&'static str>,
    null: Option<i64>,
}

const fn column(name: &'static str, datatype: &'static str, arraysize: Option<&'static str>, null: Option<i64>) -> Column {
    Column { name, datatype, arraysize, null }
}

const COLUMNS: [Column; 20] = [
    column("telescope", "char", Some("8"), None),
    column("sequence", "int", None, None),
    column("exposure", "long", None, None),
    column("start_ms", "long", None, Some(-1)),
    column("filter", "char", None, None),
    column("exposure_s", "short", None, Some(-99)),
    column("focus", "int", None, Some(-2147483648)),
    column("temperature", "short", None, Some(-32768)),
    column("humidity", "unsignedByte", None, Some(255)),
    column("dome_open", "boolean", None, None),
    column("guiding", "boolean", None, None),
    column("object", "char", Some("*"), None),
    column("note", "char", Some("40*"), None),
    column("status", "bit", Some("12"), None),
    column("alarms", "bit", Some("24*"), None),
    column("sky", "unsignedByte", Some("16"), None),
    column("counts", "int", Some("*"), None),
    column("offsets", "short", Some("3"), None),
    column("shutters", "boolean", Some("4"), None),
    column("bytes_sent", "long", None, Some(0)),
];

const OBJECTS: [&str; 12] = [
    "NGC 7000",
    "M 31",
    "Barnard's star",
    "R&D flat <dome>",
    "Vega",
    "2005 YU55",
    "HD 209458 b",
    "bias",
    "dark 300s",
    "Kepler-90 & friends",
    "twilight flat",
    "GRB 221009A",
];

const NOTES: [&str; 8] = ["", "clouds", "wind > 12 m/s", "ok", "guide star lost, reacquired at once", "", "renter: site 4 <queue>", ""];

enum Value {
    Null,
    Characters(String),
    Bits(Vec<bool>),
    Booleans(Vec<Option<bool>>),
    Integers(Vec<i64>),
}

use Value::{Bits, Booleans, Characters, Integers, Null};

/// A linear congruential generator: the same night on every machine.
struct Random(u64);

impl Random {
    fn next(&mut self) -> i64 {
        self.0 = self.0.wrapping_mul(6364136223846793005).wrapping_add(1442695040888963407);
        (self.0 >> 33) as i64
    }

    fn below(&mut self, end: i64) -> i64 {
        self.next() % end
    }

    fn unless_one_in(&mut self, times: i64, value: Value) -> Value {
        if self.below(times) == 0 {
            Null
        } else {
            value
        }
    }

    fn pick<'a>(&mut self, from: &[&'a str]) -> &'a str {
        from[self.below(from.len() as i64) as usize]
    }

    fn integers(&mut self, count: i64, least: i64, span: i64) -> Vec<i64> {
        (0..count).map(|_| least + self.below(span)).collect()
    }

    fn bits(&mut self, count: i64) -> Vec<bool> {
        (0..count).map(|_| self.below(2) == 1).collect()
    }
}

/// About so many bytes of text, in whole rows.
pub fn night(bytes_of_text: usize) -> Night {
    night_without(&[], bytes_of_text)
}

/// Another night of as many bytes, whose rows are all other rows.
pub fn another_night(bytes_of_text: usize) -> Night {
    drawn(Random(12), &[], bytes_of_text)
}

/// A night without the columns of these names.
pub fn night_without(left_out: &[&str], bytes_of_text: usize) -> Night {
    drawn(Random(11), left_out, bytes_of_text)
}

fn drawn(mut random: Random, left_out: &[&str], bytes_of_text: usize) -> Night {
    let mut night = Night {
        declarations: declarations(columns(left_out).map(|(_, column)| column)),
        text: Vec::with_capacity(bytes_of_text + 2_000),
        binary: Vec::new(),
        binary2: Vec::new(),
        rows: 0,
    };
    while night.text.len() < bytes_of_text {
        let values = row(&mut random, night.rows as i64);
        night.add(left_out, &values);
    }
    night
}

/// What the cells of a table of one column are called, its column, and how many rows there are for each thousand.
type OneColumn = (&'static str, Column, usize, fn(&mut Random) -> Value);

fn letters(random: &mut Random, count: i64) -> String {
    (0..count).map(|_| (b'a' + random.below(26) as u8) as char).collect()
}

fn with_references(random: &mut Random) -> String {
    let letter = |place, random: &mut Random| match place % 5 {
        2 => ['&', '<', '>', '&'][random.below(4) as usize],
        _ => (b'a' + random.below(26) as u8) as char,
    };
    (0..20).map(|place| letter(place, random)).collect()
}

/// Tables of one column each, of so many rows, and of fewer where cells are long.
pub fn one_columns(rows: usize) -> Vec<(&'static str, Night)> {
    let list: [OneColumn; 15] = [
        ("long of 19 digits", column("a", "long", None, Some(-1)), 1_000, |r| Integers(vec![(r.next() << 31) + r.next() - (1 << 60)])),
        ("int", column("a", "int", None, None), 1_000, |r| Integers(vec![r.below(1 << 31) - (1 << 30)])),
        ("short, some null", column("a", "short", None, Some(-99)), 1_000, |r| {
            let value = Integers(vec![r.below(6_000) - 3_000]);
            r.unless_one_in(20, value)
        }),
        ("unsignedByte", column("a", "unsignedByte", None, None), 1_000, |r| Integers(vec![r.below(256)])),
        ("boolean", column("a", "boolean", None, None), 1_000, |r| Booleans(vec![Some(r.below(2) == 0)])),
        ("16 bits", column("a", "bit", Some("16"), None), 1_000, |r| Bits(r.bits(16))),
        ("12 characters", column("a", "char", Some("12"), None), 1_000, |r| Characters(letters(r, 12))),
        ("200 characters", column("a", "char", Some("200"), None), 50, |r| Characters(letters(r, 200))),
        ("1 to 40 characters", column("a", "char", Some("*"), None), 1_000, |r| {
            let count = 1 + r.below(40);
            Characters(letters(r, count))
        }),
        ("20 characters, 4 of them references", column("a", "char", Some("20"), None), 1_000, |r| Characters(with_references(r))),
        ("8 ints", column("a", "int", Some("8"), None), 1_000, |r| Integers(r.integers(8, -(1 << 30), 1 << 31))),
        ("8 shorts", column("a", "short", Some("8"), None), 1_000, |r| Integers(r.integers(8, -32_767, 65_535))),
        ("8 booleans", column("a", "boolean", Some("8"), None), 1_000, |r| {
            Booleans((0..8).map(|_| [Some(true), Some(false), None][r.below(3) as usize]).collect())
        }),
        ("1,000 longs", column("a", "long", Some("1000*"), None), 50, |r| Integers(r.integers(1_000, -(1 << 30), 1 << 31))),
        ("4,000 bits", column("a", "bit", Some("*"), None), 50, |r| Bits(r.bits(4_000))),
    ];
    list.into_iter().map(|(name, column, thousandths, cell)| (name, one_column(&column, rows * thousandths / 1_000, cell))).collect()
}

fn one_column(column: &Column, rows: usize, cell: fn(&mut Random) -> Value) -> Night {
    let mut random = Random(7);
    let declarations = declarations(std::iter::once(column));
    let mut night = Night { declarations, text: Vec::new(), binary: Vec::new(), binary2: Vec::new(), rows: 0 };
    (0..rows).for_each(|_| night.add_cells(&[(&cell(&mut random), column)]));
    night
}

/// Rows of text with this line end behind each row and, in the cells of text, for each space.
pub fn with_line_ends(text: &[u8], line_end: &str) -> Vec<u8> {
    let mut lines = String::with_capacity(text.len() * 2);
    for row in std::str::from_utf8(text).expect("ASCII").lines() {
        let mut cells = row.split("<TD");
        lines += cells.next().expect("the start of the row");
        for (column, cell) in COLUMNS.iter().zip(cells) {
            lines += "<TD";
            lines += &if column.datatype == "char" { cell.replace(' ', line_end) } else { cell.to_string() };
        }
        lines += line_end;
    }
    lines.into_bytes()
}

/// The columns but for those of these names.
fn columns<'a>(left_out: &'a [&str]) -> impl Iterator<Item = (usize, &'static Column)> + 'a {
    COLUMNS.iter().enumerate().filter(|(_, column)| !left_out.contains(&column.name))
}

fn declarations<'a>(columns: impl Iterator<Item = &'a Column>) -> Vec<u8> {
    let mut text = String::new();
    for column in columns {
        text += &format!("<FIELD name=\"{}\" datatype=\"{}\"", column.name, column.datatype);
        if let Some(arraysize) = column.arraysize {
            text += &format!(" arraysize=\"{arraysize}\"");
        }
        text += &match column.null {
            Some(null) => format!("><VALUES null=\"{null}\"/></FIELD>\n"),
            None => "/>\n".to_string(),
        };
    }
    text.into_bytes()
}

fn row(random: &mut Random, row: i64) -> [Value; 20] {
    let telescope = random.below(11);
    let scalar = |value| Integers(vec![value]);
    let (start, exposure) = (1_700_000_000_000 + row * 997 + random.below(900), random.below(1_800));
    let (focus, temperature, humidity) = (random.below(200_000) - 100_000, random.below(6_000) - 3_000, random.below(101));
    let (filter, object, note) = (random.pick(&["U", "B", "V", "R", "I", "g", "z"]), random.pick(&OBJECTS), random.pick(&NOTES));
    let dome_open = Booleans(vec![Some(random.below(3) > 0)]);
    let alarms = 1 + random.below(24);
    let alarms = Bits(random.bits(alarms));
    let counts = random.below(5);
    [
        Characters(format!("T{:02}-{}", telescope + 1, ["", "N", "E", "W"][telescope as usize % 4])),
        scalar(if telescope == 7 { row - 1_000_000 } else { row }),
        scalar((random.next() << 31) + random.next() - (1 << 60)),
        random.unless_one_in(23, scalar(start)),
        random.unless_one_in(31, Characters(filter.to_string())),
        random.unless_one_in(9, scalar(exposure)),
        random.unless_one_in(40, scalar(focus)),
        random.unless_one_in(17, scalar(temperature)),
        random.unless_one_in(13, scalar(humidity)),
        random.unless_one_in(19, dome_open),
        Booleans(vec![Some(random.below(2) == 0)]),
        random.unless_one_in(37, Characters(object.to_string())),
        if note.is_empty() { Null } else { Characters(note.to_string()) },
        Bits(random.bits(12)),
        random.unless_one_in(4, alarms),
        Integers(random.integers(16, 0, 256)),
        if counts == 0 { Null } else { Integers(random.integers(counts, -(1 << 30), 1 << 31)) },
        Integers(random.integers(3, -32_768, 65_536)),
        Booleans((0..4).map(|_| [Some(true), Some(false), None][random.below(3) as usize]).collect()),
        Integers(vec![random.next() * 7 + 1]),
    ]
}

impl Night {
    fn add(&mut self, left_out: &[&str], values: &[Value; 20]) {
        let cells: Vec<(&Value, &Column)> = columns(left_out).map(|(place, column)| (&values[place], column)).collect();
        self.add_cells(&cells);
    }

    fn add_cells(&mut self, cells: &[(&Value, &Column)]) {
        let flags = self.binary2.len();
        self.binary2.resize(flags + cells.len().div_ceil(8), 0);
        self.text.extend(b"<TR>");
        for (place, (value, column)) in cells.iter().enumerate() {
            if let Null = value {
                self.binary2[flags + place / 8] |= 0x80 >> (place % 8);
            }
            self.text.extend(text_cell(value).as_bytes());
            let (cell, cell2) = (binary_cell(column, value, false), binary_cell(column, value, true));
            self.binary.extend(cell);
            self.binary2.extend(cell2);
        }
        self.text.extend(b"</TR>\n");
        self.rows += 1;
    }
}

fn text_cell(value: &Value) -> String {
    let words = match value {
        Null => return "<TD/>".to_string(),
        Characters(text) => text.replace('&', "&amp;").replace('<', "&lt;").replace('>', "&gt;"),
        Bits(bits) => bits.iter().map(|bit| if *bit { '1' } else { '0' }).collect(),
        Booleans(booleans) => booleans.iter().map(|boolean| boolean_letter(*boolean)).collect::<Vec<_>>().join(" "),
        Integers(integers) => integers.iter().map(i64::to_string).collect::<Vec<_>>().join(" "),
    };
    format!("<TD>{words}</TD>")
}

fn boolean_letter(boolean: Option<bool>) -> &'static str {
    match boolean {
        Some(true) => "T",
        Some(false) => "F",
        None => "?",
    }
}

fn width(datatype: &str) -> usize {
    match datatype {
        "short" => 2,
        "int" => 4,
        "long" => 8,
        _ => 1,
    }
}

fn binary_cell(column: &Column, value: &Value, flagged: bool) -> Vec<u8> {
    let is_variable = column.arraysize.is_some_and(|size| size.ends_with('*'));
    let elements = column.arraysize.map_or(1, |size| size.trim_end_matches('*').parse().unwrap_or(4_096));
    let width = width(column.datatype);
    let big_endian = |value: &i64| value.to_be_bytes()[8 - width..].to_vec();
    let (count, mut content) = match value {
        Null if is_variable => (0, Vec::new()),
        Null => match (column.datatype, column.null) {
            ("boolean", _) if !flagged => (1, vec![b'?']),
            (_, Some(null)) if !flagged => (1, big_endian(&null)),
            _ => (0, vec![0; elements * width]),
        },
        Characters(text) => (text.len(), text.as_bytes().to_vec()),
        Bits(bits) => (bits.len(), bits.chunks(8).map(packed).collect()),
        Booleans(booleans) => (booleans.len(), booleans.iter().map(|boolean| boolean_letter(*boolean).as_bytes()[0]).collect()),
        Integers(integers) => (integers.len(), integers.iter().flat_map(big_endian).collect()),
    };
    if is_variable {
        return [&(count as u32).to_be_bytes(), &content[..]].concat();
    }
    if column.datatype == "char" {
        content.resize(elements, 0);
    }
    content
}

fn packed(bits: &[bool]) -> u8 {
    bits.iter().enumerate().fold(0, |byte, (place, bit)| byte | u8::from(*bit) << (7 - place))
}
