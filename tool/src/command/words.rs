//! The help, and what each refusal means with what to look for.

use std::ffi::OsStr;
use std::fmt::Write;

use sailmortar::NUMBERS;

/// A command, or all of them: what help can be had of.
#[derive(Clone, Copy, Debug, PartialEq, Eq)]
pub enum Topic {
    All,
    Convert,
    Check,
    Compare,
    Index,
    Row,
    Columns,
    Base64,
    Explain,
}

impl Topic {
    const COMMANDS: [Topic; 8] =
        [Topic::Convert, Topic::Check, Topic::Compare, Topic::Index, Topic::Row, Topic::Columns, Topic::Base64, Topic::Explain];

    /// The command of this name; `help` is help of everything.
    pub fn named(word: &OsStr) -> Option<Topic> {
        Topic::COMMANDS.into_iter().chain([Topic::All]).find(|topic| topic.name() == word)
    }

    pub fn name(self) -> &'static str {
        match self {
            Topic::All => "help",
            Topic::Convert => "convert",
            Topic::Check => "check",
            Topic::Compare => "compare",
            Topic::Index => "index",
            Topic::Row => "row",
            Topic::Columns => "columns",
            Topic::Base64 => "base64",
            Topic::Explain => "explain",
        }
    }

    pub fn help(self) -> &'static str {
        match self {
            Topic::All => HELP,
            Topic::Convert => CONVERT,
            Topic::Check => CHECK,
            Topic::Compare => COMPARE,
            Topic::Index => INDEX,
            Topic::Row => ROW,
            Topic::Columns => COLUMNS,
            Topic::Base64 => BASE64,
            Topic::Explain => EXPLAIN,
        }
    }
}

const HELP: &str = "\
Sailmortar converts VOTable rows: TABLEDATA, BINARY and BINARY2, any to any.

  sailmortar convert --fields FILE --from KIND --to KIND [INPUT] [-o OUTPUT]
  sailmortar check --fields FILE --from KIND [INPUT]     are the rows good?
  sailmortar compare --fields FILE --from KIND FIRST [--and KIND] SECOND
  sailmortar index --fields FILE --from KIND [INPUT] -o INDEX
  sailmortar row N --fields FILE --from KIND INPUT --index INDEX    one row
  sailmortar columns FILE      what the FIELD elements are understood as
  sailmortar base64 encode|decode [INPUT] [-o OUTPUT]
  sailmortar explain [N]       what refusal N means, or all of them
  sailmortar help COMMAND      the options of a command
  sailmortar --version

KIND is tabledata, binary or binary2. FILE has the table's FIELD elements and
INPUT the rows, with no tags around them. '-' or no name is standard input or
output. At a refusal the good rows before it are written, and standard error
says where it stopped and why.
Exit status: 0 accepted, 1 refused, 2 wrong usage, 3 the system said no; of
compare 0 the same, 1 they differ, 4 refused.

  sailmortar convert --fields night.fields --from tabledata --to binary2 \\
                     night.tabledata -o night.binary2
";

const CONVERT: &str = "\
sailmortar convert --fields FILE --from KIND --to KIND [INPUT] [-o OUTPUT]

  --fields FILE      the table's FIELD elements, and nothing around them
  --from KIND        what INPUT holds: tabledata, binary or binary2
  --to KIND          what to write
  --base64-in        INPUT is base64, as a STREAM element has it
  --base64-out       write base64, on one line without an end
  --wrap N           .. in lines of N letters
  -o, --output FILE  write a new file, moved to this name when it is done
  --rest FILE        at a refusal, write everything from the refused row on
  --threads N        go through the rows on N threads, not on all cores
  --long             take an INPUT of any length, and not 1 GiB at most
  -v, --verbose      say rows and bytes when all is accepted, too
  --json             say how it ended as an object, on one line
  -h, --help         this text

'-' or no name is standard input or output. At a refusal the good rows before
it are written; where there is none, OUTPUT is left as it was. OUTPUT may be
INPUT: at a refusal the good rows then go to a file beside it, and INPUT stays.
Bytes go to a terminal only with '-o -'. A file is converted as it is read, and
with --long a pipe is, too; without it a pipe is read to its end first.
";

const CHECK: &str = "\
sailmortar check --fields FILE --from KIND [--to KIND] [INPUT]

  --fields FILE      the table's FIELD elements, and nothing around them
  --from KIND        what INPUT holds: tabledata, binary or binary2
  --to KIND          also whether each row has a form in this kind
  --base64-in        INPUT is base64, as a STREAM element has it
  --threads N        go through the rows on N threads, not on all cores
  --long             take an INPUT of any length, and not 1 GiB at most
  --json             say how it ended as an object, on one line
  -h, --help         this text

Reads all rows and writes none: says how many rows, bytes and columns there
are, or what is refused and where.
";

const COMPARE: &str = "\
sailmortar compare --fields FILE --from KIND FIRST [--and KIND] SECOND

  --fields FILE      the FIELD elements of both, and nothing around them
  --from KIND        what FIRST holds: tabledata, binary or binary2
  --and KIND         what SECOND holds, where that is another kind
  --base64-in        FIRST is base64, as a STREAM element has it
  --base64-and       SECOND is base64
  --limit N          list N cells at most; all are counted
  -q, --quiet        list and count nothing: the exit status tells
  -v, --verbose      say how many rows there are when all is the same, too
  --json             say it in objects, one on a line
  -h, --help         this text

Lists every cell that shows differently, by its row and column from 0, with
what it shows in FIRST and in SECOND; then how many these are, and which has
rows that the other has not. Where all is the same it says nothing. How a cell
is spelled does not matter. '-' is standard input, for one of the two.
Exit status: 0 the same, 1 they differ, 4 one of them is refused, 2 wrong
usage, 3 the system said no.

  sailmortar compare --fields F --from binary2 NIGHT --and tabledata COPY
";

const INDEX: &str = "\
sailmortar index --fields FILE --from KIND [INPUT] [-o OUTPUT]

  --fields FILE      the table's FIELD elements, and nothing around them
  --from KIND        what INPUT holds: binary or binary2
  -o, --output FILE  write a new file, moved to this name when it is done
  -v, --verbose      say rows and bytes when all is accepted, too
  --json             say how it ended as an object, on one line
  -h, --help         this text

Writes where every 64th row of INPUT begins, so that 'sailmortar row' finds a
row without reading those before it. At a refusal the index of the good rows
before it is written. Build it again when INPUT or the FIELD elements change:
one that does not fit is not used. Not for TABLEDATA, nor for base64, which is
decoded first. An index goes to a terminal only with '-o -'.

  sailmortar index --fields F --from binary2 NIGHT -o NIGHT.index
";

const ROW: &str = "\
sailmortar row N.. --fields FILE --from KIND INPUT --index INDEX [-o OUTPUT]

  --fields FILE      the table's FIELD elements, and nothing around them
  --from KIND        what INPUT holds: binary or binary2
  --index FILE       the index of INPUT, as 'sailmortar index' wrote it
  -o, --output FILE  write a new file, moved to this name when it is done
  -v, --verbose      say rows and bytes when all is accepted, too
  --json             say how it ended as an object, on one line
  -h, --help         this text

Writes rows of INPUT as TABLEDATA, in the order asked for. N is a row, from 0,
or a range such as 40320-40329, both ends in it; the one other word is INPUT,
which is given as './7' where its name looks like a row. INPUT is a file, and
only the part of it is read in which the rows stand.

  sailmortar row 40312 --fields F --from binary2 NIGHT --index NIGHT.index
";

const COLUMNS: &str = "\
sailmortar columns FILE

  --fields FILE      the same
  --json             an object a line, one for each column
  -h, --help         this text

Says what the FIELD elements are understood as: each column's place from 0,
name, datatype, length as an arraysize has it, and null; or what is refused.
";

const BASE64: &str = "\
sailmortar base64 encode|decode [INPUT] [-o OUTPUT]

  --wrap N           encode in lines of N letters, not on one line
  -o, --output FILE  write a new file, moved to this name when it is done
  -v, --verbose      say how many bytes when all is accepted, too
  --json             say how it ended as an object, on one line
  -h, --help         this text

White space in base64 is skipped. Bytes go to a terminal only with '-o -'.
";

const EXPLAIN: &str = "\
sailmortar explain [N]

What refusal N means and what to look for, or a list of all refusals.
";

/// The numbers that a user can meet, in words.
pub fn range() -> String {
    let numbers: Vec<u64> = NUMBERS.iter().map(|known| known.number).filter(|number| *number < 255).collect();
    let runs: Vec<String> = numbers.chunk_by(|one, next| one + 1 == *next).map(run).collect();
    runs.join(" and ")
}

/// Numbers without a gap, in words.
fn run(numbers: &[u64]) -> String {
    match numbers {
        [first, .., last] => format!("{first} to {last}"),
        _ => numbers.iter().map(u64::to_string).collect(),
    }
}

/// Every refusal's number and meaning, a line each.
pub fn list() -> String {
    let mut text = String::new();
    for known in NUMBERS.iter().filter(|known| known.number < 255) {
        let _ = writeln!(text, "{:2}  {}", known.number, known.meaning);
    }
    text.push_str("'sailmortar explain N' says what to look for.\n");
    text
}

/// What a refusal means, and what to look for.
pub fn explanation(number: u64) -> String {
    let meaning = sailmortar::meaning(number).unwrap_or_default();
    format!("refusal {number}: {meaning}\n\n{}\n", look_for(number))
}

fn look_for(number: u64) -> &'static str {
    match number {
        1..=5 => in_declarations(number),
        6 | 7 | 17 | 255 => in_sizes_and_base64(number),
        8 | 9 | 13 => in_binary(number),
        10 | 12 => in_cells(number),
        11 | 18 => in_values(number),
        20 => PAST_THE_END,
        _ => in_writing(number),
    }
}

const PAST_THE_END: &str = "\
Rows count from 0: a stream of 50 rows has rows 0 to 49. The message says which
rows this one has, as its index has them. Was the stream cut, or is it another
night? Where it says that what stands behind the rows cannot be read, the index
is of the rows before a refusal: 'sailmortar check' says what is wrong there.
If the stream has grown, build its index again.";

fn in_declarations(number: u64) -> &'static str {
    match number {
        1 => {
            "\
The fields file has FIELD elements with only white space around them, such as
  <FIELD name=\"sky\" datatype=\"short\"/>
  <FIELD name=\"sky\" datatype=\"short\"><VALUES null=\"-99\"/></FIELD>
Look at the element that the message shows, and its line: a missing datatype,
an attribute without quotes or without white space before it, datatype or
arraysize twice, a missing </FIELD> or />, a comment, a DESCRIPTION or a second
VALUES inside the FIELD, or another element (PARAM, GROUP, TABLE) among the
FIELDs. 'sailmortar columns FILE' shows what was understood once it is good."
        }
        2 => {
            "\
Carried are boolean, bit, unsignedByte, short, int, long and char, spelt just
so: 'Int', ' int' and 'integer' are refused. float, double, unicodeChar and
the complex kinds are not carried."
        }
        3 => {
            "\
An arraysize is n, n* or *, with n from 1 to 4096 and no white space: '8',
'40*', '*'. '0', '08', '5000' and two dimensions such as '3x2' are refused.
Leave arraysize out for one element."
        }
        4 => {
            "\
On a column of one integer, the null of its VALUES must be a value of that
datatype: null=\"40000\" on a short, null=\"-1\" on an unsignedByte, null=\"\"
and null=\"NaN\" are refused."
        }
        _ => {
            "\
A table has 1 to 64 columns. Look for an empty fields file (was it written at
all?), or count the FIELD elements."
        }
    }
}

fn in_sizes_and_base64(number: u64) -> &'static str {
    match number {
        6 => {
            "\
Declarations may have 65536 bytes, an input of rows or of a base64 step
1073741824 (1 GiB); the message says which was over. With --long, convert and
check take rows without such a limit. Or cut the rows into several inputs at
row ends and convert each: a row's output depends on no other row."
        }
        7 => {
            "\
White space apart, base64 is a multiple of four letters A-Z a-z 0-9 + /, with
= only as the last one or two, and no bit set that stands for nothing: 'Zg=='
is good, 'Zg=' (cut), 'Zg==Zg==' (two texts in one), 'Zh==' and 'Zm9_' (another
alphabet) are refused. Look for tags of the VOTable that were left around the
text, or a file that was cut short."
        }
        17 => {
            "\
Programs that call the library give it room for its output, or for an index;
this says that the next row, or its start, does not fit. What comes before it
is written. This command makes the room itself, so that you will not meet it
here."
        }
        _ => {
            "\
Programs that call the C functions name kinds of rows by number: 0 TABLEDATA,
1 BINARY, 2 BINARY2. An index is for BINARY and BINARY2 alone. This command
does not let another through."
        }
    }
}

fn in_binary(number: u64) -> &'static str {
    match number {
        8 => {
            "\
The bytes end before the row does. Most often the file was cut: a logger that
died, a copy that was broken off. If it stops at row 0 or 1, the fields may not
be those of this stream, or BINARY was taken for BINARY2, or base64 was not
decoded (--base64-in)."
        }
        9 => {
            "\
A cell of an n* or * column begins with a count of four bytes, and it is more
than n (or than 4096). Most often the reading is out of step: look whether the
fields are those of this stream, in this order, and whether BINARY was taken
for BINARY2. Counts are of elements, not bytes, the highest byte first."
        }
        _ => {
            "\
A bit column whose length is no multiple of 8, or the flags at the start of a
BINARY2 row, ends in spare bits, and they must be 0: nine bits FF 80 are good,
FF 81 are not. Where the message names the flags: was BINARY taken for BINARY2,
or are there other columns than the fields say?"
        }
    }
}

fn in_cells(number: u64) -> &'static str {
    match number {
        10 => {
            "\
Rows are <TR> with one <TD> for each column, without attributes, comments or
CDATA: <TR><TD>7</TD><TD/></TR>. Look for a TD too many or too few, a bare &
or < in a text (write &amp; and &lt;), &nbsp; or another name that XML does not
have, a missing </TD>, tags around the rows (TABLEDATA, DATA), or a file that
was cut. A column number after the last means the end of the row."
        }
        _ => {
            "\
A column of arraysize n takes n elements in each cell that is not empty (char
may be shorter), one of n* or * at most n or 4096. Look for a value missing or
too many, or a text longer than its column: 'dawns' where arraysize is 4.
In a text a line end counts as one character, 10, whether the file has 13 10,
13 or 10 there (XML reads it so); only &#13; or &#xD; is a carriage return."
        }
    }
}

fn in_values(number: u64) -> &'static str {
    match number {
        11 => {
            "\
The cell holds something that its datatype does not have: 1.5, NaN, 1,2 (write
1 2) or more than 20 digits in an integer, a sign (-1, +1) in an unsignedByte,
0x and more hexadigits than 2 in an unsignedByte, 4 in a short, 8 in an int or
16 in a long, 'yes' in a boolean, a byte over 127 (an accent, a degree sign) in
any cell, or a boolean byte that is none of T t 1 F f 0 ? blank and NUL.
An integer that is written well, but is too small or too great, is refusal 18."
        }
        _ => {
            "\
The number is written well, but its column's datatype has no room for it:
  unsignedByte goes from 0 to 255
  short goes from -32768 to 32767
  int goes from -2147483648 to 2147483647
  long goes from -9223372036854775808 to 9223372036854775807
Did the meter overflow? Then there is no reading: write <TD/>, which is null.
Is the number right? Then the column's FIELD needs a wider datatype (int where
it is short), and whoever reads the table needs that FIELD, too.
More than 20 digits, leading zeros counted, and too many hexadigits are 11."
        }
    }
}

fn in_writing(number: u64) -> &'static str {
    match number {
        14 => {
            "\
In BINARY2 a char or counted cell can be empty without being null: its flag is
0, and its count is 0 or its text begins with NUL. TABLEDATA and BINARY write
an empty cell for null, and would turn the one into the other. Only BINARY2
takes such a row."
        }
        15 => {
            "\
BINARY has no flags: a null integer needs a declared null (<VALUES null=\"..\"/>
in its FIELD), and a null bit, or a null in a fixed array of any kind but char,
has no form at all. Declare a null that no real value has, or write BINARY2."
        }
        _ => {
            "\
A text holds a control character (1 to 8, 11, 12, 14 to 31) that XML cannot
hold, even as a reference. Write BINARY or BINARY2, or mend the text."
        }
    }
}
