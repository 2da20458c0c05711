//! include/sailmortar.h by C programs: the example, every function and number, the version, null pointers, and the header as C++.

use std::fs;
use std::path::{Path, PathBuf};
use std::process::Command;

const ROOT: &str = env!("CARGO_MANIFEST_DIR");

/// Compiles with every warning an error, against the header and the archive.
fn compile(compiler: &str, words: &[&str], source: &Path, program: &Path) {
    let mut command = Command::new(compiler);
    command.args(words).args(["-Wall", "-Wextra", "-Wpedantic", "-Wconversion", "-Werror", "-I"]).arg(Path::new(ROOT).join("include"));
    command.arg(source).arg(Path::new(ROOT).join("target/library/libsailmortar.a")).arg("-o").arg(program);
    let output = command.output().unwrap_or_else(|cause| panic!("{compiler}: {cause}"));
    assert!(output.status.success(), "{}", String::from_utf8_lossy(&output.stderr));
}

fn scratch(name: &str) -> PathBuf {
    let folder = Path::new(env!("CARGO_TARGET_TMPDIR")).join("header");
    fs::create_dir_all(&folder).expect("a scratch folder");
    folder.join(name)
}

#[test]
fn the_example_runs() {
    let program = scratch("night");
    compile("cc", &["-std=c99"], &Path::new(ROOT).join("examples/night.c"), &program);
    let output = Command::new(&program).output().expect("it runs");
    let said = "columns 3\n\
        number 0, row 0, column 0, rows 2, bytes 16\n\
        AAAHYSZiAFSgAABkdXNrAA==\n\
        number 0, row 0, column 0, rows 2, bytes 79\n\
        <TR><TD>7</TD><TD>a&amp;b</TD><TD>T</TD></TR>\n\
        <TR><TD/><TD>dusk</TD><TD/></TR>\n\
        cells that differ 0, rows beyond 0 and 0\n\
        row 1 of 2: <TR><TD/><TD>dusk</TD><TD/></TR>\n\
        number 8, row 1, column 2, rows 1, bytes 46\n\
        <TR><TD>7</TD><TD>a&amp;b</TD><TD>T</TD></TR>\n\
        number 0, row 0, column 0, rows 1, bytes 33\n\
        <TR><TD/><TD>dusk</TD><TD/></TR>\n";
    assert_eq!(String::from_utf8_lossy(&output.stdout), said);
    assert!(output.status.success());
}

/// Each function once more, where it refuses, and every name of the header; the program's status is the line that is wrong.
const CASES: &str = r#"
#include "sailmortar.h"
#include <string.h>
#define IS(number, row, column, rows, bytes) \
    if (answer[0] != (number) || answer[1] != (row) || answer[2] != (column) || answer[3] != (rows) || answer[4] != (bytes)) return __LINE__
#define TEXT(text) (const uint8_t *)(text), strlen(text)
#define SHORT TEXT("<FIELD datatype='short'/>")
/* 66 shorts, of which row r is r, and the last byte of the last one missing. */
static int index_and_fetch(void) {
    uint8_t night[131], line[24];
    uint32_t starts[3] = {77, 77, 77};
    uint64_t answer[5];
    size_t row;
    for (row = 0; row < sizeof night; row++) night[row] = (uint8_t)(row % 2 * (row / 2));
    memset(line, 0xEE, sizeof line);
    sailmortar_index(SHORT, SAILMORTAR_TABLEDATA, night, sizeof night, starts, 3, answer);
    IS(SAILMORTAR_NO_SUCH_KIND, 0, 0, 0, 0);
    sailmortar_index(TEXT("<FIELD datatype='int'/><FIELD/>"), SAILMORTAR_BINARY, night, sizeof night, starts, 3, answer);
    IS(SAILMORTAR_DECLARATIONS_BROKEN, 0, 1, 0, 0);
    sailmortar_index(SHORT, SAILMORTAR_BINARY, night, sizeof night, starts, 0, answer);
    IS(SAILMORTAR_NO_ROOM, 0, 0, 0, 0);
    if (starts[0] != 77) return __LINE__;
    sailmortar_index(SHORT, SAILMORTAR_BINARY, night, sizeof night, starts, 1, answer);
    IS(SAILMORTAR_NO_ROOM, 64, 0, 64, 0);
    if (starts[0] != 0 || starts[1] != 77) return __LINE__;
    sailmortar_index(SHORT, SAILMORTAR_BINARY, night, sizeof night, starts, 3, answer);
    IS(SAILMORTAR_STREAM_ENDS, 65, 0, 65, 0);
    if (starts[0] != 0 || starts[1] != 128 || starts[2] != 77) return __LINE__;
    sailmortar_index(SHORT, SAILMORTAR_BINARY, night, 130, starts, 3, answer);
    IS(SAILMORTAR_ACCEPTED, 0, 0, 65, 0);
    sailmortar_fetch(SHORT, SAILMORTAR_BINARY, night, 130, starts, 3, answer[SAILMORTAR_ROWS], 64, line, 24, answer);
    IS(SAILMORTAR_ACCEPTED, 0, 0, 1, 21);
    if (memcmp(line, "<TR><TD>64</TD></TR>\n\xEE\xEE\xEE", 24) != 0) return __LINE__;
    memset(line, 0xEE, sizeof line);
    sailmortar_fetch(SHORT, SAILMORTAR_BINARY, night, 130, starts, 3, 65, 64, line, 20, answer);
    IS(SAILMORTAR_NO_ROOM, 64, 0, 0, 0);
    sailmortar_fetch(SHORT, SAILMORTAR_BINARY, night, 130, starts, 3, 65, 65, line, 24, answer);
    IS(SAILMORTAR_PAST_THE_END, 65, 0, 0, 0);
    sailmortar_fetch(SHORT, SAILMORTAR_BINARY, night, 130, starts, 1, 65, 64, line, 24, answer);
    IS(SAILMORTAR_PAST_THE_END, 64, 0, 0, 0);
    sailmortar_fetch(SHORT, 3, night, 130, starts, 3, 65, 64, line, 24, answer);
    IS(SAILMORTAR_NO_SUCH_KIND, 0, 0, 0, 0);
    if (line[0] != 0xEE || SAILMORTAR_PAST_THE_END != 20 || SAILMORTAR_ROWS_PER_START != 64) return __LINE__;
    return 0;
}
#define COUNTS(differing, first_beyond, second_beyond, filled) \
    if (answer[SAILMORTAR_DIFFERING] != (differing) || answer[SAILMORTAR_FIRST_BEYOND] != (first_beyond) || \
        answer[SAILMORTAR_SECOND_BEYOND] != (second_beyond) || answer[SAILMORTAR_PLACES] != (filled)) return __LINE__
/* Three shorts as bytes beside two as text. */
static int two_nights(void) {
    static const uint8_t night[6] = {0, 7, 0, 8, 0, 9};
    uint32_t places[5] = {77, 77, 77, 77, 77};
    uint64_t answer[8];
    memset(answer, 0xEE, sizeof answer);
    sailmortar_compare(SHORT, SAILMORTAR_BINARY, night, 6, 3, night, 6, places, 5, answer);
    IS(SAILMORTAR_NO_SUCH_KIND, 0, 0, 0, 0);
    COUNTS(0, 0, 0, 0);
    sailmortar_compare(TEXT("<FIELD datatype='int'/><FIELD/>"), SAILMORTAR_BINARY, night, 6, SAILMORTAR_BINARY, night, 6, places, 5, answer);
    IS(SAILMORTAR_DECLARATIONS_BROKEN, 0, 1, 0, 0);
    sailmortar_compare(SHORT, SAILMORTAR_BINARY, night, 5, SAILMORTAR_BINARY, night, 1, places, 5, answer);
    IS(SAILMORTAR_STREAM_ENDS, 2, 0, 0, 0);
    sailmortar_compare(SHORT, SAILMORTAR_BINARY, night, 6, SAILMORTAR_TABLEDATA, TEXT("<TR><TD>7</TD></TR><TR><TD>x</TD></TR>"), places, 5, answer);
    IS(SAILMORTAR_NO_VALUE, 1, 0, 1, 0);
    COUNTS(0, 0, 0, 0);
    if (answer[SAILMORTAR_INPUT] != 1 || places[0] != 77) return __LINE__;
    sailmortar_compare(SHORT, SAILMORTAR_BINARY, night, 6, SAILMORTAR_TABLEDATA, TEXT("<TR><TD>6</TD></TR><TR><TD/></TR>"), places, 3, answer);
    IS(SAILMORTAR_ACCEPTED, 0, 0, 0, 2);
    COUNTS(2, 1, 0, 1);
    if (places[0] != 0 || places[1] != 0 || places[2] != 77) return __LINE__;
    sailmortar_compare(SHORT, SAILMORTAR_TABLEDATA, TEXT("<TR><TD>6</TD></TR><TR><TD/></TR>"), SAILMORTAR_BINARY, night, 6, places, 5, answer);
    IS(SAILMORTAR_ACCEPTED, 0, 0, 0, 2);
    COUNTS(2, 0, 1, 2);
    if (places[0] != 0 || places[1] != 0 || places[2] != 1 || places[3] != 0 || places[4] != 77) return __LINE__;
    sailmortar_compare(SHORT, SAILMORTAR_BINARY, night, 6, SAILMORTAR_BINARY, night, 6, NULL, 0, answer);
    IS(SAILMORTAR_ACCEPTED, 0, 0, 0, 0);
    COUNTS(0, 0, 0, 0);
    return 0;
}
/* A part of three shorts, from one place to another, in so much room; what it writes goes to `out`. */
static void convert_part(uint64_t part[SAILMORTAR_PART_NUMBERS], uint64_t start, uint64_t end, uint8_t *out, size_t room) {
    static const uint8_t night[6] = {0, 7, 0, 8, 0, 9};
    part[0] = start;
    part[1] = end - start;
    part[2] = room;
    sailmortar_convert_piece(SHORT, SAILMORTAR_BINARY, SAILMORTAR_BINARY2, night + start, (size_t)(end - start), out, room, part + 3);
}
#define JOINED(number, row, rows, bytes, end, parts, ended) \
    if (joined[SAILMORTAR_NUMBER] != (number) || joined[SAILMORTAR_ROW] != (row) || joined[SAILMORTAR_COLUMN] != 0) return __LINE__; \
    if (joined[SAILMORTAR_ROWS] != (rows) || joined[SAILMORTAR_BYTES] != (bytes) || joined[SAILMORTAR_END] != (end)) return __LINE__; \
    if (joined[SAILMORTAR_PARTS] != (parts) || joined[SAILMORTAR_ENDED] != (ended)) return __LINE__
/* Cut in the middle of a row, and where a row begins; the input's end, and the room's. */
static int parts_of_a_night(void) {
    uint64_t parts[3 * SAILMORTAR_PART_NUMBERS], joined[8] = {0, 0, 0, 0, 0, 0, 0, 0};
    uint8_t out[9];
    memset(out, 0xEE, sizeof out);
    convert_part(parts, 0, 3, out, 9);
    convert_part(parts + 9, 3, 6, out + 3, 6);
    sailmortar_join(6, 9, parts, 18, joined);
    JOINED(0, 0, 1, 3, 2, 1, 0);
    convert_part(parts, 2, 6, out + 3, 3);
    convert_part(parts + 9, 4, 6, out + 6, 3);
    sailmortar_join(6, 9, parts, 17, joined);
    JOINED(0, 0, 2, 6, 4, 2, 0);
    sailmortar_join(UINT64_MAX, UINT64_MAX, parts + 9, 9, joined);
    JOINED(0, 0, 3, 9, 6, 3, 0);
    convert_part(parts, 6, 6, NULL, 0);
    sailmortar_join(6, 9, parts, 9, joined);
    JOINED(0, 0, 3, 9, 6, 4, 1);
    if (memcmp(out, "\0\0\7\0\0\10\0\0\11", 9) != 0) return __LINE__;
    memset(joined, 0, sizeof joined);
    convert_part(parts, 0, 5, out, 4);
    sailmortar_join(5, 5, parts, 9, joined);
    JOINED(0, 0, 1, 3, 2, 1, 0);
    convert_part(parts, 2, 5, out, 2);
    sailmortar_join(5, 5, parts, 9, joined);
    JOINED(SAILMORTAR_NO_ROOM, 1, 1, 3, 2, 2, 1);
    memset(joined, 0, sizeof joined);
    convert_part(parts, 0, 5, out, 6);
    sailmortar_join(5, UINT64_MAX, parts, 9, joined);
    JOINED(SAILMORTAR_STREAM_ENDS, 2, 2, 6, 4, 1, 1);
    return 0;
}
int main(void) {
    uint8_t out[8];
    uint64_t answer[6] = {0, 0, 0, 0, 0, 77};
    int wrong = index_and_fetch();
    if (wrong == 0) wrong = two_nights();
    if (wrong == 0) wrong = parts_of_a_night();
    if (wrong != 0) return wrong;
    memset(out, 0xEE, sizeof out);
    sailmortar_convert(TEXT("<FIELD datatype='int'/>"), 3, SAILMORTAR_BINARY, TEXT(""), out, 8, answer);
    IS(SAILMORTAR_NO_SUCH_KIND, 0, 0, 0, 0);
    sailmortar_convert(TEXT(""), 0, 4294967295u, TEXT(""), out, 8, answer);
    IS(255, 0, 0, 0, 0);
    sailmortar_convert(TEXT("<FIELD datatype='short'/>"), SAILMORTAR_TABLEDATA, SAILMORTAR_BINARY,
                       TEXT("<TR><TD>7</TD></TR><TR><TD/></TR>"), out, 8, answer);
    IS(SAILMORTAR_NULL_HAS_NO_FORM, 1, 0, 1, 2);
    if (out[0] != 0 || out[1] != 7 || out[2] != 0xEE || out[7] != 0xEE) return __LINE__;
    if (answer[SAILMORTAR_END] != 77) return __LINE__;
    sailmortar_convert_piece(TEXT(""), SAILMORTAR_BINARY2, 3, TEXT(""), out, 8, answer);
    IS(255, 0, 0, 0, 0);
    if (answer[SAILMORTAR_END] != 0) return __LINE__;
    sailmortar_convert_piece(TEXT("<FIELD datatype='short'/>"), SAILMORTAR_TABLEDATA, SAILMORTAR_BINARY,
                             TEXT("<TR><TD>8</TD></TR>\n<TR><TD>9</T"), out, 8, answer);
    IS(SAILMORTAR_TABLEDATA_BROKEN, 1, 0, 1, 2);
    if (answer[SAILMORTAR_END] != 19 || out[1] != 8 || out[2] != 0xEE) return __LINE__;
    sailmortar_convert_piece(TEXT("<FIELD datatype='short'/>"), SAILMORTAR_TABLEDATA, SAILMORTAR_BINARY,
                             TEXT("\n<TR><TD>9</TD></TR>\n"), out + 2, 6, answer);
    IS(SAILMORTAR_ACCEPTED, 0, 0, 1, 2);
    if (answer[SAILMORTAR_END] != 21 || out[1] != 8 || out[3] != 9 || out[4] != 0xEE) return __LINE__;
    sailmortar_convert(TEXT("<FIELD datatype='short'/>"), SAILMORTAR_TABLEDATA, SAILMORTAR_BINARY,
                       TEXT("<TR><TD>7</TD></TR><TR><TD>32768</TD></TR>"), out, 8, answer);
    IS(SAILMORTAR_OUT_OF_RANGE, 1, 0, 1, 2);
    sailmortar_convert(TEXT("<FIELD datatype='short'/>"), SAILMORTAR_TABLEDATA, SAILMORTAR_BINARY,
                       TEXT("<TR><TD>7</TD></TR><TR><TD>3276B</TD></TR>"), out, 8, answer);
    IS(SAILMORTAR_NO_VALUE, 1, 0, 1, 2);
    memset(out, 0xEE, sizeof out);
    sailmortar_base64_decode(TEXT("Zh=="), out, 8, answer);
    IS(SAILMORTAR_BASE64_NOT_VALID, 0, 0, 0, 0);
    sailmortar_base64_decode(TEXT("Zm9v"), out, 2, answer);
    IS(SAILMORTAR_NO_ROOM, 0, 0, 0, 0);
    sailmortar_base64_decode(TEXT("Zm9v"), out, 3, answer);
    IS(SAILMORTAR_ACCEPTED, 0, 0, 0, 3);
    if (memcmp(out, "foo\xEE", 4) != 0) return __LINE__;
    sailmortar_base64_encode(TEXT("fo"), out, 4, answer);
    IS(0, 0, 0, 0, 4);
    if (memcmp(out, "Zm8=\xEE", 5) != 0) return __LINE__;
    sailmortar_declare(TEXT("<FIELD datatype='int'/><FIELD datatype='int'/>"), answer);
    IS(0, 0, 0, 2, 0);
    sailmortar_declare(TEXT("<FIELD datatype='int'/><FIELD datatype='real'/>"), answer);
    IS(SAILMORTAR_DATATYPE_NOT_CARRIED, 0, 1, 0, 0);
    if (answer[SAILMORTAR_PLACE] != 1 || answer[SAILMORTAR_COLUMNS] != 0) return __LINE__;
    if (SAILMORTAR_NUMBER != 0 || SAILMORTAR_ROW != 1 || SAILMORTAR_COLUMN != 2) return __LINE__;
    if (SAILMORTAR_ROWS != 3 || SAILMORTAR_BYTES != 4 || SAILMORTAR_END != 5) return __LINE__;
    if (SAILMORTAR_DECLARATIONS_BROKEN != 1 || SAILMORTAR_ARRAYSIZE_NOT_CARRIED != 3 || SAILMORTAR_NULL_NO_VALUE != 4) return __LINE__;
    if (SAILMORTAR_COLUMNS_OUT_OF_RANGE != 5 || SAILMORTAR_INPUT_OVER_SIZE != 6 || SAILMORTAR_STREAM_ENDS != 8) return __LINE__;
    if (SAILMORTAR_COUNT_OVER_BOUND != 9 || SAILMORTAR_TABLEDATA_BROKEN != 10 || SAILMORTAR_NO_VALUE != 11) return __LINE__;
    if (SAILMORTAR_WRONG_LENGTH != 12 || SAILMORTAR_PADDING_NOT_ZERO != 13 || SAILMORTAR_EMPTY_HAS_NO_FORM != 14) return __LINE__;
    if (SAILMORTAR_CHARACTER_HAS_NO_FORM != 16 || SAILMORTAR_OUT_OF_RANGE != 18 || SAILMORTAR_BINARY2 != 2) return __LINE__;
    return 0;
}
"#;

/// The program of a text, compiled; the source has the name given.
fn program(compiler: &str, words: &[&str], name: &str, text: &str) -> PathBuf {
    let (source, program) = (scratch(name), scratch(&format!("{name}.program")));
    fs::write(&source, text).expect("a scratch file");
    compile(compiler, words, &source, &program);
    program
}

fn assert_no_line_is_wrong(command: &mut Command) {
    let output = command.output().expect("it runs");
    assert_eq!(output.status.code(), Some(0), "the status is the line that is wrong\n{}", String::from_utf8_lossy(&output.stderr));
}

fn is_here(tool: &str) -> bool {
    let here = Command::new(tool).arg("--version").output().is_ok();
    if !here {
        eprintln!("there is no {tool} here: not run");
    }
    here
}

#[test]
fn every_function_and_number_from_c() {
    assert_no_line_is_wrong(&mut Command::new(program("cc", &["-std=c99"], "cases.c", CASES)));
}

#[test]
fn every_function_and_number_from_cplusplus() {
    if is_here("c++") {
        assert_no_line_is_wrong(&mut Command::new(program("c++", &[], "cases.cc", CASES)));
    }
}

/// The same cases in a thread that has as much stack as the header says; more than that ends the program.
const IN_A_THREAD: &str = r#"
#include <pthread.h>
static void *in_a_thread(void *wrong) {
    *(int *)wrong = cases();
    return NULL;
}
int main(void) {
    pthread_attr_t attributes;
    pthread_t thread;
    int wrong = 255;
    if (pthread_attr_init(&attributes) != 0 || pthread_attr_setstacksize(&attributes, 128 * 1024) != 0) return 254;
    if (pthread_create(&thread, &attributes, in_a_thread, &wrong) != 0 || pthread_join(thread, NULL) != 0) return 253;
    return wrong;
}
"#;

#[test]
fn every_function_in_128_kb_of_stack() {
    let text = CASES.replace("int main(void)", "static int cases(void)") + IN_A_THREAD;
    assert_no_line_is_wrong(&mut Command::new(program("cc", &["-std=gnu99", "-pthread"], "thread.c", &text)));
}

const VERSION: &str = r#"
#include "sailmortar.h"
#include <stdio.h>
int main(void) {
    printf("%s %s\n", SAILMORTAR_VERSION, sailmortar_version());
    return 0;
}
"#;

#[test]
fn the_header_and_the_library_have_the_version_of_the_package() {
    let output = Command::new(program("cc", &["-std=c99"], "version.c", VERSION)).output().expect("it runs");
    let version = env!("CARGO_PKG_VERSION");
    assert_eq!(String::from_utf8_lossy(&output.stdout), format!("{version} {version}\n"));
}

/// Each pointer that has a length, null with the length 0, alone and with the others; the program's status is the line that is wrong.
const NULLS: &str = r#"
#include "sailmortar.h"
#include <string.h>
#define IS(number) \
    if (answer[0] != (number) || answer[1] != 0 || answer[2] != 0 || answer[3] != 0 || answer[4] != 0) return __LINE__; \
    if (out[0] != 0xEE || answer[5] != sixth) return __LINE__; \
    memset(answer, 0xEE, sizeof answer)
static const uint8_t decls[] = "<FIELD datatype='short'/>";
static const uint8_t row[3][20] = {"<TR><TD>7</TD></TR>", {0, 7}, {0, 0, 7}};
static const size_t length[3] = {19, 2, 3};
static uint8_t out[64] = {0xEE};
static uint64_t answer[6];
/* What a call of five numbers leaves there. */
static uint64_t sixth = 0xEEEEEEEEEEEEEEEEu;
typedef void conversion(const uint8_t *, size_t, uint32_t, uint32_t, const uint8_t *, size_t, uint8_t *, size_t, uint64_t *);
static int nulls_in_rows(conversion *convert, uint32_t from, uint32_t to) {
    convert(NULL, 0, from, to, row[from], length[from], out, sizeof out, answer);
    IS(SAILMORTAR_COLUMNS_OUT_OF_RANGE);
    convert(decls, sizeof decls - 1, from, to, NULL, 0, out, sizeof out, answer);
    IS(SAILMORTAR_ACCEPTED);
    convert(decls, sizeof decls - 1, from, to, row[from], length[from], NULL, 0, answer);
    IS(SAILMORTAR_NO_ROOM);
    convert(decls, sizeof decls - 1, from, to, NULL, 0, NULL, 0, answer);
    IS(SAILMORTAR_ACCEPTED);
    convert(NULL, 0, from, to, NULL, 0, NULL, 0, answer);
    IS(SAILMORTAR_COLUMNS_OUT_OF_RANGE);
    convert(NULL, 0, 3, to, NULL, 0, NULL, 0, answer);
    IS(SAILMORTAR_NO_SUCH_KIND);
    return 0;
}
static int nulls_in_an_index(uint32_t from) {
    uint32_t starts[1] = {0};
    sailmortar_index(NULL, 0, from, row[from], length[from], starts, 1, answer);
    IS(SAILMORTAR_COLUMNS_OUT_OF_RANGE);
    sailmortar_index(decls, sizeof decls - 1, from, NULL, 0, starts, 1, answer);
    IS(SAILMORTAR_ACCEPTED);
    sailmortar_index(decls, sizeof decls - 1, from, NULL, 0, NULL, 0, answer);
    IS(SAILMORTAR_ACCEPTED);
    sailmortar_index(decls, sizeof decls - 1, from, row[from], length[from], NULL, 0, answer);
    IS(SAILMORTAR_NO_ROOM);
    sailmortar_index(NULL, 0, 0, NULL, 0, NULL, 0, answer);
    IS(SAILMORTAR_NO_SUCH_KIND);
    sailmortar_fetch(NULL, 0, from, row[from], length[from], starts, 1, 1, 0, out, sizeof out, answer);
    IS(SAILMORTAR_COLUMNS_OUT_OF_RANGE);
    sailmortar_fetch(decls, sizeof decls - 1, from, NULL, 0, starts, 1, 1, 0, out, sizeof out, answer);
    IS(SAILMORTAR_STREAM_ENDS);
    sailmortar_fetch(decls, sizeof decls - 1, from, row[from], length[from], NULL, 0, 1, 0, out, sizeof out, answer);
    IS(SAILMORTAR_PAST_THE_END);
    sailmortar_fetch(decls, sizeof decls - 1, from, row[from], length[from], starts, 1, 1, 0, NULL, 0, answer);
    IS(SAILMORTAR_NO_ROOM);
    sailmortar_fetch(decls, sizeof decls - 1, from, NULL, 0, NULL, 0, 0, 0, NULL, 0, answer);
    IS(SAILMORTAR_PAST_THE_END);
    sailmortar_fetch(NULL, 0, 0, NULL, 0, NULL, 0, 0, 0, NULL, 0, answer);
    IS(SAILMORTAR_NO_SUCH_KIND);
    return 0;
}
static int nulls_in_comparing(uint32_t from, uint32_t from_second) {
    uint64_t eight[8];
    uint32_t places[2] = {0, 0};
#define COMPARES(number, input, beyond, beyond_second) \
    if (eight[0] != (number) || eight[3] != (input) || eight[4] != 0 || eight[5] != (beyond) || eight[6] != (beyond_second)) return __LINE__; \
    if (eight[1] != 0 || eight[2] != 0 || eight[7] != 0) return __LINE__
    sailmortar_compare(NULL, 0, from, row[from], length[from], from_second, row[from_second], length[from_second], places, 2, eight);
    COMPARES(SAILMORTAR_COLUMNS_OUT_OF_RANGE, 0, 0, 0);
    sailmortar_compare(decls, sizeof decls - 1, from, NULL, 0, from_second, row[from_second], length[from_second], places, 2, eight);
    COMPARES(SAILMORTAR_ACCEPTED, 0, 0, 1);
    sailmortar_compare(decls, sizeof decls - 1, from, row[from], length[from], from_second, NULL, 0, places, 2, eight);
    COMPARES(SAILMORTAR_ACCEPTED, 0, 1, 0);
    sailmortar_compare(decls, sizeof decls - 1, from, row[from], length[from], from_second, row[from_second], length[from_second], NULL, 0, eight);
    COMPARES(SAILMORTAR_ACCEPTED, 0, 0, 0);
    sailmortar_compare(decls, sizeof decls - 1, from, NULL, 0, from_second, NULL, 0, NULL, 0, eight);
    COMPARES(SAILMORTAR_ACCEPTED, 0, 0, 0);
    sailmortar_compare(NULL, 0, from, NULL, 0, 3, NULL, 0, NULL, 0, eight);
    COMPARES(SAILMORTAR_NO_SUCH_KIND, 0, 0, 0);
    return 0;
}
static int nulls_elsewhere(void) {
    sailmortar_base64_decode(NULL, 0, out, sizeof out, answer);
    IS(SAILMORTAR_ACCEPTED);
    sailmortar_base64_decode((const uint8_t *)"Zg==", 4, NULL, 0, answer);
    IS(SAILMORTAR_NO_ROOM);
    sailmortar_base64_decode(NULL, 0, NULL, 0, answer);
    IS(SAILMORTAR_ACCEPTED);
    sailmortar_base64_encode(NULL, 0, out, sizeof out, answer);
    IS(SAILMORTAR_ACCEPTED);
    sailmortar_base64_encode((const uint8_t *)"f", 1, NULL, 0, answer);
    IS(SAILMORTAR_NO_ROOM);
    sailmortar_base64_encode(NULL, 0, NULL, 0, answer);
    IS(SAILMORTAR_ACCEPTED);
    sailmortar_declare(NULL, 0, answer);
    IS(SAILMORTAR_COLUMNS_OUT_OF_RANGE);
    return 0;
}
static int nulls_in_joining(void) {
    uint64_t joined[8] = {1, 2, 3, 4, 5, 6, 7, 8}, same[8];
    memcpy(same, joined, sizeof same);
    sailmortar_join(9, 9, NULL, 0, joined);
    return memcmp(same, joined, sizeof same) == 0 ? 0 : __LINE__;
}
int main(void) {
    memset(answer, 0xEE, sizeof answer);
    int wrong = nulls_elsewhere();
    if (wrong == 0) wrong = nulls_in_joining();
    for (uint32_t pair = 0; pair < 9 && wrong == 0; pair++) wrong = nulls_in_comparing(pair / 3, pair % 3);
    for (uint32_t from = 1; from < 3 && wrong == 0; from++) wrong = nulls_in_an_index(from);
    for (uint32_t way = 0; way < 9 && wrong == 0; way++) wrong = nulls_in_rows(sailmortar_convert, way / 3, way % 3);
    sixth = 0;
    for (uint32_t way = 0; way < 9 && wrong == 0; way++) wrong = nulls_in_rows(sailmortar_convert_piece, way / 3, way % 3);
    return wrong;
}
"#;

#[test]
fn a_pointer_may_be_null_where_its_length_is_0() {
    assert_no_line_is_wrong(&mut Command::new(program("cc", &["-std=c99"], "nulls.c", NULLS)));
}

#[test]
fn valgrind_sees_nothing_wrong_with_null_pointers() {
    if is_here("valgrind") {
        let program = program("cc", &["-std=c99"], "nulls_under_valgrind.c", NULLS);
        assert_no_line_is_wrong(Command::new("valgrind").args(["--quiet", "--error-exitcode=255"]).arg(program));
    }
}

/// The numbers that the header gives names to, in its list of refusal numbers.
fn listed_numbers() -> Vec<(String, u64)> {
    let header = fs::read_to_string(Path::new(ROOT).join("include/sailmortar.h")).expect("the header");
    let list = header.split("/* Refusal numbers. */").nth(1).and_then(|rest| rest.split("};").next()).expect("the list");
    let entries = list.lines().filter_map(|line| line.trim().strip_prefix("SAILMORTAR_")?.split_once(" = "));
    entries.map(|(name, rest)| (name.to_string(), rest.split([',', ' ']).next().unwrap_or_default().parse().expect("a number"))).collect()
}

#[test]
fn the_header_names_every_number_as_the_library_does() {
    let accepted = ("ACCEPTED".to_string(), 0);
    let numbers = sailmortar::NUMBERS.iter().map(|known| (known.name.to_string(), known.number));
    assert_eq!(listed_numbers(), std::iter::once(accepted).chain(numbers).collect::<Vec<_>>());
}
