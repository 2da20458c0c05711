/*
 * Sailmortar: rows of VOTable tables between TABLEDATA, BINARY and BINARY2, any to any, and base64; one row of a long stream by an index; where
 * two inputs of rows differ; and parts of an input, converted on several cores, as one.
 *
 * Link target/library/libsailmortar.a, or libsailmortar.so beside it; once installed, what `pkg-config --cflags --libs sailmortar` says.
 * All functions but sailmortar_version are proved: whatever bytes come in, the answer is rows or one numbered refusal with its row and
 * column, the good rows before it stand whole in the output, and every byte of the output after them is as it was. They allocate nothing,
 * keep nothing between calls, may be called from several threads at once, and use less than 128 KB of stack.
 *
 * What the caller sees to: a length is the number of bytes behind its pointer, of an index or of places the number of its 32-bit numbers, of parts
 * that of its 64-bit numbers; a pointer may be null where its length is 0, `answer` and `joined` never; `out`, an index that is filled, places,
 * `answer` and `joined` overlap nothing else; no length is over PTRDIFF_MAX bytes.
 */
#ifndef SAILMORTAR_H
#define SAILMORTAR_H

#include <stddef.h>
#include <stdint.h>

#ifdef __cplusplus
extern "C" {
#endif

/* The version of this header. */
#define SAILMORTAR_VERSION "0.1.0"

/* The version of the library that the program runs with: text that stays, not to be freed. */
const char *sailmortar_version(void);

/* Kinds of rows. */
enum {
    SAILMORTAR_TABLEDATA = 0,
    SAILMORTAR_BINARY = 1,
    SAILMORTAR_BINARY2 = 2
};

/* Places in the answer of a conversion, a base64 step, an index or a fetch. */
enum {
    SAILMORTAR_NUMBER = 0, /* 0 accepted, else the refusal's number */
    SAILMORTAR_ROW = 1,    /* the refused row, from 0 */
    SAILMORTAR_COLUMN = 2, /* the refused column, from 0; for 1 to 5 the whole FIELDs before the refused element */
    SAILMORTAR_ROWS = 3,   /* how many rows stand whole in the output, or were read for an index; 0 for base64 */
    SAILMORTAR_BYTES = 4   /* how many bytes were written */
};

/* One place more in the answer of sailmortar_convert_piece. */
enum {
    SAILMORTAR_END = 5 /* where in the input the rows done end */
};

/* Places in the answer of sailmortar_declare; the number is at SAILMORTAR_NUMBER, the other two are 0. */
enum {
    SAILMORTAR_PLACE = 2,  /* the whole FIELDs before the refused element */
    SAILMORTAR_COLUMNS = 3 /* how many columns are declared; 0 where the declarations are refused */
};

/* Places in the answer of sailmortar_compare; the number, the refused row and the refused column stand before them, as in every answer. */
enum {
    SAILMORTAR_INPUT = 3,         /* which input is refused: 0 the first, and where the declarations are refused; 1 the second */
    SAILMORTAR_DIFFERING = 4,     /* how many cells show differently, in the rows that both inputs have */
    SAILMORTAR_FIRST_BEYOND = 5,  /* how many rows the first input has beyond the second */
    SAILMORTAR_SECOND_BEYOND = 6, /* how many rows the second input has beyond the first */
    SAILMORTAR_PLACES = 7         /* how many places were filled, each of them two numbers */
};

/* Two places more in `joined` of sailmortar_join; the six of sailmortar_convert_piece stand before them. */
enum {
    SAILMORTAR_PARTS = 6, /* how many parts were joined */
    SAILMORTAR_ENDED = 7  /* 1 where no part is to follow, else 0 */
};

/* Refusal numbers. */
enum {
    SAILMORTAR_ACCEPTED = 0,
    SAILMORTAR_DECLARATIONS_BROKEN = 1,    /* declarations not of the shape that is carried */
    SAILMORTAR_DATATYPE_NOT_CARRIED = 2,   /* none of boolean, bit, unsignedByte, short, int, long, char */
    SAILMORTAR_ARRAYSIZE_NOT_CARRIED = 3,  /* none of n, n* and *, n from 1 to 4096 */
    SAILMORTAR_NULL_NO_VALUE = 4,          /* a declared null that is not a value of its column */
    SAILMORTAR_COLUMNS_OUT_OF_RANGE = 5,   /* no column, or a 65th */
    SAILMORTAR_INPUT_OVER_SIZE = 6,        /* declarations over 65,536 bytes, or another input over 1,073,741,824 */
    SAILMORTAR_BASE64_NOT_VALID = 7,       /* base64 not valid */
    SAILMORTAR_STREAM_ENDS = 8,            /* a BINARY or BINARY2 stream ends inside a row */
    SAILMORTAR_COUNT_OVER_BOUND = 9,       /* an element count over the column's bound */
    SAILMORTAR_TABLEDATA_BROKEN = 10,      /* tags or references broken, or the wrong number of cells */
    SAILMORTAR_NO_VALUE = 11,              /* a byte or text that is no value of its kind */
    SAILMORTAR_WRONG_LENGTH = 12,          /* a text cell with the wrong number of elements for its column */
    SAILMORTAR_PADDING_NOT_ZERO = 13,      /* a padding bit that is 1 */
    SAILMORTAR_EMPTY_HAS_NO_FORM = 14,     /* empty but not null, and the target has no form for it */
    SAILMORTAR_NULL_HAS_NO_FORM = 15,      /* null, and the target has no form for it */
    SAILMORTAR_CHARACTER_HAS_NO_FORM = 16, /* a character that has no XML form */
    SAILMORTAR_NO_ROOM = 17,               /* the row, or the base64 result, is longer than the room left, or an index has no place left */
    SAILMORTAR_OUT_OF_RANGE = 18,          /* an integer outside its kind's range */
    SAILMORTAR_PAST_THE_END = 20,          /* a row that the stream, or its index, does not have */
    SAILMORTAR_NO_SUCH_KIND = 255          /* a kind is none of 0, 1 and 2, for an index none of 1 and 2; nothing else is judged */
};

/*
 * Converts the rows of `input`, of the kind `from`, to rows of the kind `to`, into `out`. `decls` is the text of the FIELD elements.
 * At SAILMORTAR_NO_ROOM the rows before are written; call again with more room.
 *
 * In a text of TABLEDATA a line end is one character, 10, whether it was written as 13 10, as 13 or as 10 (XML 1.0, section 2.11); a
 * carriage return is kept only where it is written as &#13; or &#xD;, and is written as &#xD;.
 */
void sailmortar_convert(const uint8_t *decls, size_t decls_length, uint32_t from, uint32_t to, const uint8_t *input, size_t input_length,
                        uint8_t *out, size_t out_length, uint64_t answer[5]);

/*
 * The same for a piece of a table, such as its front while the rest is still to come. Sixth in the answer is the place in `input` right behind
 * the last row done, and the next piece begins there, with what has come since. White space between two rows of TABLEDATA stands behind that
 * place: it goes with the row that follows. On acceptance the place is the length of `input`; where declarations, kinds or the size of `input`
 * are refused it is 0.
 */
void sailmortar_convert_piece(const uint8_t *decls, size_t decls_length, uint32_t from, uint32_t to, const uint8_t *input, size_t input_length,
                              uint8_t *out, size_t out_length, uint64_t answer[6]);

/* Decodes base64 (RFC 4648, white space skipped anywhere). A refusal, 6, 7 or 17, writes nothing. (n / 4 + 1) * 3 bytes are room enough. */
void sailmortar_base64_decode(const uint8_t *input, size_t input_length, uint8_t *out, size_t out_length, uint64_t answer[5]);

/* Encodes base64, without line breaks or a NUL at the end. A refusal, 6 or 17, writes nothing. (n + 2) / 3 * 4 bytes are room enough. */
void sailmortar_base64_encode(const uint8_t *input, size_t input_length, uint8_t *out, size_t out_length, uint64_t answer[5]);

/* Judges declarations alone, and counts their columns. */
void sailmortar_declare(const uint8_t *decls, size_t decls_length, uint64_t answer[5]);

/* How many rows stand from one start in an index to the next. */
enum {
    SAILMORTAR_ROWS_PER_START = 64
};

/*
 * Where every 64th row of a stream of BINARY or BINARY2 begins: place k of `index` gets the start of row 64k, as a byte of `input`. At
 * SAILMORTAR_ROWS the answer has how many rows were read, which sailmortar_fetch takes with the index; at SAILMORTAR_BYTES it has 0. A stream
 * that does not read is refused as in sailmortar_convert. Place k is filled once row 64k is read; every other place is as it was. A row 64k for
 * which there is no place k is SAILMORTAR_NO_ROOM, at column 0. (input_length + 63) / 64 places are room enough.
 */
void sailmortar_index(const uint8_t *decls, size_t decls_length, uint32_t from, const uint8_t *input, size_t input_length, uint32_t *index,
                      size_t index_length, uint64_t answer[5]);

/*
 * One row of such a stream as a line of TABLEDATA, by the index and the rows that sailmortar_index gave for the same stream and declarations: what
 * converting that row alone gives. A refusal stands at the row asked for, and `out` is as it was: SAILMORTAR_PAST_THE_END where the stream has no
 * such row, what the row is refused with where it has no form in TABLEDATA, SAILMORTAR_NO_ROOM where its line does not fit.
 *
 * What is answered depends, of `input`, only on its length and on the bytes from the start at place row / 64 to the row's end (where that row, or one
 * on the way to it, does not read, on all that follow the start), and, of `index`, only on its length and that place. So a stream in a file need not be
 * read whole: all else may be zeros. With an index of another stream it is some row, or a refusal.
 */
void sailmortar_fetch(const uint8_t *decls, size_t decls_length, uint32_t from, const uint8_t *input, size_t input_length, const uint32_t *index,
                      size_t index_length, uint64_t rows, uint64_t row, uint8_t *out, size_t out_length, uint64_t answer[5]);

/*
 * Where two inputs under the same declarations differ, each of any kind of rows. Two cells differ where what they show differs: how it is spelled does
 * not matter, nor what stands under a null flag or behind a NUL. A cell of BINARY2 that is empty and not null differs from a null; no other kind has such
 * cells. The answer has how many cells differ in the rows that both inputs have, all of them, and how many rows each has beyond the other, of which one
 * is 0: the inputs show the same where all three are 0.
 *
 * `places` gets the first places that differ in the order of rows, and in a row of columns, each as two numbers: the row and the column, both from 0. As
 * many are filled as fit, and every other number is as it was, the last one of an odd length among them.
 *
 * The first input is judged first, all of it: the declarations, its size, its rows; then the second: its size, its rows. They are judged as in a
 * conversion to BINARY2 with room enough, so that only reading can refuse. At a refusal all counts are 0 and `places` is as it was.
 */
void sailmortar_compare(const uint8_t *decls, size_t decls_length, uint32_t from_first, const uint8_t *first, size_t first_length, uint32_t from_second,
                        const uint8_t *second, size_t second_length, uint32_t *places, size_t places_length, uint64_t answer[8]);

/* How many numbers a part has. */
enum {
    SAILMORTAR_PART_NUMBERS = 9
};

/*
 * Parts of an input, each converted by itself, joined to what one call on all of it answers: so an input can be converted on several cores, or while it
 * is read. A part has nine numbers: where in the input it begins, its length, the room it was given, and the six that sailmortar_convert_piece answered.
 * `parts_length` counts numbers, and those behind the last whole nine are not looked at.
 *
 * `joined` is all 0 at first. Each call goes on with the next parts, and `joined` gets how far that has come: six numbers as of one
 * sailmortar_convert_piece, how many parts were joined, and whether that is the end. A part is joined where it begins at `joined`'s SAILMORTAR_END, and
 * what it has written is not more than there is room left; else it and those behind it are not. One that was cut in the middle of a row, or whose own
 * room was full, is joined up to that row, and the next has to begin there: SAILMORTAR_END says where. So wherever an input is cut, a wrong cut only
 * costs time.
 *
 * `length` is that of the input, or UINT64_MAX while it is not known; `room` that of the whole output, or UINT64_MAX where it takes all. Once it has
 * ended, the numbers are those of one call on all of the input with that room, and what the joined parts have written, one behind the other, is what that
 * call writes. A last part from SAILMORTAR_END to the end of the input, which may be empty, with the room that is left always ends it. The place alone may
 * be another: where a part of TABLEDATA was cut behind white space it stands there, and one call's before the white space.
 *
 * An input over 1 GiB, which one call refuses, is joined as any other is; a part over 1 GiB is not joined.
 */
void sailmortar_join(uint64_t length, uint64_t room, const uint64_t *parts, size_t parts_length, uint64_t joined[8]);

#ifdef __cplusplus
}
#endif

#endif
