"""Rows of VOTable tables between TABLEDATA, BINARY and BINARY2, any to any, base64, one row of a long stream, and two nights compared.

    >>> import io, sailmortar
    >>> fields = b"<FIELD datatype='short'><VALUES null='-99'/></FIELD>"
    >>> sailmortar.convert(fields, "tabledata", "binary2", b"<TR><TD>7</TD></TR><TR><TD/></TR>").hex(" ")
    '00 00 07 80 00 00'
    >>> try:
    ...     sailmortar.convert(fields, "tabledata", "binary", b"<TR><TD>7</TD></TR><TR><TD>seven</TD></TR>")
    ... except sailmortar.Refused as refused:
    ...     print(refused, refused.output)
    refusal 11 at row 1, column 0: a byte or a text that is no value of its kind b'\\x00\\x07'
    >>> reader, writer = io.BytesIO(bytes.fromhex("00 00 07 80 00 00")), io.BytesIO()
    >>> sailmortar.convert_stream(fields, "binary2", "tabledata", reader, writer).rows, writer.getvalue()
    (2, b'<TR><TD>7</TD></TR>\\n<TR><TD/></TR>\\n')
    >>> sailmortar.columns(fields)
    [Column(place=0, name=None, kind='short', length='1', bound=1, null=-99)]
    >>> index = sailmortar.Index.build(fields, "binary2", bytes.fromhex("00 00 07 80 00 00"))
    >>> index.rows, index.fetch(fields, bytes.fromhex("00 00 07 80 00 00"), 0)
    (2, b'<TR><TD>7</TD></TR>\\n')
    >>> sailmortar.compare(fields, "binary2", bytes.fromhex("00 00 07 80 00 00"), "tabledata", b"<TR><TD>+7</TD></TR><TR><TD>8</TD></TR>")
    Comparison(differing=1, first_beyond=0, second_beyond=0, places=[(1, 0)])

The converter is proved: whatever bytes come in, the answer is rows or one numbered refusal with its row and column, and the rows before it
stand. This file is the thin, unproved layer over its shared library, libsailmortar.so.0. Where the environment names a file in
SAILMORTAR_LIBRARY, that file is loaded and no other; else the library is looked for beside this file, in ../target/library/ (where
'cargo build' makes it), in ../../ (the lib/ that site-packages stands under), and last where the system looks for libraries.

Every argument that is bytes may be any buffer: bytes, bytearray, memoryview, mmap, array, a numpy array. What counts is its bytes in their
order, as tobytes() has them, so that the numbers in an array of wider items must be big-endian. A buffer in one piece is read where it
lies, without a copy: nobody may write to it while a call reads it. What is no buffer (a str, an int, a list, a single numpy number) is a
TypeError.
"""

from __future__ import annotations

import array
import collections
import concurrent.futures
import ctypes
import enum
import errno
import functools
import io
import mmap
import operator
import os
import pathlib
import re
import stat
import struct
from typing import TYPE_CHECKING, Any, Callable, Deque, Dict, List, NamedTuple, Optional, Protocol, Tuple, Union

if TYPE_CHECKING:
    from typing_extensions import Buffer  # Type checkers know it without the package.
else:
    Buffer = Union[bytes, bytearray, memoryview]

__all__ = ["Answer", "Column", "Comparison", "Index", "MEANINGS", "Refused", "Rows", "__version__"]
__all__ += ["base64_decode", "base64_encode", "columns", "compare", "convert", "convert_stream", "declare"]

__version__ = "0.1.0"


class Rows(enum.IntEnum):
    """A kind of rows."""

    TABLEDATA = 0
    BINARY = 1
    BINARY2 = 2

    @classmethod
    def named(cls, kind: Union["Rows", str]) -> "Rows":
        """The kind itself, or the one of this name in any capitals."""
        if isinstance(kind, Rows):
            return kind
        # Other alphabets have letters whose capitals are these.
        if isinstance(kind, str) and kind.isascii() and kind.upper() in cls.__members__:
            return cls[kind.upper()]
        raise ValueError(f"{kind!r} is no kind of rows: give tabledata, binary or binary2")


class Column(NamedTuple):
    """A column, as its FIELD was understood."""

    place: int
    """The column's place, from 0."""
    name: Optional[str]
    """The FIELD's `name` (the first, should it have several), with references in it as they stand; None where it has none."""
    kind: str
    """The datatype: boolean, bit, unsignedByte, short, int, long or char."""
    length: str
    """The arraysize as VOTable writes it: '40' for so many elements in each cell, '40*' for up to so many, '*' for any number of them."""
    bound: int
    """The most elements of a cell; 4096 for '*'."""
    null: Optional[int]
    """The value that is null, where one is declared and counts: only a single integer can have one."""


class Answer(NamedTuple):
    """The whole answer of a call."""

    number: int
    """0 for accepted, else the refusal's number."""
    row: int
    """The refused row, from 0."""
    column: int
    """The refused column, from 0; for refusals 1 to 5 the number of whole FIELDs before the refused element."""
    rows: int
    """How many rows stand whole in the output, or were read for an index."""
    bytes: int
    """How many bytes were written."""


MEANINGS = {
    1: "the declarations are not FIELD elements of the shape that is carried",
    2: "a datatype that is not carried",
    3: "an arraysize that is not n, n* or * (n from 1 to 4096)",
    4: "a declared null that is not a value of its column",
    5: "no column at all, or a 65th",
    6: "an input over its size",
    7: "the base64 is not valid",
    8: "the BINARY or BINARY2 stream ends inside a row",
    9: "an element count over the column's bound",
    10: "TABLEDATA tags or references are broken, or the number of cells is wrong",
    11: "a byte or a text that is no value of its kind",
    12: "a text cell with the wrong number of elements for its column",
    13: "a padding bit that is 1",
    14: "a cell that is empty but not null, and the target has no form for that",
    15: "a null, and the target has no form for it",
    16: "a character that has no XML form",
    17: "the row, or the base64 result, is longer than the room left, or an index has no place left",
    18: "an integer outside its kind's range",
    20: "a row past the end of the stream",
    255: "a kind of rows that the call does not know, or does not take",
}
"""What each refusal's number means."""

_OVER_SIZE = 6
_NO_ROOM = 17
_FIRST_OF_ROWS = 8  # Refusals below this number are of declarations, sizes and base64: no row was read.


class Refused(ValueError):
    """A refusal: why and where it stopped, and the good rows before it. It can be pickled and copied."""

    def __init__(
        self, answer: Answer, output: bytes = b"", offset: int = 0, name: Optional[str] = None, input: Optional[int] = None
    ) -> None:
        self.answer = answer
        """The whole answer; its number, row and column are attributes of the refusal too."""
        self.number, self.row, self.column = answer.number, answer.row, answer.column
        self.output = output
        """The rows before the refused one, converted; empty where they went to a writer."""
        self.offset = offset
        """The byte of the input where the refused row begins, which is where the row before it ends: white space before a row of TABLEDATA
        belongs to that row. It is 0 where no row was read (1 to 7)."""
        self.name = name
        """The name of the refused column, where it has one and a cell of it is refused: no flags, and no start or end of a row."""
        self.index: Optional[Index] = None
        """The index of the rows before the refused one, where an index was built; they can be fetched by it."""
        self.input = input
        """Which of two inputs is refused, 0 or 1, where two were compared; None where their declarations are."""
        super().__init__(self._words())

    def __reduce__(self) -> Tuple[object, ...]:
        # An exception is made again from its words alone unless it says otherwise.
        return type(self), (self.answer, self.output, self.offset, self.name, self.input), self.__dict__

    def _words(self) -> str:
        return ("" if self.input is None else ("the first input: ", "the second input: ")[self.input]) + self._refusal()

    def _refusal(self) -> str:
        meaning = MEANINGS.get(self.number, "no refusal of this number is known")
        if self.number <= 5:
            whole = "FIELD" if self.column == 1 else "FIELDs"
            return f"refusal {self.number} in the declarations, at the element after {self.column} whole {whole}: {meaning}"
        if self.number < _FIRST_OF_ROWS:
            return f"refusal {self.number}: {meaning}"
        return f"refusal {self.number} at row {self.row}, column {self.column}{self._title()}: {meaning}"

    def _title(self) -> str:
        # Names come from other people's files: what a terminal would act on is spelt out, and the line is kept short.
        if not self.name:
            return ""
        shown = repr(self.name)[1:-1]
        return f" ({shown[:60]}..)" if len(shown) > 60 else f" ({shown})"


def convert(fields: Buffer, source: Union[Rows, str], target: Union[Rows, str], rows: Buffer) -> bytes:
    """Rows of the kind `source`, converted to rows of the kind `target`.

    `fields` is the text of the FIELD elements, `rows` the rows without the tags around them, base64 already decoded. A refusal is raised as
    Refused, with the rows before the bad one in its `output`. Where the system has no memory for the output it is a MemoryError.

    In a text of TABLEDATA a line end is one character, 10, whether it was written as 13 10, as 13 or as 10 (XML 1.0, section 2.11); a
    carriage return is kept only where it is written as &#13; or &#xD;, and is written as &#xD;.

    `rows` may be a piece of a table, such as its front while the rest is still to come: a row that is cut is refused (8, of TABLEDATA 10),
    and the next piece begins at the refusal's `offset`, with what has come since.
    """
    kinds = Rows.named(source), Rows.named(target)
    with _view("fields", fields) as text, _view("rows", rows) as given:
        declared = _columns(text)

        def call(out: Optional[int], room: int, numbers: object) -> None:
            _library.sailmortar_convert_piece(_address(text), text.nbytes, *kinds, _address(given), given.nbytes, out, room, numbers)

        answer, end, output = _answered(call, 2 * given.nbytes + 4096, _room(declared, *kinds, given.nbytes))
        if answer.number:
            raise Refused(answer, output, end, _refused_name(answer, end, declared, kinds[0], given))
        return output


def convert_stream(
    fields: Buffer,
    source: Union[Rows, str],
    target: Union[Rows, str],
    reader: "_Reader",
    writer: "_Writer",
    threads: Optional[int] = None,
    long: bool = False,
) -> Answer:
    """Rows of the kind `source` from a reader, converted to rows of the kind `target` into a writer: files opened in binary mode, pipes,
    io.BytesIO. Parts of them are converted at once, on so many threads; None is as many as there are cores.

    What is written, and answered or refused, is what convert gives for the whole input. A refusal is raised as Refused: the rows before
    the bad one are written, so that its `output` is empty, and its `offset` counts from where the reader stood. The reader has been read
    further than that. What a reader or a writer raises is passed on; then some rows are written.

    An input over its size, 1 GiB, is refused before any row. So a plain file is converted as it is read, up to the length that it had at
    the start; what is none (a pipe, a compressed file) is read to its end first. With `long` an input may have any length, and each is
    converted as it is read, in memory for some parts of 1 MiB a thread; a row that is not whole within 64 MiB is judged by these alone.
    """
    kinds, count = (Rows.named(source), Rows.named(target)), _thread_count(threads)
    with _view("fields", fields) as text:
        answer, offset, name = _streamed(_Way(text, _columns(text), *kinds), reader, writer, count, long)
    if answer.number:
        raise Refused(answer, b"", offset, name)
    return answer


class Comparison(NamedTuple):
    """How two inputs compare, whether they show the same or not."""

    differing: int
    """How many cells show differently, in the rows that both inputs have; all of them, however many places were asked for."""
    first_beyond: int
    """How many rows the first input has beyond the second."""
    second_beyond: int
    """How many rows the second input has beyond the first."""
    places: List[Tuple[int, int]]
    """Where the cells stand that differ, each as row and column from 0, in the order of rows, and in a row of columns."""

    @property
    def same(self) -> bool:
        """Whether both inputs have the same rows, showing the same cells."""
        return not (self.differing or self.first_beyond or self.second_beyond)


def compare(
    fields: Buffer,
    first_source: Union[Rows, str],
    first: Buffer,
    second_source: Union[Rows, str],
    second: Buffer,
    limit: Optional[int] = None,
) -> Comparison:
    """Where two inputs under the same FIELD elements differ, each of any kind of rows.

    Cells differ where what they show differs: how that is spelled does not matter. A cell of BINARY2 that is empty and not null differs from
    a null. With a `limit` no more places are handed out than that, the first ones; the counts are the same.

    The first input is judged whole before the second, and only reading can refuse. A refusal is raised as Refused, and its `input` says which
    of the two it is of.
    """
    kinds = Rows.named(first_source), Rows.named(second_source)
    most = None if limit is None else operator.index(limit)
    if most is not None and most < 0:
        raise ValueError(f"limit: {most} is no number of places")
    with _view("fields", fields) as text, _view("first", first) as one, _view("second", second) as other:
        declared = _columns(text)
        few = _FEW if most is None else min(_FEW, most)
        numbers, places = _compared(kinds, text, one, other, few)
        number, row, column, input, differing, *beyond, filled = numbers
        if number:
            raise _uncompared(Answer(number, row, column, 0, 0), input, declared, kinds[input], text, (one, other)[input])
        wanted = differing if most is None else min(differing, most)
        if filled < wanted:
            _, places = _compared(kinds, text, one, other, wanted)
        return Comparison(differing, *beyond, places)


_FEW = 1024  # Places for which there is room before it is known how many there are.
_PIECE = 1 << 22  # Room for any row of BINARY2: 64 cells of 4,096 longs take half of it.


def _compared(
    kinds: Tuple[Rows, Rows], text: memoryview, one: memoryview, other: memoryview, most: int
) -> Tuple[List[int], List[Tuple[int, int]]]:
    """What the library answers, and so many of the places that differ."""
    numbers, filled = (ctypes.c_uint64 * 8)(), array.array("I")
    with _mapping(2 * most * filled.itemsize) as mapping:
        with memoryview(mapping) as room:
            inputs = kinds[0], _address(one), one.nbytes, kinds[1], _address(other), other.nbytes
            _library.sailmortar_compare(_address(text), text.nbytes, *inputs, _address(room), 2 * most, numbers)
        filled.frombytes(mapping[: 2 * numbers[7] * filled.itemsize])
    return list(numbers), list(zip(filled[::2], filled[1::2]))


def _uncompared(answer: Answer, input: int, declared: List[Column], kind: Rows, text: memoryview, given: memoryview) -> Refused:
    """The refusal of one of two inputs."""
    offset = _refused_start(kind, text, given) if answer.number >= _FIRST_OF_ROWS else 0
    return Refused(answer, b"", offset, _refused_name(answer, offset, declared, kind, given), input)


def _refused_start(kind: Rows, text: memoryview, given: memoryview) -> int:
    """Where the row begins that does not read: converting stops there, too, and tells, a piece of the output after the other."""
    numbers, offset, start = _Numbers(), 0, _address(given) or 0
    with _mapping(_PIECE) as mapping, memoryview(mapping) as out:
        while True:
            stream = _address(text), text.nbytes, kind, Rows.BINARY2, start + offset, given.nbytes - offset
            _library.sailmortar_convert_piece(*stream, _address(out), _PIECE, numbers)
            offset += numbers[5]
            if numbers[0] != _NO_ROOM:
                return offset


_ROWS_PER_START = 64


class Index(NamedTuple):
    """Where every 64th row of a stream of BINARY or BINARY2 begins, so that one row is found without those before it."""

    source: Rows
    """The kind of the rows."""
    rows: int
    """How many rows can be fetched."""
    starts: "array.array[int]"
    """The starts of rows 0, 64, 128, .. in the stream, numbers of 32 bits."""

    @classmethod
    def build(cls, fields: Buffer, source: Union[Rows, str], rows: Buffer) -> "Index":
        """The index of a stream of the kind `source`, which is BINARY or BINARY2.

        A stream that does not read is refused as by convert, and the refusal has the index of the rows before in its `index`.
        """
        kind = Rows.named(source)
        if kind is Rows.TABLEDATA:
            raise ValueError("an index is for BINARY and BINARY2; TABLEDATA can be converted first")
        with _view("fields", fields) as text, _view("rows", rows) as given:
            declared = _columns(text)
            answer, starts = _indexed(kind, text, given)
            index = cls(kind, answer.rows, starts)
            if answer.number:
                raise _unindexed(index, answer, declared, text, given)
            return index

    def fetch(self, fields: Buffer, rows: Buffer, row: int) -> bytes:
        """A row, from 0, as a line of TABLEDATA; `fields` and `rows` are those that the index was built from.

        A refusal stands at the row asked for: 20 where there is no such row, else why it has no form in TABLEDATA. Of the stream only the row
        and those between it and the start before it are looked at. With an index of another stream the answer is some row, or a refusal.
        """
        asked = operator.index(row)
        if not 0 <= asked < 1 << 64:
            raise ValueError(f"{asked} is the number of no row: rows count from 0")
        with _view("fields", fields) as text, _view("rows", rows) as given, memoryview(self.starts) as starts:
            declared = _columns(text)
            stream = _address(text), text.nbytes, self.source, _address(given), given.nbytes

            def call(out: Optional[int], room: int, numbers: object) -> None:
                _library.sailmortar_fetch(*stream, _address(starts), len(starts), self.rows, asked, out, room, numbers)

            answer, _, output = _answered(call, _LINE, _LINE)
            if answer.number:
                is_cell = answer.number in _IN_WRITING
                raise Refused(answer, name=declared[answer.column].name if is_cell else None)
            return output


_LINE = 4096  # The room for a line at first: more than most have.
_IN_WRITING = (14, 16)  # What a row that reads is refused with: always at a cell.


def _indexed(kind: Rows, text: memoryview, given: memoryview) -> Tuple[Answer, "array.array[int]"]:
    """What the library answers, and the starts. A row takes a byte at least: there is a place for every start."""
    places = (min(given.nbytes, 1 << 30) + _ROWS_PER_START - 1) // _ROWS_PER_START
    numbers, starts = _Numbers(), array.array("I")
    with _mapping(places * starts.itemsize) as mapping:
        with memoryview(mapping) as room:
            stream = _address(text), text.nbytes, kind, _address(given), given.nbytes
            _library.sailmortar_index(*stream, _address(room), places, numbers)
        answer = Answer(*numbers[:5])
        starts.frombytes(mapping[: -(-answer.rows // _ROWS_PER_START) * starts.itemsize])
    return answer, starts


def _unindexed(index: Index, answer: Answer, declared: List[Column], text: memoryview, given: memoryview) -> Refused:
    """The refusal of a stream, with the index of the rows before it. Where its row begins the converter tells, from the last start on."""
    offset = 0
    if answer.number >= _FIRST_OF_ROWS:
        offset = index.starts[-1] if index.starts else 0
        try:
            with given.cast("B") as stream, stream[offset:] as rest:
                convert(text, index.source, Rows.BINARY2, rest)
        except Refused as there:
            offset += there.offset
    refused = Refused(answer, b"", offset, _refused_name(answer, offset, declared, index.source, given))
    refused.index = index
    return refused


def base64_decode(text: Buffer) -> bytes:
    """The bytes that a base64 text stands for (RFC 4648, white space skipped anywhere)."""
    with _view("text", text) as given:
        return _base64_step(_library.sailmortar_base64_decode, given, (given.nbytes // 4 + 1) * 3)


def base64_encode(data: Buffer) -> bytes:
    """Bytes as base64, without line breaks."""
    with _view("data", data) as given:
        return _base64_step(_library.sailmortar_base64_encode, given, (given.nbytes + 2) // 3 * 4)


def declare(fields: Buffer) -> int:
    """How many columns the FIELD elements declare."""
    with _view("fields", fields) as text:
        return _declare(text)


def columns(fields: Buffer) -> List[Column]:
    """The columns that the FIELD elements declare, each as it was understood."""
    with _view("fields", fields) as text:
        return _columns(text)


def _base64_step(function: Callable[..., None], given: memoryview, enough: int) -> bytes:
    answer, _, output = _answered(lambda out, room, numbers: function(_address(given), given.nbytes, out, room, numbers), enough, enough)
    if answer.number:
        raise Refused(answer)
    return output


def _declare(text: memoryview) -> int:
    numbers = _Numbers()
    _library.sailmortar_declare(_address(text), text.nbytes, numbers)
    number, _, place, count, *_ = numbers
    if number:
        raise Refused(Answer(number, 0, place, 0, 0))
    return count


# Arguments: any buffer, read where it lies.


def _view(argument: str, value: Buffer) -> memoryview:
    """The bytes of an argument in one piece, a copy only where they lie in several. Left by `with`, so that the buffer is free again."""
    try:
        view = memoryview(value)
    except TypeError:
        raise TypeError(_remedy(argument, value)) from None
    except (ValueError, BufferError) as cause:
        raise TypeError(f"{argument}: this {type(value).__name__} gives no bytes: {cause}") from cause
    # A single number (of numpy, of ctypes) offers its bytes too, and is no sequence of them.
    if view.ndim == 0:
        raise TypeError(_remedy(argument, value))
    if view.c_contiguous:
        return view
    with view:
        return memoryview(view.tobytes())


def _remedy(argument: str, value: object) -> str:
    remedy = "; text.encode('ascii') makes bytes of a text" if isinstance(value, str) else ""
    return f"{argument}: give bytes, bytearray, memoryview or another buffer of bytes, not {type(value).__name__}{remedy}"


class _PyBuffer(ctypes.Structure):
    """CPython's Py_buffer, which tells the address of a buffer that may not be written to; ctypes has no other way to it."""

    _fields_ = [
        ("buf", ctypes.c_void_p),
        ("obj", ctypes.c_void_p),
        ("len", ctypes.c_ssize_t),
        ("itemsize", ctypes.c_ssize_t),
        ("readonly", ctypes.c_int),
        ("ndim", ctypes.c_int),
        ("format", ctypes.c_char_p),
        ("shape", ctypes.c_void_p),
        ("strides", ctypes.c_void_p),
        ("suboffsets", ctypes.c_void_p),
        ("internal", ctypes.c_void_p),
    ]


# Made by prototypes, not taken from ctypes.pythonapi, whose functions every module of the program shares.
_get = ctypes.PYFUNCTYPE(ctypes.c_int, ctypes.py_object, ctypes.POINTER(_PyBuffer), ctypes.c_int)
_get_buffer = _get(("PyObject_GetBuffer", ctypes.pythonapi))
_release_buffer = ctypes.PYFUNCTYPE(None, ctypes.POINTER(_PyBuffer))(("PyBuffer_Release", ctypes.pythonapi))


def _address(view: memoryview) -> Optional[int]:
    """Where the bytes of a view in one piece lie, as long as the view is held; it may be 0 where there are none."""
    buffer = _PyBuffer()
    _get_buffer(view, buffer, 0)
    address = buffer.buf
    _release_buffer(buffer)
    return address


# Room for what is written.

_Numbers = ctypes.c_uint64 * 6  # The sixth is the place where the rows done end; a call without rows leaves it 0.
_Call = Callable[[Optional[int], int, object], None]

# Room takes no memory before it is written to. The system gives as much as it has memory, and not as much as a call could take at worst:
# better a MemoryError than a process that is killed while it writes.
_FRESH = mmap.MAP_PRIVATE | mmap.MAP_ANONYMOUS


def _answered(call: _Call, less: int, enough: int) -> Tuple[Answer, int, bytes]:
    """What a call answers, where the rows done end, and what it writes: in room enough or, where the system does not give so much, in `less`
    and then in more and more."""
    room = enough if _is_given(enough) else min(less, enough)
    answer, end, output = _called(call, room)
    while answer.number == _NO_ROOM:
        room = 2 * room + 1
        answer, end, output = _called(call, room)
    return answer, end, output


def _called(call: _Call, room: int) -> Tuple[Answer, int, bytes]:
    """The same in so much room."""
    numbers = _Numbers()
    with _mapping(room) as mapping:
        with memoryview(mapping) as out:
            call(_address(out), room, numbers)
        *five, end = numbers
        answer = Answer(*five)
        if answer.number == _NO_ROOM:
            return answer, end, b""
        # What is left over goes back first: where address space is short, the copy may need it.
        mapping.resize(max(answer.bytes, 1))
        return answer, end, mapping[: answer.bytes]


def _mapping(room: int) -> mmap.mmap:
    try:
        return mmap.mmap(-1, max(room, 1), flags=_FRESH)
    except OSError as cause:
        raise MemoryError(f"the system gives no {room} bytes for the output: {cause}") from cause


def _is_given(room: int) -> bool:
    try:
        _mapping(room).close()
    except MemoryError:
        return False
    return True


class _Elements(NamedTuple):
    """How long an element of a kind is."""

    bits: int  # In BINARY and BINARY2.
    shortest: int  # Bytes in TABLEDATA, with the space to the next element where there is one: `7 `.
    longest: int  # As it is written: `-32768 `, `&amp;`.


_ELEMENTS = {
    "boolean": _Elements(8, 2, 2),
    "bit": _Elements(1, 1, 1),
    "unsignedByte": _Elements(8, 2, 4),
    "short": _Elements(16, 2, 7),
    "int": _Elements(32, 2, 12),
    "long": _Elements(64, 2, 21),
    "char": _Elements(8, 1, 5),
}


def _room(declared: List[Column], source: Rows, target: Rows, length: int) -> int:
    """How many bytes `length` bytes of rows can become at most.

    A row read takes at least `least` bytes and its content on top; written it takes at most `most` bytes and, for each byte of content, so
    many as its column's ratio says. (most + ratio * content) / (least + content) lies between most / least and ratio: the greatest of these
    holds for every row, and so for all of them together. It is large where null cells are long: the 5 bytes of <TD/> become 32,768 in a
    column of 4,096 longs.
    """
    least = _around(source, declared) + sum(_least_read(column, source) for column in declared)
    # One more, since a row of text ends its line.
    most = 1 + _around(target, declared) + sum(_most_written(column, source, target) for column in declared)
    ratios = [(most, least)] + [_content_ratio(column, source, target) for column in declared if _has_content(column, source, target)]
    return max(length * written // read for written, read in ratios)


def _around(kind: Rows, declared: List[Column]) -> int:
    """The bytes of a row around its cells: <TR> and </TR>, nothing, or flags."""
    return {Rows.TABLEDATA: 9, Rows.BINARY: 0, Rows.BINARY2: (len(declared) + 7) // 8}[kind]


def _least_read(column: Column, source: Rows) -> int:
    """The fewest bytes of a cell: <TD/>, a count of 0, or the whole of a fixed cell."""
    if source is Rows.TABLEDATA:
        return 5
    return 4 if _is_counted(column) else _fixed_bytes(column)


def _most_written(column: Column, source: Rows, target: Rows) -> int:
    """The most bytes of a cell but for its content: <TD> and </TD>, or a count and the byte of its last bits; of one without, all of it."""
    if target is Rows.TABLEDATA:
        return 9 if _has_content(column, source, target) else 9 + column.bound * _ELEMENTS[column.kind].longest
    return 4 + 1 if _is_counted(column) else _fixed_bytes(column)


def _has_content(column: Column, source: Rows, target: Rows) -> bool:
    """Whether what is written grows with what is read; in BINARY and BINARY2 every cell of a fixed column is as long as the next."""
    return _is_counted(column) or source is target is Rows.TABLEDATA


def _content_ratio(column: Column, source: Rows, target: Rows) -> Tuple[int, int]:
    """The most bits written for an element, and the fewest bits that it was read from."""
    elements = _ELEMENTS[column.kind]
    written = 8 * elements.longest if target is Rows.TABLEDATA else elements.bits
    return written, 8 * elements.shortest if source is Rows.TABLEDATA else elements.bits


def _is_counted(column: Column) -> bool:
    """Whether a count stands before each cell in BINARY and BINARY2."""
    return column.length.endswith("*")


def _fixed_bytes(column: Column) -> int:
    """The bytes of a cell of a fixed column in BINARY and BINARY2."""
    return (column.bound * _ELEMENTS[column.kind].bits + 7) // 8


# What the declarations were understood as. Whether they are good the converter decides; this reads off what it accepted.

_SPACE = rb"[\t\n\r ]*"
_ATTRIBUTE = re.compile(rb"([-\w:.]+)" + _SPACE + b"=" + _SPACE + rb"(?:\"([^\"]*)\"|'([^']*)')")


def _columns(text: memoryview) -> List[Column]:
    count = _declare(text)
    # No value has a `<` in it, so that each one begins a tag; a FIELD goes on to the next, with its VALUES.
    fields = text.tobytes().split(b"<FIELD")[1:]
    assert len(fields) == count, "every FIELD that the converter accepted is read off"
    return [_column(place, *map(_attributes, field.partition(b"<VALUES")[::2])) for place, field in enumerate(fields)]


def _attributes(tag: bytes) -> Dict[bytes, bytes]:
    # Backwards, so that the first of several attributes of one name is the one that stays.
    return {name: double or single for name, double, single in reversed(_ATTRIBUTE.findall(tag))}


def _column(place: int, field: Dict[bytes, bytes], values: Dict[bytes, bytes]) -> Column:
    name, kind, length = field.get(b"name"), field[b"datatype"].decode(), field.get(b"arraysize", b"1").decode()
    bound = 4096 if length == "*" else int(length.rstrip("*"))
    null = _integer(kind, values[b"null"]) if length == "1" and kind in _INTEGERS and b"null" in values else None
    return Column(place, None if name is None else name.decode("utf-8", "replace"), kind, length, bound, null)


_INTEGERS = ("unsignedByte", "short", "int", "long")


def _integer(kind: str, word: bytes) -> int:
    """A declared null as a cell of its kind has it: hexadigits are the bits of a signed kind's two's complement."""
    word = word.strip(b"\t\n\r ")
    value, patterns = int(word, 16 if word.startswith(b"0x") else 10), 1 << _ELEMENTS[kind].bits
    return value - patterns if kind != "unsignedByte" and value >= patterns // 2 else value


# Whether a cell is refused, or what stands around the cells.

_ROW_START = re.compile(_SPACE + b"<TR" + _SPACE + b">")


def _refused_name(answer: Answer, offset: int, declared: List[Column], source: Rows, given: memoryview) -> Optional[str]:
    """The name of the refused column, where a cell of it is refused."""
    if answer.number < _FIRST_OF_ROWS or answer.column >= len(declared):
        return None
    is_cell = answer.column > 0 or _reaches_cells(answer.number, declared, source, given, offset)
    return declared[answer.column].name if is_cell else None


def _reaches_cells(number: int, declared: List[Column], source: Rows, given: memoryview, offset: int) -> bool:
    """Whether a row that is refused at column 0 is good up to its first cell: <TR> is there (else 10), or the flags are (8) with 0 in their
    spare bits (13)."""
    if source is Rows.TABLEDATA:
        return number != 10 or _ROW_START.match(given, offset) is not None
    length = _around(source, declared)
    if given.nbytes < offset + length:
        return False
    (flags,) = struct.unpack_from(f"{length}s", given, offset)
    return not int.from_bytes(flags, "big") & ((1 << -len(declared) % 8) - 1 if flags else 0)


# A stream: parts of it are converted each by itself, and joined in their order by the library, which trusts no cut between them.

_LIMIT = 1 << 30  # The size of an input.
_PART = 1 << 20  # About how long a part is.
_PART_ROOM = 1 << 23  # For what a part becomes, and for any row: 64 cells of 4,096 longs take 5.5 MB in TABLEDATA.
_LONGEST_ROW = 1 << 26  # Where the input may have any length.
_ENDLESS = (1 << 64) - 1  # The length of an input whose end was not met yet, and the room that a writer has.
_CUT = (8, 10)  # What a part is refused with that ends inside a row.


class _Reader(Protocol):
    def read(self, most: int, /) -> Optional[bytes]:
        """So many bytes or fewer; none at the end."""


class _Writer(Protocol):
    def write(self, rows: memoryview, /) -> object:
        """Takes bytes that stand no longer than the call."""


class _Way(NamedTuple):
    """What is converted to what."""

    text: memoryview
    declared: List[Column]
    source: Rows
    target: Rows


_Ended = Tuple[Answer, int, Optional[str]]
"""The answer, where in the input its rows end, and the name of the refused column."""


def _streamed(way: _Way, reader: _Reader, writer: _Writer, threads: int, long: bool) -> _Ended:
    sized, length = (reader, _ENDLESS) if long else _sized(reader)
    if length > _LIMIT and not long:
        return Answer(_OVER_SIZE, 0, 0, 0, 0), 0, None
    if threads == 1 or length < 2 * _PART:
        # Nothing is guessed: where the rows of a part end is known before the next part is converted.
        return _Conversion(way, _Input(sized, length, len), writer, long).run()
    with concurrent.futures.ThreadPoolExecutor(threads) as pool:
        return _Conversion(way, _Input(sized, length, functools.partial(_cut, way)), writer, long).run(pool, 2 * threads)


def _thread_count(threads: Optional[int]) -> int:
    count = len(os.sched_getaffinity(0)) if threads is None else operator.index(threads)
    if count < 1:
        raise ValueError(f"threads: {count} is no number of threads")
    return count


def _sized(reader: _Reader) -> Tuple[_Reader, int]:
    """A reader, and how many bytes it has: of a plain file itself, else one of what was read to the end, or to a byte over the limit."""
    length = _plain_length(reader)
    if length:
        return reader, length
    whole = io.BytesIO()
    while whole.tell() <= _LIMIT and whole.write(_read(reader, min(_PART, _LIMIT + 1 - whole.tell()))):
        pass
    length = whole.tell()
    whole.seek(0)
    return whole, length


def _plain_length(reader: Any) -> int:
    """How many bytes a plain file has from where it stands; 0 where only reading tells, as of the files in /proc."""
    # Others have the number of a file and not its bytes: gzip.
    if type(reader) not in (io.FileIO, io.BufferedReader, io.BufferedRandom) or type(getattr(reader, "raw", reader)) is not io.FileIO:
        return 0
    status = os.fstat(reader.fileno())
    return max(0, status.st_size - reader.tell()) if stat.S_ISREG(status.st_mode) else 0


def _read(reader: _Reader, most: int) -> bytes:
    data = reader.read(most)
    if data is None:
        raise BlockingIOError(errno.EAGAIN, "the reader has no bytes now, and does not wait for them")
    if not isinstance(data, (bytes, bytearray, memoryview)):
        raise TypeError(f"reader: read gives {type(data).__name__}, not bytes; open the file in binary mode")
    return bytes(data)


def _write(writer: _Writer, rows: memoryview) -> None:
    """Writes all of the rows. An unbuffered file may take fewer bytes than it is given; of any other that is an error."""
    while rows.nbytes:
        taken: Any = writer.write(rows)
        if not isinstance(writer, io.RawIOBase):
            if type(taken) is int and taken < rows.nbytes:
                raise OSError(f"the writer took {taken} of {rows.nbytes} bytes")
            return
        if not taken:
            raise BlockingIOError(errno.EAGAIN, "the writer takes no bytes now, and does not wait until it can")
        rows = rows[taken:]


class _Input:
    """An input, read in parts that end where a row is guessed to end."""

    def __init__(self, reader: _Reader, length: int, cut: Callable[[bytes], int]) -> None:
        self._reader, self._unread, self._cut = reader, length, cut
        self._start, self._begun = 0, b""  # Where the next part begins, and what was read of it.
        self.length = _ENDLESS
        """Where the last part ends, which may be empty, once the end was met."""

    @property
    def is_at_end(self) -> bool:
        return self.length != _ENDLESS

    def next_part(self, more: int) -> Tuple[int, memoryview]:
        """Where the next part begins, and its bytes: those behind the last cut and about so many more."""
        data = self._filled(more)
        cut = 0 if self.is_at_end else self._cut(data)
        # Where there is no cut a row goes on, and joining will find its end.
        end = cut if cut > 0 else len(data)
        start, self._start, self._begun = self._start, self._start + end, data[end:]
        return start, memoryview(data)[:end]

    def _filled(self, more: int) -> bytes:
        pieces = [self._begun]
        while more > 0 and not self.is_at_end:
            data = _read(self._reader, min(more, self._unread))
            pieces.append(data)
            more, self._unread = more - len(data), self._unread - len(data)
            if not data:
                self.length = self._start + sum(map(len, pieces))
        return b"".join(pieces)


class _Part(NamedTuple):
    """A part of an input, and what it becomes: six numbers, and the room that its rows stand in."""

    start: int
    given: memoryview
    outcome: Callable[[], Tuple[List[int], mmap.mmap]]
    is_ready: Callable[[], bool]

    @property
    def end(self) -> int:
        return self.start + self.given.nbytes


class _Joined(ctypes.Structure):
    """How far the parts joined have come: the answer, where the next part has to begin, how many parts, and whether this is the end."""

    _fields_ = [(name, ctypes.c_uint64) for name in ("number", "row", "column", "rows", "bytes", "place", "parts", "ended")]


class _Conversion:
    """A conversion in parts, which are read, joined and written on the calling thread."""

    def __init__(self, way: _Way, input: _Input, writer: _Writer, long: bool) -> None:
        self._way, self._input, self._writer = way, input, writer
        self._longest_row = _LONGEST_ROW if long else _ENDLESS
        self._parts: Deque[_Part] = collections.deque()  # What was read and not joined.
        self._rooms: List[mmap.mmap] = []  # Those that are free.
        self._joined = _Joined()
        self._space = 0  # White space behind the last row of TABLEDATA that was joined: it belongs to the next.

    def run(self, pool: Optional[concurrent.futures.Executor] = None, most: int = 1) -> _Ended:
        """Converts all of the input, with no more parts at a time than `most`."""
        joined = self._joined
        while not joined.ended:
            # What is ready is written before more is read, which may take its time.
            if self._parts and (len(self._parts) >= most or self._input.is_at_end or self._parts[0].is_ready()):
                part = self._parts.popleft()
                self._join(part)
            else:
                self._parts.append(self._part(*self._next(), pool))
        answer = Answer(joined.number, joined.row, joined.column, joined.rows, joined.bytes)
        name = _refused_name(answer, joined.place - part.start, self._way.declared, self._way.source, part.given)
        return answer, joined.place - self._space, name

    def _next(self) -> Tuple[int, memoryview]:
        """What is read next: as much as fills half of its room, going by the rows done."""
        done = self._joined
        return self._input.next_part(min(_PART, 1 + _PART_ROOM // 2 * done.place // done.bytes) if done.bytes else _PART)

    def _part(self, start: int, given: memoryview, pool: Optional[concurrent.futures.Executor] = None) -> _Part:
        """A part that is converted by a thread of the pool; without one, when it is joined."""
        if pool is None:
            return _Part(start, given, functools.partial(self._converted, given), lambda: True)
        future = pool.submit(self._converted, given)
        return _Part(start, given, future.result, future.done)

    def _converted(self, given: memoryview) -> Tuple[List[int], mmap.mmap]:
        text, _, source, target = self._way
        numbers, room = _Numbers(), self._free_room()
        with memoryview(room) as out:
            stream = _address(text), text.nbytes, source, target, _address(given), given.nbytes
            _library.sailmortar_convert_piece(*stream, _address(out), _PART_ROOM, numbers)
        return list(numbers), room

    def _free_room(self) -> mmap.mmap:
        # Several threads take from the list, so that only taking tells whether there is one.
        try:
            return self._rooms.pop()
        except IndexError:
            return _mapping(_PART_ROOM)

    def _join(self, part: _Part) -> None:
        """Joins a part that begins where the parts before have come to, writes its rows, and goes on with what is left of it."""
        numbers, room = part.outcome()
        number, row, _, _, bytes, place = numbers
        nine = (ctypes.c_uint64 * 9)(part.start, part.given.nbytes, _PART_ROOM, *numbers)
        _library.sailmortar_join(self._length(part, number, row), _ENDLESS, nine, len(nine), self._joined)
        assert self._joined.place == part.start + place, "the part is joined"
        with memoryview(room) as out, out[:bytes] as rows:
            _write(self._writer, rows)
        self._rooms.append(room)
        self._note_space(part.given[:place])
        if not self._joined.ended and self._joined.place < part.end:
            assert row or number in _CUT, "any row has room"
            self._go_on(part, number in _CUT)

    def _length(self, part: _Part, number: int, row: int) -> int:
        """The length of the input, as far as it is known; a row that takes too long is judged as if it ended there."""
        is_too_long = number in _CUT and row == 0 and part.given.nbytes >= self._longest_row
        return part.end if is_too_long else self._input.length

    def _note_space(self, joined: memoryview) -> None:
        if self._way.source is Rows.TABLEDATA:
            space = joined.nbytes - _bare_length(joined)
            self._space = space if space < joined.nbytes else self._space + space

    def _go_on(self, part: _Part, is_cut: bool) -> None:
        """Makes a part of what is left of one and, where that was cut inside a row, of what follows."""
        place, most = self._joined.place, self._longest_row
        rest = bytearray(part.given[place - part.start :])
        # Twice as much each time, so that a long row is not begun over and over.
        wanted = min(2 * len(rest), most) if is_cut else 0
        while len(rest) < wanted and (self._parts or not self._input.is_at_end):
            rest += self._parts.popleft().given if self._parts else self._next()[1]
        given = memoryview(rest)
        if given.nbytes > most:
            self._parts.appendleft(self._part(place + most, given[most:]))
        self._parts.appendleft(self._part(place, given[:most]))


def _bare_length(text: memoryview) -> int:
    """How many bytes there are before the white space at the end, of which there is little as a rule."""
    for end in range(text.nbytes, 0, -_LINE):
        start = max(0, end - _LINE)
        bare = text[start:end].tobytes().rstrip(b"\t\n\r ")
        if bare:
            return start + len(bare)
    return 0


# Where a row may begin: guesses, which cost time where they are wrong, and nothing else.


def _cut(way: _Way, data: bytes) -> int:
    """Where the last row may begin in data that begin with a row; 0 or less where that is the only one."""
    if way.source is Rows.TABLEDATA:
        return data.rfind(b"<TR")
    runs = _runs(way.declared, way.source)
    return _counted_cut(way, runs, data) if len(runs) > 1 else len(data) // runs[0].fixed * runs[0].fixed


class _Run(NamedTuple):
    """Bytes of a row of BINARY or BINARY2: so many fixed ones, and then a count of elements of so many bits each, up to a bound."""

    fixed: int
    bits: int
    bound: int


def _runs(declared: List[Column], source: Rows) -> List[_Run]:
    """A row in runs; the last one has no count."""
    runs, fixed = [], _around(source, declared)
    for column in declared:
        if _is_counted(column):
            runs.append(_Run(fixed, _ELEMENTS[column.kind].bits, column.bound))
            fixed = 0
        else:
            fixed += _fixed_bytes(column)
    return runs + [_Run(fixed, 0, 0)]


def _counted_cut(way: _Way, runs: List[_Run], data: bytes) -> int:
    """The same where cells have counts.

    Long rows are walked over. Short ones are too many for that, but they tell where they begin: from any byte, walks meet a count over its
    bound, or come upon the start of a row and from there to the same last one. So walks begin at each byte of about two rows near the
    end. Where they do not agree, as in zeros, or take too many steps, an index is made, which takes up to as long as a conversion.
    """
    place, rows, _ = _walked(runs, data, 0, _SOME_ROWS)
    if rows < _SOME_ROWS:
        return place
    return _agreed_cut(runs, data, place // _SOME_ROWS) or max(_indexed(way.source, way.text, memoryview(data))[1], default=0)


def _agreed_cut(runs: List[_Run], data: bytes, length: int) -> int:
    """Where the walks near the end come to, of rows of about this length; 0 where not to one place, or not in fewer steps than rows."""
    ends, steps, first = set(), len(data) // length, len(data) - _SOME_ROWS * length
    for start in range(first, first + 2 * length):
        end, rows, is_bound = _walked(runs, data, start, steps)
        steps -= rows + 1
        if is_bound and rows > _SOME_ROWS // 8:
            ends.add(end)
        if steps <= 0 or len(ends) > 1:
            return 0
    return ends.pop() if ends else 0


def _walked(runs: List[_Run], data: bytes, place: int, most: int) -> Tuple[int, int, bool]:
    """Where up to so many whole rows from a place on end, how many they are, and whether no count over its bound follows."""
    *counted, (last, _, _) = runs
    rows = 0
    try:
        while rows < most:
            end = place
            for fixed, bits, bound in counted:
                (count,) = _COUNT.unpack_from(data, end + fixed)
                if count > bound:
                    return place, rows, False
                end += fixed + 4 + (count * bits + 7) // 8
            if end + last > len(data):
                break
            place, rows = end + last, rows + 1
    except struct.error:
        pass  # The data end before a count does.
    return place, rows, True


_COUNT = struct.Struct(">I")
_SOME_ROWS = 64  # Enough to know how long a row is, and where it begins.


# The library.

_LIBRARY = "libsailmortar.so.0"


def _places() -> List[str]:
    """Where the library may be, the first place first. A name without a folder is looked for by the system."""
    told = os.environ.get("SAILMORTAR_LIBRARY")
    if told:
        return [os.path.abspath(told)]
    here = pathlib.Path(__file__).resolve().parent
    return [str(folder / _LIBRARY) for folder in (here, here.parent / "target" / "library", here.parent.parent)] + [_LIBRARY]


def _load() -> ctypes.CDLL:
    places = _places()
    found = next((place for place in places if os.path.exists(place)), places[-1])
    try:
        library = ctypes.CDLL(found)
    except OSError as cause:
        looked = f"looked for {', '.join(places)}; 'cargo build' makes it, and SAILMORTAR_LIBRARY can name it"
        raise ImportError(f"the shared library of sailmortar cannot be loaded: {cause} ({looked})", path=found) from cause
    _check_version(library, found)
    _declare_types(library)
    return library


def _check_version(library: ctypes.CDLL, found: str) -> None:
    """Module and library are made together: one of another day may have other functions under the same names."""
    try:
        function = library.sailmortar_version
    except AttributeError:
        version = "none at all"
    else:
        function.argtypes, function.restype = [], ctypes.c_char_p
        version = function().decode("utf-8", "replace")
    if version != __version__:
        words = f"module and library do not fit: {__file__} is version {__version__}, and {found} says {version}"
        raise ImportError(f"{words}; build or install both together", path=found)


def _declare_types(library: ctypes.CDLL) -> None:
    part = [ctypes.c_void_p, ctypes.c_size_t]
    numbers = [ctypes.POINTER(ctypes.c_uint64)]
    library.sailmortar_convert_piece.argtypes = part + [ctypes.c_uint32, ctypes.c_uint32] + part + part + numbers
    library.sailmortar_base64_decode.argtypes = part + part + numbers
    library.sailmortar_base64_encode.argtypes = part + part + numbers
    library.sailmortar_declare.argtypes = part + numbers
    library.sailmortar_index.argtypes = part + [ctypes.c_uint32] + part + part + numbers
    library.sailmortar_fetch.argtypes = part + [ctypes.c_uint32] + part + part + [ctypes.c_uint64, ctypes.c_uint64] + part + numbers
    library.sailmortar_compare.argtypes = part + 2 * ([ctypes.c_uint32] + part) + part + numbers
    library.sailmortar_join.argtypes = [ctypes.c_uint64, ctypes.c_uint64] + numbers + [ctypes.c_size_t, ctypes.POINTER(_Joined)]
    for function in ("convert_piece", "base64_decode", "base64_encode", "declare", "index", "fetch", "compare", "join"):
        getattr(library, "sailmortar_" + function).restype = None


_library = _load()
