"""What may be given for bytes, and what may not: every function, every argument."""

import array
import ctypes
import itertools
import mmap
import unittest

import sailmortar

SHORT = b"<FIELD datatype='short'/>"
ROWS = b"\0\7\0\x08"
TEXT = b"<TR><TD>7</TD></TR>\n<TR><TD>8</TD></TR>\n"

# Each function with one argument left open, that argument's name, and bytes that are good for it.
OPEN = [
    (lambda value: sailmortar.convert(value, "binary", "tabledata", ROWS), "fields", SHORT),
    (lambda value: sailmortar.convert(SHORT, "binary", "tabledata", value), "rows", ROWS),
    (sailmortar.declare, "fields", SHORT),
    (sailmortar.columns, "fields", SHORT),
    (sailmortar.base64_decode, "text", b"Zm9v"),
    (sailmortar.base64_encode, "data", b"foo"),
]

NO_BUFFERS = [4, True, 2.5, None, [0, 7], (0, 7), range(4), {0}, "text", object(), iter(b""), bytes]
# These offer their bytes as numpy's numbers do: with no dimension.
NO_BUFFERS += [ctypes.c_int(4), memoryview(ctypes.c_uint64(7)), memoryview(b"four").cast("i", [])]


def mapped(data):
    mapping = mmap.mmap(-1, len(data))
    mapping[:] = data
    return mapping


def spread(data):
    """The bytes with others between them, and a view that passes over those."""
    return memoryview(bytes(byte for pair in zip(data, b"\xee" * len(data)) for byte in pair))[::2]


def buffers(data):
    """The same bytes in every form that is taken."""
    padded = b"?" + data + b"?"
    forms = [data, bytearray(data), memoryview(data), memoryview(bytearray(data)), memoryview(padded)[1:-1], spread(data)]
    forms += [memoryview(data[::-1])[::-1], array.array("B", data), mapped(data), (ctypes.c_ubyte * len(data))(*data)]
    forms += [memoryview(data).cast("b"), memoryview(data).cast("c"), memoryview(data).cast("B", [len(data), 1])]
    return forms


class Arguments(unittest.TestCase):
    def test_what_is_no_buffer_is_a_type_error_that_names_argument_and_remedy(self):
        for (call, argument, _), value in itertools.product(OPEN, NO_BUFFERS):
            with self.assertRaisesRegex(TypeError, f"^{argument}: give bytes, bytearray, memoryview .*, not {type(value).__name__}"):
                call(value)

    def test_a_text_is_told_how_to_become_bytes(self):
        for call, argument, _ in OPEN:
            with self.assertRaisesRegex(TypeError, rf"^{argument}: .* not str; text.encode\('ascii'\) makes bytes of a text$"):
                call("<TR/>")

    def test_what_can_no_longer_be_read_is_a_type_error(self):
        view, mapping = memoryview(ROWS), mapped(ROWS)
        view.release()
        mapping.close()
        for closed in (view, mapping):
            with self.assertRaisesRegex(TypeError, "^rows: this (memoryview|mmap) gives no bytes: "):
                sailmortar.convert(SHORT, "binary", "tabledata", closed)

    def test_every_buffer_is_taken_as_its_bytes(self):
        for call, argument, data in OPEN:
            self.assertEqual([call(form) for form in buffers(data)], [call(data)] * len(buffers(data)), argument)

    def test_wider_items_count_as_their_bytes_in_order(self):
        wide = [memoryview(ROWS).cast("H"), memoryview(ROWS).cast("H", [2, 1]), memoryview(ROWS[:2] + b"??" + ROWS[2:]).cast("H")[::2]]
        wide += [array.array("I", ROWS), (ctypes.c_uint16 * 2).from_buffer_copy(ROWS)]
        for form in wide:
            self.assertEqual(sailmortar.convert(SHORT, "binary", "tabledata", form), TEXT)

    def test_nothing_is_taken_in_every_form(self):
        nowhere = (ctypes.c_char * 0).from_address(0)
        for nothing in (b"", bytearray(), memoryview(b""), array.array("B"), memoryview(ROWS)[4:], memoryview(ROWS)[:0:2], nowhere):
            self.assertEqual(sailmortar.convert(SHORT, "binary", "tabledata", nothing), b"")
            self.assertEqual(sailmortar.base64_encode(nothing), b"")
            with self.assertRaises(sailmortar.Refused):
                sailmortar.declare(nothing)

    def test_a_buffer_in_one_piece_is_not_copied(self):
        for form in buffers(ROWS):
            with memoryview(form) as given, sailmortar._view("rows", form) as view:
                self.assertEqual(view.obj is given.obj, given.c_contiguous, form)
        data = bytearray(ROWS)
        with sailmortar._view("rows", memoryview(data)[1:].toreadonly()) as view:
            self.assertEqual(sailmortar._address(view), ctypes.addressof(ctypes.c_char.from_buffer(data)) + 1)

    def test_a_buffer_is_free_again_after_a_call_and_after_a_refusal(self):
        for (call, _, data), cut in itertools.product(OPEN, (0, 1)):
            held = bytearray(data[: len(data) - cut])
            # A buffer that is still held cannot change its length, and a mapping not be closed.
            try:
                call(held)
            except sailmortar.Refused:
                held.clear()
            held.append(0)
        mapping = mapped(ROWS[:-1])
        with self.assertRaises(sailmortar.Refused):
            sailmortar.convert(SHORT, "binary", "tabledata", mapping)
        mapping.close()

    def test_a_wrong_kind_of_rows_is_a_value_error(self):
        for wrong, turn in itertools.product(("fits", "", 3, 0, True, None, b"binary", bytearray(b"binary"), "B\u0131nary", ["binary"]), (1, -1)):
            with self.assertRaisesRegex(ValueError, "is no kind of rows: give tabledata, binary or binary2") as caught:
                sailmortar.convert(SHORT, *(wrong, "binary")[::turn], ROWS)
            self.assertNotIsInstance(caught.exception, sailmortar.Refused)

    def test_a_kind_of_rows_is_taken_by_name_in_any_capitals_and_as_itself(self):
        for kinds in (("binary", "tabledata"), ("BINARY", "TableData"), (sailmortar.Rows.BINARY, sailmortar.Rows.TABLEDATA)):
            self.assertEqual(sailmortar.convert(SHORT, *kinds, ROWS), TEXT)


if __name__ == "__main__":
    unittest.main()
