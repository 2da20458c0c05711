"""One row of a long stream: the index, what is fetched by it, and refusals."""

import array
import copy
import pickle
import random
import unittest

import random_rows
import sailmortar
from sailmortar import Answer, Index, Refused, Rows

FIELDS = b"<FIELD name='n' datatype='int'/><FIELD name='note' datatype='char' arraysize='*'/>"
EMPTY = 70  # A row whose text is empty and not null: TABLEDATA has no form for it.


def note(row):
    return b"" if row == EMPTY else b"&" * (1 + row % 5)


def night(kind, rows):
    flags = b"\0" if kind is Rows.BINARY2 else b""
    return b"".join(flags + row.to_bytes(4, "big") + len(note(row)).to_bytes(4, "big") + note(row) for row in range(rows))


def line(row):
    return b"<TR><TD>%d</TD><TD>%b</TD></TR>\n" % (row, note(row).replace(b"&", b"&amp;"))


def refusal(call, *arguments):
    try:
        call(*arguments)
    except Refused as refused:
        return refused
    raise AssertionError("it was accepted")


class Fetching(unittest.TestCase):
    def test_every_row_is_the_line_that_it_has_in_the_whole(self):
        for kind in (Rows.BINARY, Rows.BINARY2):
            for count in (0, 1, 63, 64, 65, 70):
                stream = night(kind, count)
                index = Index.build(FIELDS, kind.name.lower(), stream)
                self.assertEqual((index.source, index.rows), (kind, count))
                self.assertEqual(list(index.starts), [len(night(kind, row)) for row in range(0, count, 64)])
                lines = [index.fetch(FIELDS, stream, row) for row in range(count)]
                self.assertEqual(lines, [line(row) for row in range(count)])
                self.assertEqual(b"".join(lines), sailmortar.convert(FIELDS, kind, "tabledata", stream))

    def test_random_tables(self):
        random.seed(101)
        for _ in range(30):
            declared = random_rows.any_columns(random.randint(1, 5))
            fields, kind = random_rows.fields(declared), random.choice((Rows.BINARY, Rows.BINARY2))
            rows = [random_rows.spelled(declared, kind, random.choice(random_rows.STYLES)) for _ in range(130)]
            index = Index.build(fields, kind, b"".join(rows))
            for row in (0, 63, 64, 65, 127, 128, 129):
                alone = self.outcome(sailmortar.convert, fields, kind, "tabledata", rows[row])
                self.assertEqual(self.outcome(index.fetch, fields, b"".join(rows), row), alone)

    def outcome(self, call, *arguments):
        """The bytes, or the number and the column of a refusal."""
        try:
            return call(*arguments)
        except Refused as refused:
            return refused.number, refused.column, refused.name

    def test_a_long_line_finds_room(self):
        fields, stream = b"<FIELD datatype='char' arraysize='4096'/>" * 9, b"&" * 4096 * 9
        index = Index.build(fields, "binary", stream)
        self.assertEqual(index.fetch(fields, stream, 0), sailmortar.convert(fields, "binary", "tabledata", stream))

    def test_any_buffer_is_taken(self):
        stream = night(Rows.BINARY, 66)
        wide = array.array("B", stream)
        index = Index.build(bytearray(FIELDS), "BINARY", wide)
        self.assertEqual(index.fetch(memoryview(FIELDS), memoryview(stream), 65), line(65))
        self.assertEqual(index, Index.build(FIELDS, Rows.BINARY, stream))
        wide.append(0)  # Nothing holds the buffer any more.
        with self.assertRaises(TypeError):
            Index.build(FIELDS, "binary", "text")
        with self.assertRaises(TypeError):
            index.fetch(FIELDS, stream, 1.5)

    def test_an_index_travels(self):
        stream = night(Rows.BINARY, 66)
        index = Index.build(FIELDS, "binary", stream)
        for other in (pickle.loads(pickle.dumps(index)), copy.deepcopy(index)):
            self.assertEqual(other, index)
            self.assertEqual(other.fetch(FIELDS, stream, 65), line(65))


class Refusals(unittest.TestCase):
    def test_a_row_past_the_end(self):
        stream = night(Rows.BINARY, 66)
        index = Index.build(FIELDS, "binary", stream)
        for row in (66, 1 << 40, (1 << 64) - 1):
            refused = refusal(index.fetch, FIELDS, stream, row)
            self.assertEqual((refused.answer, refused.output, refused.name), (Answer(20, row, 0, 0, 0), b"", None))
        self.assertEqual(str(refusal(index.fetch, FIELDS, stream, 66)), "refusal 20 at row 66, column 0: a row past the end of the stream")
        for row in (-1, 1 << 64):
            with self.assertRaises(ValueError):
                index.fetch(FIELDS, stream, row)

    def test_a_row_without_a_form(self):
        stream = night(Rows.BINARY2, 80)
        index = Index.build(FIELDS, "binary2", stream)
        refused = refusal(index.fetch, FIELDS, stream, EMPTY)
        self.assertEqual((refused.answer, refused.name), (Answer(14, EMPTY, 1, 0, 0), "note"))
        self.assertEqual(index.fetch(FIELDS, stream, EMPTY + 1), line(EMPTY + 1))

    def test_a_stream_that_is_cut_has_an_index_of_the_rows_before(self):
        for kind in (Rows.BINARY, Rows.BINARY2):
            for count in (0, 63, 64, 65):
                start = len(night(kind, count))
                stream = night(kind, count + 1)[:-1]
                refused, converted = refusal(Index.build, FIELDS, kind, stream), refusal(sailmortar.convert, FIELDS, kind, "binary2", stream)
                self.assertEqual(refused.answer[:4], converted.answer[:4])
                self.assertEqual((refused.number, refused.row, refused.offset, refused.name), (8, count, start, "note"))
                self.assertEqual((converted.offset, converted.name, converted.index), (refused.offset, refused.name, None))
                index = refused.index
                self.assertEqual((index.rows, len(index.starts)), (count, (count + 63) // 64))
                self.assertEqual([index.fetch(FIELDS, stream, row) for row in range(count)], [line(row) for row in range(count)])
                self.assertEqual(refusal(index.fetch, FIELDS, stream, count).number, 20)
                again = pickle.loads(pickle.dumps(refused))
                self.assertEqual((str(again), again.index), (str(refused), index))

    def test_what_is_judged_before_any_row(self):
        refused = refusal(Index.build, b"<FIELD datatype='int'/><FIELD/>", "binary", b"")
        self.assertEqual((refused.number, refused.column), (1, 1))
        for kind in ("tabledata", Rows.TABLEDATA, "fits", 3):
            with self.assertRaises(ValueError):
                Index.build(FIELDS, kind, b"")

    def test_an_index_from_elsewhere_ends_in_some_answer(self):
        random.seed(102)
        stream = night(Rows.BINARY, 70)
        for _ in range(500):
            starts = array.array("I", [random.choice((0, len(stream), 2**32 - 1, random.randrange(len(stream)))) for _ in range(3)])
            index = Index(Rows.BINARY, random.choice((0, 70, 200, 2**64 - 1)), starts)
            try:
                self.assertTrue(index.fetch(FIELDS, stream, random.randrange(250)).startswith(b"<TR>"))
            except Refused as refused:
                self.assertIn(refused.number, (8, 9, 11, 16, 20))


if __name__ == "__main__":
    unittest.main()
