"""Refusals: their words, where the refused row begins, the column's name, and that they go wherever a program sends them."""

import array
import concurrent.futures
import copy
import pickle
import random
import unittest

import random_rows
import sailmortar
from sailmortar import Answer, Refused, Rows

SHORT = b"<FIELD name='sky' datatype='short'/>"
NULL_IN_ROW_1 = SHORT, "tabledata", "binary", b"<TR><TD>7</TD></TR> <TR><TD/></TR>"


def refusal(call, *arguments):
    try:
        call(*arguments)
    except Refused as refused:
        return refused
    raise AssertionError("it was accepted")


def everything(refused):
    return type(refused), str(refused), refused.args, vars(refused)


class Words(unittest.TestCase):
    def test_a_refused_row_is_told_with_its_place_and_the_name_of_its_column(self):
        refused = refusal(sailmortar.convert, *NULL_IN_ROW_1)
        self.assertEqual((refused.answer, refused.output, refused.offset, refused.name), (Answer(15, 1, 0, 1, 2), b"\0\7", 19, "sky"))
        self.assertEqual((refused.number, refused.row, refused.column), (15, 1, 0))
        self.assertEqual(str(refused), "refusal 15 at row 1, column 0 (sky): a null, and the target has no form for it")

    def test_an_integer_outside_its_range_is_told_from_a_text_that_is_none(self):
        outside, none = (18, "an integer outside its kind's range"), (11, "a byte or a text that is no value of its kind")
        cells = [("32768", outside), ("-32769", outside), ("3276B", none), ("9" * 20, outside), ("9" * 21, none), ("0x18000", none)]
        cells += [("99999 x", outside), ("x 99999", none), ("99999 &#1;", outside), ("&#1; 99999", none)]
        for cell, (number, meaning) in cells:
            rows = f"<TR><TD>7</TD></TR><TR><TD>{cell}</TD></TR>".encode()
            refused = refusal(sailmortar.convert, SHORT, "tabledata", "binary", rows)
            self.assertEqual((refused.answer, refused.output, refused.offset), (Answer(number, 1, 0, 1, 2), b"\0\7", 19), cell)
            self.assertEqual(str(refused), f"refusal {number} at row 1, column 0 (sky): {meaning}", cell)

    def test_refused_declarations_are_told_with_the_fields_before_them(self):
        meaning = "the declarations are not FIELD elements of the shape that is carried"
        for function in (sailmortar.declare, sailmortar.columns, lambda fields: sailmortar.convert(fields, "binary", "binary2", b"\0")):
            refused = refusal(function, SHORT + b"<FIELD/>")
            self.assertEqual(refused.answer, Answer(1, 0, 1, 0, 0))
            self.assertEqual((refused.output, refused.offset, refused.name), (b"", 0, None))
            self.assertEqual(str(refused), f"refusal 1 in the declarations, at the element after 1 whole FIELD: {meaning}")
            self.assertEqual(refusal(function, SHORT * 65).answer, Answer(5, 0, 64, 0, 0))
            self.assertEqual(str(refusal(function, b" " * 65537)), "refusal 6: an input over its size")

    def test_refused_base64_has_no_place(self):
        refused = refusal(sailmortar.base64_decode, b"Zh==")
        self.assertEqual((refused.answer, refused.offset, refused.name), (Answer(7, 0, 0, 0, 0), 0, None))
        self.assertEqual(str(refused), "refusal 7: the base64 is not valid")

    def test_behind_the_last_cell_there_is_no_name(self):
        refused = refusal(sailmortar.convert, SHORT, "tabledata", "binary", b"<TR><TD>7</TD><TD>8</TD></TR>")
        self.assertEqual((refused.number, refused.column, refused.offset, refused.name), (10, 1, 0, None))

    def test_what_is_no_cell_is_not_blamed_on_the_first_column(self):
        bits = b"<FIELD name='bits' datatype='bit' arraysize='3'/>"
        cases = [
            (SHORT, "tabledata", b"<TR><TD>7</TD></TR><td>", 10, None),
            (SHORT, "tabledata", b"<TR><TD>7</TD></TR><TR/>", 10, None),
            (SHORT, "tabledata", b"<TR><TD>7</TD></TR> <TR\n>x", 10, "sky"),
            (SHORT, "tabledata", b"<TR><TD>7</TD></TR> <TR\n><TD>x</TD>", 11, "sky"),
            (SHORT, "binary2", b"\0\0\7\1\0\7", 13, None),
            (SHORT, "binary2", b"\0\0\7\0\0", 8, "sky"),
            (SHORT * 9, "binary2", b"\0", 8, None),
            (SHORT * 9, "binary2", b"\0\0", 8, "sky"),
            (bits, "binary2", b"\0\xe0\0\xe1", 13, "bits"),
            (bits, "binary2", b"\0\xe0\x40\xe0", 13, None),
            (bits, "binary", b"\xe0\xe1", 13, "bits"),
            (bits * 8, "binary2", b"\0" + b"\xe0" * 8 + b"\x7f\xe1", 13, "bits"),
        ]
        for fields, source, rows, number, name in cases:
            refused = refusal(sailmortar.convert, fields, source, "binary2", rows)
            self.assertEqual((refused.number, refused.column, refused.name), (number, 0, name), (source, rows))
            # What counts is the bytes, whatever items they are the bytes of.
            if len(rows) % 2 == 0:
                for other in (array.array("H", rows), memoryview(rows).cast("B", (2, len(rows) // 2))):
                    again = refusal(sailmortar.convert, fields, source, "binary2", other)
                    self.assertEqual((again.answer, again.offset, again.name), (refused.answer, refused.offset, name), (source, rows))

    def test_a_name_does_nothing_to_a_terminal_and_keeps_the_line_short(self):
        for name, shown in [("\x1b[2J", r"\x1b[2J"), ("é", "é"), ("n" * 60, "n" * 60), ("n" * 61, "n" * 60 + "..")]:
            refused = refusal(sailmortar.convert, f"<FIELD name='{name}' datatype='bit'/>".encode(), "binary", "binary2", b"\1")
            self.assertEqual(refused.name, name)
            self.assertIn(f"column 0 ({shown}): ", str(refused))
        refused = refusal(sailmortar.convert, b"<FIELD name='' datatype='bit'/>", "binary", "binary2", b"\1")
        self.assertEqual((refused.name, str(refused)), ("", "refusal 13 at row 0, column 0: a padding bit that is 1"))

    def test_a_number_that_is_not_known_has_words_of_its_own(self):
        for number in (19, 99, 254):
            words = f"refusal {number} at row 3, column 2: no refusal of this number is known"
            self.assertEqual(str(Refused(Answer(number, 3, 2, 3, 9))), words)


class Travel(unittest.TestCase):
    def setUp(self):
        self.refused = refusal(sailmortar.convert, *NULL_IN_ROW_1)

    def test_a_refusal_is_the_same_when_pickled_and_copied(self):
        self.refused.note = "kept"
        for protocol in range(pickle.HIGHEST_PROTOCOL + 1):
            self.assertEqual(everything(pickle.loads(pickle.dumps(self.refused, protocol))), everything(self.refused))
        for made in (copy.copy(self.refused), copy.deepcopy(self.refused)):
            self.assertEqual(everything(made), everything(self.refused))

    def test_a_refusal_in_one_process_is_raised_in_another_and_the_pool_goes_on(self):
        with concurrent.futures.ProcessPoolExecutor(1) as pool:
            refused = pool.submit(sailmortar.convert, *NULL_IN_ROW_1).exception(timeout=60)
            self.assertEqual(pool.submit(sailmortar.declare, SHORT).result(timeout=60), 1)
        self.assertEqual((refused.answer, refused.output, refused.offset, refused.name), (Answer(15, 1, 0, 1, 2), b"\0\7", 19, "sky"))
        self.assertEqual(str(refused), str(self.refused))


class Offset(unittest.TestCase):
    def test_a_cut_row_begins_where_the_rows_before_it_end(self):
        random.seed(20261117)
        for turn in range(600):
            columns = random_rows.any_columns(random.choice((1, 2, 3, 9)))
            source = Rows(turn % 3)
            rows = [random_rows.spelled(columns, source, random.choice(random_rows.STYLES)) for _ in range(random.randint(1, 9))]
            # A row of one byte cannot be cut and still begin.
            if len(rows[-1]) == 1:
                continue
            # BINARY2 has a form for everything, so that only the cut row is refused.
            refused = refusal(sailmortar.convert, random_rows.fields(columns), source, Rows.BINARY2, b"".join(rows)[:-1])
            self.assertEqual((refused.row, refused.offset), (len(rows) - 1, sum(map(len, rows[:-1]))), (columns, source))

    def test_white_space_before_a_row_of_text_belongs_to_that_row(self):
        rows = b"\n <TR><TD>7</TD></TR\t>\r\n<TR><TD>x</TD></TR>"
        self.assertEqual(refusal(sailmortar.convert, SHORT, "tabledata", "binary", rows).offset, rows.index(b"\r"))

    def test_a_table_that_comes_in_two_parts_goes_on_at_the_offset(self):
        random.seed(20261118)
        for turn in range(60):
            columns, source = random_rows.any_columns(random.choice((1, 2, 3, 9))), Rows(turn % 3)
            text = random_rows.fields(columns)
            rows = b"".join(random_rows.spelled(columns, source, random.choice(random_rows.STYLES)) for _ in range(3))
            whole = sailmortar.convert(text, source, Rows.BINARY2, rows)
            for cut in range(0, len(rows), 1 + len(rows) // 97):
                try:
                    output, offset = sailmortar.convert(text, source, Rows.BINARY2, rows[:cut]), cut
                except Refused as refused:
                    output, offset = refused.output, refused.offset
                self.assertEqual(output + sailmortar.convert(text, source, Rows.BINARY2, rows[offset:]), whole, (columns, source, cut))

    def test_where_the_rows_lie_in_several_pieces_the_offset_counts_their_bytes(self):
        rows = b"\0\0\0\1a\0\0\0\2"
        spread = memoryview(bytes(byte for byte in rows for _ in range(2)))[::2]
        fields = b"<FIELD datatype='char' arraysize='*'/>"
        self.assertEqual(refusal(sailmortar.convert, fields, "binary", "tabledata", spread).offset, 5)


if __name__ == "__main__":
    unittest.main()
