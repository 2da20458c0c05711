"""Two nights compared: counts, places, refusals, and buffers of any sort."""

import array
import copy
import pickle
import random
import unittest

import random_rows
import sailmortar
from sailmortar import Answer, Comparison, Refused, Rows

FIELDS = b"<FIELD name='n' datatype='short'/><FIELD name='note' datatype='char' arraysize='*'/>"
KINDS = (Rows.TABLEDATA, Rows.BINARY, Rows.BINARY2)


def row(kind, number, note):
    if kind is Rows.TABLEDATA:
        return b"<TR><TD>%d</TD><TD>%b</TD></TR>\n" % (number, note)
    flags = b"\0" if kind is Rows.BINARY2 else b""
    return flags + number.to_bytes(2, "big") + len(note).to_bytes(4, "big") + note


def night(kind, *numbers):
    return b"".join(row(kind, number, b"dusk") for number in numbers)


def refusal(*arguments):
    try:
        sailmortar.compare(*arguments)
    except Refused as refused:
        return refused
    raise AssertionError("it was accepted")


class Comparing(unittest.TestCase):
    def test_every_pair_of_kinds(self):
        for first in KINDS:
            for second in KINDS:
                same = sailmortar.compare(FIELDS, first, night(first, 1, 2, 3), second.name.lower(), night(second, 1, 2, 3))
                self.assertEqual(same, Comparison(0, 0, 0, []))
                self.assertTrue(same.same)
                apart = sailmortar.compare(FIELDS, first, night(first, 1, 2, 3), second, night(second, 0, 2, 0))
                self.assertEqual(apart, Comparison(2, 0, 0, [(0, 0), (2, 0)]))
                self.assertFalse(apart.same)
                longer = sailmortar.compare(FIELDS, first, night(first, 1, 2, 3), second, night(second, 1))
                self.assertEqual((longer, longer.same), (Comparison(0, 2, 0, []), False))
                shorter = sailmortar.compare(FIELDS, first, b"", second, night(second, 1))
                self.assertEqual((shorter, shorter.same), (Comparison(0, 0, 1, []), False))

    def test_empty_and_null_differ(self):
        empty, null = row(Rows.BINARY2, 7, b""), b"\x40" + row(Rows.BINARY, 7, b"")
        self.assertEqual(sailmortar.compare(FIELDS, "binary2", empty, "binary2", null).places, [(0, 1)])
        self.assertEqual(sailmortar.compare(FIELDS, "binary2", empty, "tabledata", b"<TR><TD>7</TD><TD/></TR>").places, [(0, 1)])
        self.assertTrue(sailmortar.compare(FIELDS, "binary2", null, "binary", row(Rows.BINARY, 7, b"")).same)

    def test_all_places_or_as_many_as_are_asked_for(self):
        count = 3000
        first, second = (b"".join(row(Rows.BINARY, number, note) for number in range(count)) for note in (b"dusk", b"dawn"))
        places = [(number, 1) for number in range(count)]
        self.assertEqual(sailmortar.compare(FIELDS, "binary", first, "binary", second), Comparison(count, 0, 0, places))
        for limit in (0, 1, 2, 1023, 1024, 1025, count - 1, count, count + 1, 10 * count):
            compared = sailmortar.compare(FIELDS, "binary", first, "binary", second, limit)
            self.assertEqual(compared, Comparison(count, 0, 0, places[:limit]), limit)
        self.assertEqual(sailmortar.compare(FIELDS, "binary", first, "binary", second, limit=2).places, places[:2])
        for limit, error in ((-1, ValueError), (1.5, TypeError), ("1", TypeError)):
            with self.assertRaises(error):
                sailmortar.compare(FIELDS, "binary", first, "binary", second, limit)

    def test_random_tables(self):
        random.seed(110)
        for _ in range(60):
            declared = random_rows.any_columns(random.randint(1, 5))
            fields, kind = random_rows.fields(declared), random.choice((Rows.BINARY, Rows.BINARY2))
            rows = [random_rows.spelled(declared, kind, random.choice(random_rows.STYLES)) for _ in range(6)]
            others = [random_rows.spelled(declared, kind, random.choice(random_rows.STYLES)) for _ in range(6)]
            compared = sailmortar.compare(fields, kind, b"".join(rows), kind, b"".join(others))
            self.assertTrue(sailmortar.compare(fields, kind, b"".join(rows), kind, b"".join(rows)).same)
            # Row by row the same.
            alone = [sailmortar.compare(fields, kind, one, kind, other).places for one, other in zip(rows, others)]
            self.assertEqual(compared.places, [(number, place) for number, found in enumerate(alone) for _, place in found])
            self.assertEqual(compared.differing, len(compared.places))
            # What it is converted to is the same.
            whole = sailmortar.convert(fields, kind, "binary2", b"".join(rows))
            self.assertTrue(sailmortar.compare(fields, kind, b"".join(rows), "binary2", whole).same)

    def test_any_buffer_is_taken_and_nothing_else(self):
        stream = night(Rows.BINARY, 1, 2)
        for buffer in (bytearray(stream), memoryview(stream), array.array("B", stream), memoryview(stream + stream)[: len(stream)]):
            self.assertTrue(sailmortar.compare(bytearray(FIELDS), "binary", buffer, "binary", stream).same)
            self.assertTrue(sailmortar.compare(FIELDS, "binary", stream, "binary", buffer).same)
            self.assertTrue(sailmortar.compare(FIELDS, "binary", buffer, "binary", buffer).same)
        for arguments, name in (
            (("text", "binary", b"", "binary", b""), "fields"),
            ((FIELDS, "binary", "text", "binary", b""), "first"),
            ((FIELDS, "binary", b"", "binary", 7), "second"),
        ):
            with self.assertRaisesRegex(TypeError, "^" + name):
                sailmortar.compare(*arguments)
        for kinds in (("binary", "fits"), ("fits", "binary"), (3, "binary")):
            with self.assertRaises(ValueError):
                sailmortar.compare(FIELDS, kinds[0], b"", kinds[1], b"")


class Refusals(unittest.TestCase):
    def test_the_first_input_is_judged_before_the_second(self):
        good, cut, cut_early = night(Rows.BINARY2, 1, 2), night(Rows.BINARY2, 1, 2, 3)[:-2], night(Rows.BINARY2, 1)[:-2]
        begins = len(night(Rows.BINARY2, 1, 2))
        for second in (good, cut_early, b""):
            refused = refusal(FIELDS, "binary2", cut, "binary2", second)
            self.assertEqual((refused.input, refused.answer), (0, Answer(8, 2, 1, 0, 0)))
            self.assertEqual((refused.offset, refused.name, refused.output), (begins, "note", b""))
            words = "the first input: refusal 8 at row 2, column 1 (note): the BINARY or BINARY2 stream ends inside a row"
            self.assertEqual(str(refused), words)
        refused = refusal(FIELDS, "binary2", good, "binary2", cut)
        self.assertEqual((refused.input, refused.answer, refused.offset), (1, Answer(8, 2, 1, 0, 0), begins))
        self.assertTrue(str(refused).startswith("the second input: refusal 8 at row 2, column 1 (note): "))

    def test_text_is_refused_where_its_row_begins(self):
        text = night(Rows.TABLEDATA, 1, 2) + b"\n <TR><TD>seven</TD><TD/></TR>"
        refused = refusal(FIELDS, "binary", b"", "tabledata", text)
        self.assertEqual((refused.input, refused.number, refused.row, refused.column, refused.name), (1, 11, 2, 0, "n"))
        self.assertEqual(refused.offset, len(night(Rows.TABLEDATA, 1, 2)) - 1)

    def test_a_refused_row_behind_many_others(self):
        # More than a piece of them.
        stream = night(Rows.BINARY, 7) * 500_000
        refused = refusal(FIELDS, "binary", b"", "binary", stream + b"\0")
        self.assertEqual((refused.row, refused.column, refused.offset), (500_000, 0, len(stream)))

    def test_declarations_are_of_neither(self):
        for fields in (b"<FIELD", b"", b" " * 65537):
            refused = refusal(fields, "binary", b"", "binary", b"x")
            self.assertEqual((refused.input, refused.offset, refused.name), (None, 0, None))
            self.assertTrue(str(refused).startswith("refusal "))

    def test_they_travel(self):
        refused = refusal(FIELDS, "binary", b"", "binary", b"x")
        for again in (copy.copy(refused), pickle.loads(pickle.dumps(refused))):
            self.assertEqual((again.input, again.answer, str(again)), (1, refused.answer, str(refused)))
        compared = sailmortar.compare(FIELDS, "binary", b"", "binary", b"")
        self.assertEqual(pickle.loads(pickle.dumps(compared)), compared)


if __name__ == "__main__":
    unittest.main()
