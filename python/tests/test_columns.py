"""What declarations are understood as: names, kinds, lengths and nulls in every spelling that is carried."""

import itertools
import unittest

import sailmortar
from sailmortar import Column

# A FIELD's inside, and the column that it declares.
UNDERSTOOD = [
    ("datatype='short'", (None, "short", "1", 1, None)),
    ("name='sky' datatype='char' arraysize='40*'", ("sky", "char", "40*", 40, None)),
    ('datatype = "long"\n\tarraysize\r=\r"*" ', (None, "long", "*", 4096, None)),
    ("arraysize='4096' name='a' name='b' datatype='bit'", ("a", "bit", "4096", 4096, None)),
    ("datatype='boolean' name=''", ("", "boolean", "1", 1, None)),
    ("datatype='int' arraysize='1*' name='it&apos;s \"x\"'", ('it&apos;s "x"', "int", "1*", 1, None)),
    ("ID='datatype=\"x\" name=\"y\"' Name='no' name.x='no' datatype='unsignedByte' x:name='no'", (None, "unsignedByte", "1", 1, None)),
    ("name='a>b /> = c' datatype='int'", ("a>b /> = c", "int", "1", 1, None)),
    ("null='5' datatype='int'", (None, "int", "1", 1, None)),
]

# A kind and an arraysize, the word that is declared to be null, and the integer that it is.
NULLS = [
    ("short", "", "-99", -99),
    ("short", "arraysize='1'", " \t+5\r\n", 5),
    ("short", "", "0xffff", -1),
    ("short", "", "0xff", 255),
    ("short", "", "0x8000", -32768),
    ("unsignedByte", "", "0xff", 255),
    ("unsignedByte", "", "255", 255),
    ("int", "", "0xFFFFFF9D", -99),
    ("int", "", "-2147483648", -2147483648),
    ("long", "", "0x8000000000000000", -(1 << 63)),
    ("long", "", "00000000000000000007", 7),
    ("long", "", "9223372036854775807", (1 << 63) - 1),
    ("int", "arraysize='1*'", "7", None),
    ("int", "arraysize='2'", "7", None),
    ("int", "arraysize='*'", "no number", None),
    ("boolean", "", "T", None),
    ("bit", "", "1", None),
    ("char", "", "7", None),
]


class Columns(unittest.TestCase):
    def test_a_field_is_understood_in_every_spelling(self):
        for (inside, understood), end in itertools.product(UNDERSTOOD, ("/>", "></FIELD>", "><VALUES ref='x'/></FIELD >")):
            self.assertEqual(sailmortar.columns(f"<FIELD {inside}{end}".encode()), [Column(0, *understood)])

    def test_a_null_is_read_as_a_cell_of_its_kind_and_counts_on_single_integers_alone(self):
        for kind, arraysize, word, null in NULLS:
            field = f"<FIELD datatype='{kind}' {arraysize}> <VALUES type='x' null='{word}' name='z' datatype='int'/> </FIELD>"
            (column,) = sailmortar.columns(field.encode())
            self.assertEqual((column.kind, column.null, column.name), (kind, null, None), field)

    def test_the_null_that_is_told_is_the_null_of_the_rows(self):
        for kind, arraysize, word, null in NULLS:
            if null is not None:
                field = f"<FIELD datatype='{kind}' {arraysize}><VALUES null='{word}'/></FIELD>".encode()
                row = f"<TR><TD>{null}</TD></TR>".encode()
                self.assertEqual(sailmortar.convert(field, "tabledata", "tabledata", row), b"<TR><TD/></TR>\n", field)

    def test_places_count_from_0_and_each_values_belongs_to_its_field(self):
        fields = b"<FIELD datatype='int'/><FIELD datatype='int'><VALUES null='3'/></FIELD>\n<FIELD name='c' datatype='int'></FIELD>"
        told = [(column.place, column.name, column.null) for column in sailmortar.columns(fields)]
        self.assertEqual(told, [(0, None, None), (1, None, 3), (2, "c", None)])

    def test_a_name_that_is_no_utf_8_is_shown_with_replacements(self):
        self.assertEqual(sailmortar.columns(b"<FIELD name='\xff\xc3\xa9' datatype='int'/>")[0].name, "\ufffd\u00e9")

    def test_as_many_columns_come_back_as_are_declared(self):
        for count in (1, 8, 64):
            fields = b"<FIELD datatype='int'/>" * count
            self.assertEqual([column.place for column in sailmortar.columns(fields)], list(range(count)))
            self.assertEqual(sailmortar.declare(fields), count)


if __name__ == "__main__":
    unittest.main()
