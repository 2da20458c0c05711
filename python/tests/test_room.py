"""Room enough from the start: the bound over random and extreme rows, what happens where the system gives less, what is given back."""

import itertools
import random
import subprocess
import sys
import unittest
from unittest import mock

import random_rows
import sailmortar
from sailmortar import Refused, Rows

WAYS = list(itertools.product(Rows, Rows))


def converted(fields, source, target, rows):
    """What comes back, refused or not, and in how much room each call was made."""
    with mock.patch.object(sailmortar, "_called", wraps=sailmortar._called) as called:
        try:
            output = sailmortar.convert(fields, source, target, rows)
        except Refused as refused:
            output = refused.output
        return output, [call.args[1] for call in called.call_args_list]


class Room(unittest.TestCase):
    def assert_one_call(self, columns, source, target, rows):
        """Converts in one call and within the bound; returns how much of it was used."""
        output, rooms = converted(random_rows.fields(columns), source, target, rows)
        bound = sailmortar._room(columns, source, target, len(rows))
        self.assertEqual(rooms, [bound], (columns, source, target, rows[:200]))
        self.assertLessEqual(len(output), bound)
        return len(output)

    def test_random_tables_take_one_call_each(self):
        random.seed(20261115)
        written = 0
        for turn in range(1500):
            columns = random_rows.any_columns(random.choice((1, 1, 2, 3, 8, 9, 64)))
            source, target = WAYS[turn % 9]
            style = random.choice(random_rows.STYLES)
            rows = b"".join(random_rows.spelled(columns, source, style) for _ in range(random.choice((1, 2, 20))))
            written += self.assert_one_call(columns, source, target, rows) > 0
        self.assertGreater(written, 750, "most of the tables are good ones")

    def test_extreme_cells_of_every_kind_and_length_take_one_call_each(self):
        random.seed(20261116)
        for kind, length in itertools.product(random_rows.KINDS, random_rows.LENGTHS):
            self.assert_extremes(kind, length)

    def assert_extremes(self, kind, length):
        columns = sailmortar.columns(random_rows.declaration(kind, length).encode())
        for (source, target), style in itertools.product(WAYS, random_rows.EXTREMES):
            self.assert_one_call(columns, source, target, random_rows.spelled(columns, source, style) * 3)

    def test_the_bound_is_no_more_than_it_must_be_where_a_null_becomes_a_long_row(self):
        columns = sailmortar.columns(b"<FIELD datatype='long' arraysize='4096'/>")
        rows = b"<TR><TD/></TR>" * 5
        written = self.assert_one_call(columns, Rows.TABLEDATA, Rows.BINARY2, rows)
        self.assertEqual(written, 5 * (1 + 32768))
        self.assertLessEqual(sailmortar._room(columns, Rows.TABLEDATA, Rows.BINARY2, len(rows)), written + 5)

    def test_base64_takes_one_call_each_way(self):
        vectors = [(b"", b""), (b"f", b"Zg=="), (b"fo", b"Zm8="), (b"foo", b"Zm9v"), (b"foob", b"Zm9vYg=="), (b"foobar", b"Zm9vYmFy")]
        for data, letters in vectors + [(bytes(3000), b"A" * 4000)]:
            with mock.patch.object(sailmortar, "_called", wraps=sailmortar._called) as called:
                self.assertEqual(sailmortar.base64_encode(data), letters)
                self.assertEqual(sailmortar.base64_decode(letters), data)
            self.assertEqual(called.call_count, 2)

    def test_what_does_not_fit_is_converted_again_where_the_system_gives_less(self):
        fields, rows = b"<FIELD datatype='unsignedByte'/>", b"\xff" * 3000
        expected = sailmortar.convert(fields, "binary", "tabledata", rows)
        with mock.patch.object(sailmortar, "_is_given", return_value=False):
            output, rooms = converted(fields, "binary", "tabledata", rows)
        self.assertEqual(output, expected)
        self.assertGreater(len(rooms), 1)
        self.assertLess(rooms[0], len(expected))

    def test_the_room_is_given_back_at_once(self):
        for rows in (b"\0\7", b"\0\7\0"):
            mappings = []
            with mock.patch.object(sailmortar, "_mapping", side_effect=self.kept(mappings)):
                converted(b"<FIELD datatype='short'/>", "binary", "binary2", rows)
            self.assertEqual([mapping.closed for mapping in mappings], [True, True])

    def kept(self, mappings):
        make = sailmortar._mapping

        def keeping(room):
            mappings.append(make(room))
            return mappings[-1]

        return keeping


SHORT_OF_MEMORY = """
import resource, sailmortar
resource.setrlimit(resource.RLIMIT_AS, (1 << 29, 1 << 29))
LONG = b"<FIELD datatype='long' arraysize='4096'/>"
rows = b"<TR><TD/></TR>" * 1000
assert len(sailmortar.convert(LONG, "tabledata", "binary2", rows)) == 1000 * 32769
try:
    sailmortar.convert(LONG, "tabledata", "binary2", rows * 100)
except MemoryError as cause:
    print(type(cause).__name__)
# Far more than there is would be enough here, and little is needed: the eleventh row is refused.
try:
    sailmortar.convert(LONG, "tabledata", "binary2", rows[:140] + b"<TR><TD>x</TD></TR>" + rows * 100)
except sailmortar.Refused as refused:
    print(refused.number, refused.row, refused.offset, len(refused.output))
"""


class Memory(unittest.TestCase):
    def test_too_little_memory_is_a_memory_error_and_what_fits_is_converted(self):
        done = subprocess.run([sys.executable, "-c", SHORT_OF_MEMORY], stdout=subprocess.PIPE, stderr=subprocess.PIPE, text=True)
        self.assertEqual((done.returncode, done.stderr, done.stdout), (0, "", f"MemoryError\n11 10 140 {10 * 32769}\n"))


if __name__ == "__main__":
    unittest.main()
