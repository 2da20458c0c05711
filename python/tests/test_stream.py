"""Streams: what is written and answered is what convert gives, whatever the parts, the threads, the cuts, the reader and the writer."""

import concurrent.futures
import contextlib
import functools
import gzip
import io
import itertools
import os
import random
import statistics
import tempfile
import threading
import unittest
from unittest import mock

import random_rows
import sailmortar
from sailmortar import Answer, Refused, Rows, convert_stream

WAYS = list(itertools.product(Rows, Rows))
SHORT = b"<FIELD name='sky' datatype='short'/>"
TEXT = b"<FIELD name='note' datatype='char' arraysize='*'/>"


class Slow(io.BytesIO):
    """Gives a few bytes at a time."""

    def read(self, most):
        return super().read(min(most, random.choice((1, 2, 7, 100))))


def streamed(fields, source, target, reader, threads=None, long=False):
    """What is written, and what is answered or refused, where and of which column."""
    writer = io.BytesIO()
    try:
        return writer, convert_stream(fields, source, target, reader, writer, threads, long), None, None
    except Refused as refused:
        assert (refused.output, refused.index, refused.input) == (b"", None, None), vars(refused)
        assert (refused.number, refused.row, refused.column) == refused.answer[:3]
        return writer, refused.answer, refused.offset, refused.name


def converted(fields, source, target, rows):
    """The same of one call."""
    try:
        output = sailmortar.convert(fields, source, target, rows)
    except Refused as refused:
        return refused.output, refused.answer, refused.offset, refused.name
    count = sailmortar.compare(fields, source, rows, source, b"").first_beyond
    return output, Answer(0, 0, 0, count, len(output)), None, None


def sizes(**values):
    """The module with other sizes, as those of parts."""
    return mock.patch.multiple(sailmortar, **{"_" + name: value for name, value in values.items()})


def damaged(rows):
    """Rows with some bytes changed, lost or doubled, or cut."""
    place, length = random.randrange(len(rows) + 1), random.choice((1, 1, 2, 30))
    noise = bytes(random.randrange(256) for _ in range(length))
    middle = random.choice((b"", bytes(length), noise, rows[place : place + length] * 2, b"<TR", b"</TR>", b"&"))
    return random.choice((rows[:place], rows[:place] + middle + rows[place + length :]))


def any_table(turn):
    """A way, columns, and rows, of which two thirds are good."""
    columns, (source, target) = random_rows.any_columns(random.choice((1, 1, 2, 3, 9))), WAYS[turn % 9]
    style = random.choice(random_rows.STYLES)
    rows = b"".join(random_rows.spelled(columns, source, style) for _ in range(random.choice((0, 1, 5, 40))))
    return columns, source, target, rows if random.random() < 0.67 else damaged(rows)


def longest_row(columns):
    """No row written has more bytes."""
    return 100 + sum(14 + column.bound * 21 for column in columns)


class Agreement(unittest.TestCase):
    def assert_as_one_call(self, fields, source, target, rows, threads=None, long=False, reader=io.BytesIO):
        writer, *said = streamed(fields, source, target, reader(rows), threads, long)
        output, *expected = converted(fields, source, target, rows)
        self.assertEqual(said, expected, (fields, source, target, rows[:300], threads, long))
        self.assertTrue(writer.getvalue() == output, (fields, source, target, rows[:300], threads, long))
        return said[0].number

    def assert_random_tables(self, turns, cut=sailmortar._cut):
        numbers = []
        for turn in range(turns):
            columns, source, target, rows = any_table(turn)
            # Forty parts at most: rows may be long.
            part, threads = max(random.choice((1, 9, 60, 500)), len(rows) // 40), random.choice((1, 2, 3, 8))
            with sizes(PART=part, PART_ROOM=longest_row(columns), cut=cut):
                table = random_rows.fields(columns).replace(b"<FIELD", b"<FIELD name='sky'"), source, target, rows
                numbers.append(self.assert_as_one_call(*table, threads, random.random() < 0.5, random.choice((io.BytesIO, Slow))))
        self.assertGreater(numbers.count(0), turns // 3)
        self.assertGreater(len(set(numbers)), 4)

    def test_random_tables(self):
        random.seed(19)
        self.assert_random_tables(500)

    def test_any_cuts(self):
        random.seed(20)
        self.assert_random_tables(300, lambda way, data: random.randint(-1, len(data)))
        self.assert_random_tables(100, lambda way, data: 1)

    def test_parts_of_their_own_size(self):
        random.seed(21)
        fields = b"<FIELD datatype='int'/><FIELD datatype='char' arraysize='40*'/><FIELD datatype='bit' arraysize='9*'/>"
        columns = sailmortar.columns(fields)
        for source, target in WAYS:
            some = b"".join(random_rows.spelled(columns, source, random_rows.Style(0, 0.5, 0)) for _ in range(500))
            rows = some * (1 + (3 << 20) // len(some))
            for threads in (1, 2):
                self.assertEqual(self.assert_as_one_call(fields, source, target, rows, threads), 0)
            damaged = rows[: 5 << 19] + b"\xff" * 99 + rows[5 << 19 :]
            self.assertNotEqual(self.assert_as_one_call(fields, source, target, damaged, 3, long=True), 0)

    def test_a_refusal_in_each_part(self):
        for bad in range(40):
            rows = b"".join(b"<TR><TD>%b</TD></TR>\n\n" % (b"x" if row == bad else b"7") for row in range(40))
            for threads, cut in itertools.product((1, 2, 8), (sailmortar._cut, lambda way, data: data.rfind(b"<TR"), lambda way, data: 7)):
                with sizes(PART=60, cut=cut):
                    self.assertEqual(self.assert_as_one_call(SHORT, "tabledata", "binary", rows, threads), 11)

    def converted_parts(self, *table, threads):
        """How long the parts were that were converted, one after the other."""
        convert = sailmortar._Conversion._converted
        with mock.patch.object(sailmortar._Conversion, "_converted", autospec=True, side_effect=convert) as calls:
            self.assertEqual(self.assert_as_one_call(*table, threads), 0)
        return [call.args[1].nbytes for call in calls.call_args_list]

    def test_parts_are_shorter_where_rows_become_longer(self):
        # A byte becomes 22.
        with sizes(PART=1 << 14, PART_ROOM=1 << 15):
            table = b"<FIELD datatype='unsignedByte'/>", "binary", "tabledata", b"\xff" * (1 << 18)
            lengths = self.converted_parts(*table, threads=2)
        self.assertEqual((max(lengths), statistics.mode(lengths)), (1 << 14, 1 + (1 << 14) // 22))
        fields, row = b"<FIELD datatype='long' arraysize='4096'/>", b"<TR><TD/></TR>"
        with sizes(PART=1 << 12):
            self.assert_as_one_call(fields, "tabledata", "binary2", row * 1000, 2)

    def test_a_long_row_is_begun_a_few_times(self):
        rows = b"<TR><TD>7" + b" " * 100_000 + b"</TD></TR>"
        for threads in (1, 2):
            with sizes(PART=100):
                self.assertLess(sum(self.converted_parts(SHORT, "tabledata", "binary", rows, threads=threads)), 6 * len(rows))


class Cuts(unittest.TestCase):
    """Guesses need not be right; but where they are not, one thread does the work of all."""

    def assert_right(self, fields, rows, way):
        """Each part ends where its last row ends."""
        self.assertGreater(len(rows), 6 << 14)
        with sizes(PART=1 << 14), mock.patch.object(sailmortar._Conversion, "_go_on", side_effect=AssertionError):
            writer, *said = streamed(fields, *way, io.BytesIO(rows), 2)
        self.assertEqual((writer.getvalue(), *said), converted(fields, *way, rows))

    def night(self, fields, source, count):
        columns = sailmortar.columns(fields)
        rows = b"".join(random_rows.spelled(columns, source, random_rows.Style(0, 0.3, 0)) for _ in range(count))
        return rows * (1 + (6 << 14) // len(rows))

    def test_short_rows(self):
        random.seed(22)
        mixed = SHORT + TEXT.replace(b"*", b"30*") + b"<FIELD datatype='bit' arraysize='12*'/><FIELD datatype='long'/>"
        for way, fields in itertools.product(WAYS, (mixed, mixed + mixed, SHORT + b"<FIELD datatype='bit' arraysize='12'/>")):
            self.assert_right(fields, self.night(fields, way[0], 500), way)

    def test_long_rows(self):
        random.seed(23)
        wide = b"<FIELD datatype='short' arraysize='2000*'/>"
        for way, fields in itertools.product(WAYS, (wide + TEXT, wide.replace(b"*", b""))):
            self.assert_right(fields, self.night(fields, way[0], 30), way)

    def test_rows_that_do_not_tell_where_they_begin(self):
        for fields in (TEXT, TEXT + SHORT, 3 * TEXT):
            row = b"".join(bytes(4 if column.kind == "char" else 2) for column in sailmortar.columns(fields))
            self.assert_right(fields, row * 30_000, (Rows.BINARY, Rows.BINARY2))

    def test_guessing_takes_no_more_steps_than_there_are_rows(self):
        zeros, long = b"\0\0\2\0" + bytes(512), b"\0\0\x0f\xfc" + bytes(4092)
        for fields, row, before in ((TEXT, zeros, b""), (TEXT, bytes(4), b""), (TEXT + SHORT, bytes(6), b""), (TEXT, bytes(4), long * 64)):
            count = (1 << 20) // len(row)
            with mock.patch.object(sailmortar, "_walked", wraps=sailmortar._walked) as walked:
                cut = self.cut(fields, Rows.BINARY, before + row * count) - len(before)
            self.assertEqual((cut > len(row) * (count - 65), cut % len(row)), (True, 0))
            self.assertLessEqual(sum(sailmortar._walked(*call.args)[1] for call in walked.call_args_list), 64 + count)

    def cut(self, fields, source, data):
        return sailmortar._cut(sailmortar._Way(memoryview(fields), sailmortar.columns(fields), source, source), data)

    def test_data_without_a_cut(self):
        texts = b"", b"<TR>", b"  ", b"<TR><TD/>", b"<TR/><TR"
        self.assertEqual([self.cut(SHORT, Rows.TABLEDATA, data) > 0 for data in texts], [False] * 4 + [True])
        streams = b"", b"\0" * 5, b"\0" * 6, b"\0" * 11, b"\0\0\0\0\0\1", b"\xff" * 99
        self.assertEqual([self.cut(SHORT + TEXT, Rows.BINARY, data) for data in streams], [0, 0, 6, 6, 0, 0])
        # Counts are good wherever one begins, and the first row is not.
        self.assertEqual(self.cut(TEXT + b"<FIELD datatype='boolean'/>", Rows.BINARY, b"\0\0\0\0x" + bytes(4995)), 0)


class Raising(RuntimeError):
    pass


class Readers(unittest.TestCase):
    ROWS = b"".join(number.to_bytes(2, "big") for number in range(5000))

    def setUp(self):
        self.folder = tempfile.TemporaryDirectory()
        self.addCleanup(self.folder.cleanup)
        self.file = os.path.join(self.folder.name, "night")
        with open(self.file, "wb") as file:
            file.write(self.ROWS)

    def assert_read(self, reader, rows, **options):
        for threads in (1, 2):
            place = reader.tell() if reader.seekable() else None
            with sizes(PART=300):
                writer, answer, _, _ = streamed(SHORT, "binary", "binary2", reader, threads, **options)
            self.assertEqual(answer, Answer(0, 0, 0, len(rows) // 2, len(rows) // 2 * 3))
            self.assertEqual(writer.getvalue(), sailmortar.convert(SHORT, "binary", "binary2", rows))
            if place is None:
                return
            reader.seek(place)

    def test_files_from_where_they_stand(self):
        for buffering, mode, place in itertools.product((0, -1), ("rb", "r+b"), (0, 100, 10_000, 11_000)):
            with open(self.file, mode, buffering) as reader:
                reader.seek(place)
                self.assert_read(reader, self.ROWS[place:])
                self.assert_read(reader, self.ROWS[place:], long=True)
                reader.read(4)
                self.assert_read(reader, self.ROWS[place + 4 :])

    def test_a_plain_file_is_converted_as_it_is_read(self):
        with open(self.file, "rb", buffering=0) as reader, sizes(PART=300):
            places = []
            writer = mock.Mock(**{"write.side_effect": lambda rows: places.append(reader.tell())})
            convert_stream(SHORT, "binary", "binary", reader, writer, 1)
        self.assertEqual(places[:3], [300, 600, 900])

    def test_a_plain_file_that_grows_is_read_as_far_as_it_went(self):
        for threads in (1, 2):
            with open(self.file, "rb") as reader, open(self.file, "ab", buffering=0) as growing, sizes(PART=300):
                rows, written = reader.read(), []
                reader.seek(0)

                def write(rows):
                    written.append(rows.tobytes())
                    growing.write(self.ROWS[:100])

                writer = mock.Mock(write=write)
                self.assertEqual(convert_stream(SHORT, "binary", "binary", reader, writer, threads).bytes, len(rows))
            self.assertEqual(b"".join(written), rows)
            self.assertGreater(os.path.getsize(self.file), len(rows))

    def test_a_plain_file_that_shrinks_ends_where_it_ends(self):
        with open(self.file, "rb", buffering=0) as reader, sizes(PART=300):
            writer = mock.Mock(**{"write.side_effect": lambda rows: os.truncate(self.file, 1001)})
            with self.assertRaises(Refused) as raised:
                convert_stream(SHORT, "binary", "binary", reader, writer, 1)
        self.assertEqual((raised.exception.answer, raised.exception.offset), (Answer(8, 500, 0, 500, 1000), 1000))

    def test_a_file_that_says_no_length(self):
        with open("/proc/self/maps", "rb") as reader:
            self.assertEqual(os.fstat(reader.fileno()).st_size, 0)
            _, answer, _, _ = streamed(b"<FIELD datatype='char'/>", "binary", "binary2", reader)
        self.assertGreater(answer.rows, 1000)

    def test_what_has_the_number_of_a_file_and_other_bytes(self):
        with gzip.open(self.file + ".gz", "wb") as writer:
            writer.write(self.ROWS)
        with gzip.open(self.file + ".gz", "rb") as reader:
            self.assert_read(reader, self.ROWS)
        with tempfile.NamedTemporaryFile() as reader:
            reader.write(self.ROWS)
            reader.seek(0)
            self.assert_read(reader, self.ROWS)

    def test_pipes(self):
        for buffering, threads, long in itertools.product((0, -1), (1, 2), (False, True)):
            end, start = os.pipe()
            feeding = threading.Thread(target=self.feed, args=(start,))
            feeding.start()
            with open(end, "rb", buffering) as reader:
                self.assert_read(reader, self.ROWS, long=long)
            feeding.join()

    def feed(self, start):
        with open(start, "wb", buffering=0) as pipe:
            for place in range(0, len(self.ROWS), 777):
                pipe.write(self.ROWS[place : place + 777])

    def test_other_buffers_than_bytes(self):
        for kind in (bytearray, memoryview):
            reader = io.BytesIO(self.ROWS)
            self.assertEqual(streamed(SHORT, "binary", "binary", mock.Mock(read=lambda most: kind(reader.read(most))))[1].rows, 5000)

    def test_what_a_reader_raises_is_passed_on(self):
        for good, threads, long in itertools.product((0, 1, 5, 20), (1, 2, 8), (False, True)):
            error, writer = Raising(), io.BytesIO()
            reader = mock.Mock(**{"read.side_effect": [self.ROWS[100 * place : 100 * place + 100] for place in range(good)] + [error]})
            with sizes(PART=100), self.assertRaises(Raising) as raised:
                convert_stream(SHORT, "binary", "binary", reader, writer, threads, long)
            self.assertIs(raised.exception, error)
            self.assertTrue(self.ROWS.startswith(writer.getvalue()))
            self.assertLessEqual(len(writer.getvalue()), 100 * good if long else 0)

    def test_what_is_no_reader_of_bytes(self):
        for data, error in ((None, BlockingIOError), ("text", TypeError), (7, TypeError), ([], TypeError)):
            for long in (False, True):
                with self.assertRaises(error):
                    convert_stream(SHORT, "binary", "binary", mock.Mock(**{"read.return_value": data}), io.BytesIO(), long=long)
        with open(self.file, encoding="latin-1") as reader, self.assertRaisesRegex(TypeError, "binary mode"):
            convert_stream(SHORT, "binary", "binary", reader, io.BytesIO())


class Late(concurrent.futures.Executor):
    """A pool that does one thing when it is told to, or when that is waited for."""

    def __init__(self):
        self.calls = []

    def submit(self, call, *arguments):
        future = concurrent.futures.Future()
        future.result = functools.partial(self.result, future, future.result)
        self.calls.append(lambda: future.set_result(call(*arguments)))
        return future

    def result(self, future, result):
        while not future.done():
            self.run()
        return result()

    def run(self):
        if self.calls:
            self.calls.pop(0)()


class AtOnce(concurrent.futures.Executor):
    """A pool that has done everything before one looks."""

    def __init__(self, threads):
        self.threads = threads

    def submit(self, call, *arguments):
        future = concurrent.futures.Future()
        future.set_result(call(*arguments))
        return future


class Writers(unittest.TestCase):
    ROWS = Readers.ROWS

    def test_what_a_writer_raises_ends_it(self):
        for good, threads, long in itertools.product((0, 1, 5, 20), (1, 2, 8), (False, True)):
            before, error, reader, written = threading.active_count(), Raising(), io.BytesIO(self.ROWS), []

            def write(rows):
                if len(written) == good:
                    raise error
                written.append(bytes(rows))

            with sizes(PART=100), self.assertRaises(Raising) as raised:
                convert_stream(SHORT, "binary", "binary", reader, mock.Mock(write=write), threads, long)
            self.assertIs(raised.exception, error)
            self.assertEqual(b"".join(written), self.ROWS[: 100 * good])
            self.assertEqual(threading.active_count(), before)

    def test_unbuffered_files_may_take_less_and_others_may_not(self):
        class Raw(io.RawIOBase):
            taken = b""

            def write(self, rows):
                self.taken += rows[:77]
                return min(77, rows.nbytes)

        with sizes(PART=300):
            raw = Raw()
            convert_stream(SHORT, "binary", "binary", io.BytesIO(self.ROWS), raw, 2)
            self.assertEqual(raw.taken, self.ROWS)
            for writer, error in ((mock.Mock(spec=io.RawIOBase, write=lambda rows: None), BlockingIOError), (mock.Mock(write=len), None)):
                with self.assertRaises(error) if error else contextlib.nullcontext():
                    convert_stream(SHORT, "binary", "binary", io.BytesIO(self.ROWS), writer, 2)
            with self.assertRaisesRegex(OSError, "took 7 of 300 bytes"):
                convert_stream(SHORT, "binary", "binary", io.BytesIO(self.ROWS), mock.Mock(**{"write.return_value": 7}), 2)

    def test_rows_stand_as_long_as_the_call(self):
        pool, written = Late(), []

        def write(rows):
            written.append(rows.tobytes())
            pool.run()
            self.assertEqual(rows, written[-1])

        with sizes(PART=300), mock.patch("concurrent.futures.ThreadPoolExecutor", return_value=pool):
            convert_stream(SHORT, "binary", "binary", io.BytesIO(self.ROWS), mock.Mock(write=write), 3)
        self.assertEqual(b"".join(written), self.ROWS)

    def test_bytes_that_are_kept_too_long_are_no_other_bytes(self):
        kept = []
        convert_stream(SHORT, "binary", "binary", io.BytesIO(self.ROWS), mock.Mock(write=kept.append))
        with self.assertRaises(ValueError):
            kept[0].tobytes()


class Size(unittest.TestCase):
    def assert_over_size(self, reader):
        with self.assertRaises(Refused) as raised:
            convert_stream(SHORT, "binary", "binary", reader, None)
        refused = raised.exception
        self.assertEqual((refused.answer, refused.offset, refused.name), (Answer(6, 0, 0, 0, 0), 0, None))
        self.assertEqual((str(refused), refused.output), ("refusal 6: an input over its size", b""))

    def test_a_plain_file_over_its_size_is_not_read(self):
        with tempfile.TemporaryFile() as reader:
            reader.truncate((1 << 30) + 1)
            self.assert_over_size(reader)
            self.assertEqual(reader.tell(), 0)
            # From its last rows on it is not over its size.
            reader.seek((1 << 30) - 3)
            self.assertEqual(streamed(SHORT, "binary", "binary", reader, 2)[1], Answer(0, 0, 0, 2, 4))

    def test_other_readers_are_read_until_it_is_known(self):
        with sizes(LIMIT=1000, PART=300):
            for length in (1001, 1002, 5000):
                reader = Slow(bytes(length))
                self.assert_over_size(reader)
                self.assertEqual(reader.tell(), 1001)
            self.assertEqual(streamed(SHORT, "binary", "binary", Slow(bytes(1000)), 2)[1], Answer(0, 0, 0, 500, 1000))
            for threads in (1, 2):
                self.assertEqual(streamed(SHORT, "binary", "binary", Slow(bytes(5000)), threads, long=True)[1], Answer(0, 0, 0, 2500, 5000))

    def test_declarations_come_first(self):
        for fields, answer in ((SHORT + b"<FIELD/>", Answer(1, 0, 1, 0, 0)), (b" " * 65537, Answer(6, 0, 0, 0, 0))):
            for long in (False, True):
                with self.assertRaises(Refused) as raised:
                    convert_stream(fields, "binary", "binary", None, None, long=long)
                self.assertEqual((raised.exception.answer, raised.exception.offset, raised.exception.output), (answer, 0, b""))


class Long(unittest.TestCase):
    def test_it_is_read_some_parts_ahead_of_what_is_written(self):
        for threads in (1, 2, 8):
            read, written = [0], [0]

            def count(counter, length):
                counter[0] += length
                self.assertLessEqual(read[0] - written[0], 300 * (2 * threads + 1))
                return bytes(length if read[0] < 300_000 else 0)

            with sizes(PART=300):
                reader = mock.Mock(read=lambda most: count(read, most))
                writer = mock.Mock(write=lambda rows: count(written, rows.nbytes) and None)
                answer = convert_stream(SHORT, "binary", "binary", reader, writer, threads, long=True)
            self.assertEqual((answer.rows, written[0]), (149_850, 299_700))

    def test_what_is_ready_is_written_before_more_is_read(self):
        def read(most):
            if threads == 1 or reader.read.call_count > 1:
                self.assertEqual(writer.tell(), 300 * (reader.read.call_count - 1))
            return bytes(300 if reader.read.call_count < 9 else 0)

        for threads in (1, 2):
            writer, reader = io.BytesIO(), mock.Mock(**{"read.side_effect": read})
            with sizes(PART=300), mock.patch("concurrent.futures.ThreadPoolExecutor", AtOnce):
                self.assertEqual(convert_stream(SHORT, "binary", "binary", reader, writer, threads, long=True).rows, 8 * 150)

    def test_a_row_that_is_too_long_is_judged_by_its_front(self):
        short, numbers = b"<TR><TD>7</TD></TR>", set()
        for before, length, threads in itertools.product((0, 1, 30), (999, 1000, 1001, 5000), (1, 2, 8)):
            row = short.replace(b">", b" " * (length - len(short)) + b">", 1)
            rows, judged = short * before + row + short * 100, short * before + row[:1000]
            with sizes(PART=100, LONGEST_ROW=1000):
                writer, *said = streamed(SHORT, "tabledata", "binary", io.BytesIO(rows), threads, long=True)
                output, *expected = converted(SHORT, "tabledata", "binary", rows if length <= 1000 else judged)
                self.assertEqual((writer.getvalue(), said), (output, expected), (before, length, threads))
                # Otherwise it is as long as it is.
                writer, *said = streamed(SHORT, "tabledata", "binary", io.BytesIO(rows), threads)
                self.assertEqual(said[0], Answer(0, 0, 0, before + 101, 2 * (before + 101)))

    def test_white_space_of_any_length_is_no_row(self):
        rows = b" " * 5000 + b"<TR><TD>7</TD></TR>" + b" " * 5000
        for end, threads in itertools.product((b"", b"<TR><TD>7</TD></TR>", b"<TR><TD>x</TD></TR>"), (1, 2)):
            with sizes(PART=100, LONGEST_ROW=1000):
                writer, *said = streamed(SHORT, "tabledata", "binary", io.BytesIO(rows + end), threads, long=True)
            output, *expected = converted(SHORT, "tabledata", "binary", rows + end)
            self.assertEqual((writer.getvalue(), said), (output, expected))


class Arguments(unittest.TestCase):
    def test_threads(self):
        for threads, error in ((0, ValueError), (-1, ValueError), (1.5, TypeError), ("2", TypeError)):
            with self.assertRaises(error):
                convert_stream(SHORT, "binary", "binary", None, None, threads)
        pool = concurrent.futures.ThreadPoolExecutor
        for threads, begun in ((None, 5), (3, 3)):
            with sizes(PART=100), mock.patch("os.sched_getaffinity", return_value=set(range(5))):
                with mock.patch("concurrent.futures.ThreadPoolExecutor", side_effect=pool) as pools:
                    self.assertEqual(streamed(SHORT, "binary", "binary", io.BytesIO(bytes(1000)), threads)[1].rows, 500)
            pools.assert_called_once_with(begun)

    def test_what_is_short_begins_no_threads(self):
        with mock.patch("concurrent.futures.ThreadPoolExecutor", side_effect=AssertionError):
            self.assertEqual(streamed(SHORT, "binary", "binary", io.BytesIO(bytes(1 << 20)), 8)[1].rows, 1 << 19)
            self.assertEqual(streamed(SHORT, "binary", "binary", io.BytesIO(bytes(3 << 20)), 1, long=True)[1].rows, 3 << 19)

    def test_fields_and_kinds(self):
        with self.assertRaisesRegex(TypeError, "^fields"):
            convert_stream("text", "binary", "binary", None, None)
        for kinds in (("fits", "binary"), ("binary", 3)):
            with self.assertRaises(ValueError):
                convert_stream(SHORT, *kinds, None, None)
        fields = bytearray(SHORT)
        self.assertEqual(streamed(memoryview(fields), Rows.BINARY, "BINARY2", io.BytesIO(bytes(4)))[1].rows, 2)
        fields.append(0)  # Nothing holds the buffer any more.


if __name__ == "__main__":
    unittest.main()
