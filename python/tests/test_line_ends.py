"""Line ends in texts: a file as Windows writes it and the same file from elsewhere are one table."""

import unittest

import sailmortar
from sailmortar import Refused

FIELDS = (
    b"<FIELD name='note' datatype='char' arraysize='*'/>\r\n<FIELD name='site' datatype='char' arraysize='3'/>\r\n"
    b"<FIELD name='counts' datatype='short' arraysize='3*'/>\r\n"
)
NIGHT = (
    b"<TR>\r\n  <TD>fog\r\nthen clear\r\n</TD>\r\n  <TD>a\r\nb</TD>\r\n  <TD>1\r\n2\r\n3</TD>\r\n</TR>\r\n"
    b"<TR\r\n><TD>&#13;\r\n</TD><TD/><TD>\r\n</TD></TR>\r\n"
)
BINARY2 = (
    b"\x00\x00\x00\x00\x0ffog\nthen clear\na\nb\x00\x00\x00\x03\x00\x01\x00\x02\x00\x03"
    b"\x60\x00\x00\x00\x02\r\n\x00\x00\x00\x00\x00\x00\x00"
)
BACK = b"<TR><TD>fog\nthen clear\n</TD><TD>a\nb</TD><TD>1 2 3</TD></TR>\n<TR><TD>&#xD;\n</TD><TD/><TD/></TR>\n"
LINE_ENDS = (b"\r\n", b"\n", b"\r")


def text(characters):
    """A row of one cell."""
    return b"<TR><TD>" + characters + b"</TD></TR>\n"


class LineEnds(unittest.TestCase):
    def test_a_night_as_windows_writes_it_goes_to_binary2_and_back(self):
        for line_end in LINE_ENDS:
            night = NIGHT.replace(b"\r\n", line_end)
            self.assertEqual(sailmortar.convert(FIELDS, "tabledata", "binary2", night), BINARY2, line_end)
            self.assertEqual(sailmortar.convert(FIELDS, "tabledata", "tabledata", night), BACK, line_end)
        self.assertEqual(sailmortar.convert(FIELDS, "binary2", "tabledata", BINARY2), BACK)
        self.assertEqual(sailmortar.convert(FIELDS, "tabledata", "binary2", BACK), BINARY2)

    def test_a_line_end_is_one_character_and_a_reference_alone_gives_13(self):
        field = b"<FIELD datatype='char' arraysize='3'/>"
        shown = {b"a\r\nb": b"a\nb", b"\r\r\n": b"\n\n\0", b"\r&#10;": b"\n\n\0", b"&#13;\r\n": b"\r\n\0", b"&#xd;\n\r": b"\r\n\n"}
        for characters, content in shown.items():
            self.assertEqual(sailmortar.convert(field, "tabledata", "binary", text(characters)), content, characters)

    def test_lengths_are_counted_after_line_ends(self):
        field = b"<FIELD datatype='char' arraysize='3'/>"
        for characters, number in {b"a\r\nbc": 12, b"a&#13;\nb": 12, b"\r\r\r\r\n": 12, b"a&#1\r\n3;": 10}.items():
            with self.assertRaises(Refused) as caught:
                sailmortar.convert(field, "tabledata", "binary", text(b"a\r\nb") + text(characters))
            refused = caught.exception
            self.assertEqual((refused.number, refused.row, refused.column), (number, 1, 0), characters)
            self.assertEqual(refused.output, b"a\nb")

    def test_the_offset_is_a_place_in_the_input_as_it_stands(self):
        rows = text(b"\r\n").replace(b"\n", b"\r\n") + b"<TR><TD>toolong</TD></TR>"
        with self.assertRaises(Refused) as caught:
            sailmortar.convert(b"<FIELD datatype='char' arraysize='3'/>", "tabledata", "binary", rows)
        self.assertEqual(caught.exception.offset, rows.index(b"</TR>") + len(b"</TR>"))


if __name__ == "__main__":
    unittest.main()
