"""The sample night from Python: its columns, text to BINARY2, BINARY2 to base64, a file as a stream, two nights compared, one row by an index,
and a cut file.

    python3 examples/night.py
"""

import io
import pathlib
import sys

HERE = pathlib.Path(__file__).resolve().parent
sys.path.insert(0, str(HERE.parent / "python"))

import sailmortar  # noqa: E402

fields = (HERE / "night.fields").read_bytes()
text = (HERE / "night.tabledata").read_bytes()
for column in sailmortar.columns(fields):
    print(column.place, column.name, column.kind, column.length, column.null)

binary2 = sailmortar.convert(fields, "tabledata", "binary2", text)
print(binary2.hex(" "))
print(sailmortar.base64_encode(binary2).decode())
print(sailmortar.convert(fields, "binary2", "tabledata", binary2).decode(), end="")

# From a file to another, on all cores and in little memory; here the other is one in memory.
with open(HERE / "night.tabledata", "rb") as reader, io.BytesIO() as writer:
    answer = sailmortar.convert_stream(fields, "tabledata", "binary2", reader, writer)
    print(f"from the file {answer.rows} rows, {answer.bytes} bytes, the same: {writer.getvalue() == binary2}")

# Both forms show the same, whatever the spelling; another night does not.
print("the same:", sailmortar.compare(fields, "tabledata", text, "binary2", binary2).same)
print("another night differs at", sailmortar.compare(fields, "binary2", binary2, "tabledata", text.replace(b"dusk", b"dawn")).places)

# One row, found by an index; of a long night this takes no longer.
index = sailmortar.Index.build(fields, "binary2", binary2)
print(f"row 1 of {index.rows}: {index.fetch(fields, binary2, 1).decode()}", end="")

# The last byte is missing: the first row stands, and the refusal says where it went wrong.
try:
    sailmortar.convert(fields, "binary2", "tabledata", binary2[:-1])
except sailmortar.Refused as refused:
    print(refused)
    print("the refused row begins at byte", refused.offset)
    print(refused.output.decode(), end="")
