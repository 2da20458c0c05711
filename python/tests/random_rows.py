"""Tables of random columns and cells, spelled as rows of each kind: as short as can be, as long as can be, and in between."""

import random
from typing import List, NamedTuple

import sailmortar
from sailmortar import Column, Rows

BITS = {"unsignedByte": 8, "short": 16, "int": 32, "long": 64}
KINDS = ("boolean", "bit", "char") + tuple(BITS)
LENGTHS = ("1", "2", "9", "40", "4096", "1*", "8*", "40*", "4096*", "*")
SPACE = ("", "", "", " ", "\n", "\r\t ")


class Style(NamedTuple):
    """How cells are chosen: how many of them are null, how many have all the elements they may, how many elements are long ones."""

    null: float
    full: float
    long: float


STYLES = [Style(null, full, long) for null in (0, 0.3, 1) for full in (0, 0.5, 1) for long in (0, 0.5, 1)]
EXTREMES = [Style(1, 0, 0), Style(0, 0, 0), Style(0, 0, 1), Style(0, 1, 0), Style(0, 1, 1)]


def any_columns(count: int) -> List[Column]:
    """Columns whose rows stay below some kilobytes, most of the time."""
    lengths = [random.choice(LENGTHS if random.random() < 0.05 else LENGTHS[:3] + LENGTHS[5:7]) for _ in range(count)]
    return sailmortar.columns("".join(declaration(random.choice(KINDS), length) for length in lengths).encode())


def declaration(kind: str, length: str) -> str:
    null = "<VALUES null='0'/>" if kind in BITS and random.random() < 0.5 else ""
    return f"<FIELD datatype='{kind}' arraysize='{length}'>{null}</FIELD>"


def fields(columns: List[Column]) -> bytes:
    """Declarations of these columns; a declared null of theirs is 0."""
    nulls = ["" if column.null is None else "<VALUES null='0'/>" for column in columns]
    return "".join(f"<FIELD datatype='{c.kind}' arraysize='{c.length}'>{null}</FIELD>" for c, null in zip(columns, nulls)).encode()


def spelled(columns: List[Column], kind: Rows, style: Style) -> bytes:
    """A row of this kind."""
    nulls = [random.random() < style.null for _ in columns]
    if kind is Rows.TABLEDATA:
        cells = "".join(text_cell(column, null, style) for column, null in zip(columns, nulls))
        return f"{space()}<TR{space()}>{cells}{space()}</TR{space()}>".encode()
    flags = int("".join("01"[null] for null in nulls).ljust((len(columns) + 7) // 8 * 8, "0"), 2).to_bytes((len(columns) + 7) // 8, "big")
    cells = b"".join(binary_cell(column, null, style) for column, null in zip(columns, nulls))
    return flags + cells if kind is Rows.BINARY2 else cells


def space() -> str:
    return random.choice(SPACE)


def elements(column: Column, style: Style) -> int:
    """How many elements a cell has that is not null."""
    if not column.length.endswith("*"):
        return column.bound
    return column.bound if random.random() < style.full else random.randint(1, min(column.bound, 4))


def text_cell(column: Column, null: bool, style: Style) -> str:
    if null:
        return "<TD/>"
    words = [word(column.kind, random.random() < style.long) for _ in range(elements(column, style))]
    return f"<TD>{('' if column.kind in ('bit', 'char') else ' ').join(words)}</TD>"


def word(kind: str, long: bool) -> str:
    """An element in TABLEDATA, as few characters as there can be or more."""
    if kind in BITS:
        least = 0 if kind == "unsignedByte" else -(1 << BITS[kind] - 1)
        return random.choice([str(least), hex(1 << BITS[kind] - 1)]) if long else "7"
    short, longer = {"boolean": ("T?", ["true", "F"]), "bit": ("01", ["1"]), "char": (">\ra\t", ["&amp;", "&#60;", "&#xD;", "\r\n"])}[kind]
    return random.choice(longer if long else short)


def binary_cell(column: Column, null: bool, style: Style) -> bytes:
    """A cell of BINARY or BINARY2; a null one is as a flag, or a declared null of 0, or a count of 0 has it."""
    count = 0 if null and column.length.endswith("*") else elements(column, style)
    content = binary_content(column.kind, count, style)
    content = bytes(len(content)) if null else content
    return count.to_bytes(4, "big") + content if column.length.endswith("*") else content


def binary_content(kind: str, count: int, style: Style) -> bytes:
    if kind == "bit":
        return (random.randrange(1 << count) << -count % 8).to_bytes(-(-count // 8), "big")
    if kind in BITS:
        least = 255 if kind == "unsignedByte" else 1 << BITS[kind] - 1
        return b"".join((least if random.random() < style.long else 7).to_bytes(BITS[kind] // 8, "big") for _ in range(count))
    return bytes(random.choice(b"TF?" if kind == "boolean" else b"&\r" if random.random() < style.long else b"a") for _ in range(count))
