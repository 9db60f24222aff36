"""Tables: how the elements of a message are written."""
from dataclasses import dataclass

from .bitmap import bitmap_size
from .part import body_size, prefix_size
from .refused import Refused
from .row import Row

VERSIONS = (0, 1, 2, 9)


def is_element(number):
    """Whether an element may have the number. 1 and 65 are the bits that tell of one more bitmap."""
    return 2 <= number <= 128 and number != 65


@dataclass(frozen=True)
class Table:
    """A good table. `rows` finds the row of an element."""
    version: int           # the first digit of the message types
    mti: str               # ascii or bcd
    bitmap: str            # hex or raw
    rows: dict[int, Row]

    def mti_size(self):
        """How many bytes a message type takes."""
        return 4 if self.mti == "ascii" else 2

    def longest(self):
        """The most bytes that a message can take: its type, two bitmaps, and each element at its longest."""
        parts = (prefix_size(row) + body_size(row, row.max) for row in self.rows.values())
        return self.mti_size() + 2 * bitmap_size(self.bitmap) + sum(parts)


def checked(version, mti, bitmap, rows):
    """The table of these rows, or the first thing that is wrong: the version, then row by row."""
    if version not in VERSIONS:
        raise Refused("table BadVersion")
    found = {}
    for row in rows:
        fault = "BadNumber" if not is_element(row.number) else "Twice" if row.number in found else row.fault()
        if fault:
            raise Refused(f"table {fault} element {row.number}")
        found[row.number] = row
    return Table(version, mti, bitmap, found)
