"""A row of a table: how the values of one element are written."""
from dataclasses import dataclass

MOST = {"fixed": 999, "LL": 99, "LLL": 999, "LLLL": 9999}
CODED = {"ascii": {"N", "A", "AN", "ANS", "Z", "ZD", "XN"}, "bcd": {"N", "Z"}, "raw": {"B"}, "hex": {"B"}}
PAD_BYTES = {"ascii": range(0x20, 0x7F), "bcd": range(0x30, 0x40), "raw": (), "hex": ()}


@dataclass(frozen=True)
class Row:
    """The row of an element. `max` counts characters of the value, not bytes on the wire."""
    number: int
    char_class: str
    coding: str            # ascii, bcd, raw or hex
    length: str            # fixed, LL, LLL or LLLL
    prefix: str | None     # ascii or bcd: how the digits of LL, LLL and LLLL are written
    max: int
    pad: tuple | None      # ("left" or "right", the pad byte)

    def is_fixed(self):
        """Whether no digits before the value tell its length."""
        return self.length == "fixed"

    def fault(self):
        """The first thing that is wrong with the row, if anything is."""
        if not 1 <= self.max <= MOST[self.length]:
            return "BadMax"
        if self.char_class not in CODED[self.coding]:
            return "CodingClass"
        if self.pad and not self.takes_pad(self.pad[1]):
            return "PadNotAllowed"
        return None

    def takes_pad(self, byte):
        """Only fixed rows are padded, not those of `XN` or `B`, and only with a byte that the coding writes."""
        return self.is_fixed() and self.char_class not in ("XN", "B") and byte in PAD_BYTES[self.coding]
