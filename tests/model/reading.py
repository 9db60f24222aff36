"""Reading: from bytes to a message.

A message is read in pieces: its type, the primary bitmap, the secondary one where bit 1 is set, and for each element its length,
where its row has one, and its body. Each piece is judged when it is whole. The good pieces are the message; the first piece that
is bad or unfinished is the fault, at its place, with its element: 0 is the type or the primary bitmap, 1 the secondary one.
"""
from .bitmap import bitmap_digits_fault, bitmap_size, bits_of
from .characters import are_digits
from .message import Message
from .part import body_fault, body_size, prefix_digits, prefix_fault, prefix_size, unpacked, value_of
from .refused import Refused


class Pieces:
    """Bytes that are taken piece by piece."""

    def __init__(self, text):
        self.text = text
        self.at = 0

    def take(self, element, size, fault_of):
        """The next piece, which must be whole and good."""
        piece = self.text[self.at:self.at + size]
        fault = "Short" if len(piece) < size else fault_of(piece)
        if fault:
            raise Refused(f"unpack {fault} element {element} at {self.at}")
        self.at += size
        return piece


def read(table, text):
    """The message that bytes begin with, and how many of them are its own."""
    pieces = Pieces(text)
    mti = type_digits(table, pieces.take(0, table.mti_size(), lambda piece: type_fault(table, piece))).decode()
    numbers = take_bitmap(table, pieces, 0)
    if 1 in numbers:
        numbers = numbers - {1} | {64 + bit for bit in take_bitmap(table, pieces, 1)}
    elements = {number: take_value(table.rows[number], pieces) for number in sorted(numbers)}
    return Message(mti, elements), pieces.at


def type_digits(table, piece):
    """The characters of a message type."""
    return piece if table.mti == "ascii" else unpacked(piece)


def type_fault(table, piece):
    """What is wrong with a message type."""
    digits = type_digits(table, piece)
    if not are_digits(digits):
        return "BadMti"
    return None if int(digits[:1]) == table.version else "WrongVersion"


def take_bitmap(table, pieces, which):
    """The bits of the primary bitmap (0) or the secondary one (1)."""
    piece = pieces.take(which, bitmap_size(table.bitmap), lambda piece: bitmap_fault(table, which, piece))
    return bits_of(table.bitmap, piece)


def bitmap_fault(table, which, piece):
    """What is wrong with a bitmap. Bit 1 of the primary one tells of the secondary one; of that it would tell of a third."""
    fault = bitmap_digits_fault(table.bitmap, piece)
    if fault:
        return fault
    bits = bits_of(table.bitmap, piece)
    if which == 1 and 1 in bits:
        return "ThirdBitmap"
    return None if all(64 * which + bit in table.rows for bit in bits - {1}) else "UnknownElement"


def take_value(row, pieces):
    """The value of an element."""
    count = row.max
    if not row.is_fixed():
        prefix = pieces.take(row.number, prefix_size(row), lambda piece: prefix_fault(row, piece))
        count = int(prefix_digits(row, prefix))
    body = pieces.take(row.number, body_size(row, count), lambda piece: body_fault(row, count, piece))
    return value_of(row, count, body)
