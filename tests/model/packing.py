"""Packing: from a message to its plain bytes.

They have filler nibbles 0, hexadecimal digits in upper case, and a second bitmap only where an element is above 64.
"""
from .bitmap import written_bitmaps
from .part import packed, value_fault, written_body, written_prefix
from .refused import Refused


def pack(table, message):
    """The bytes of a message, or why it has none: its version, then its elements from the lowest on."""
    if int(message.mti[0]) != table.version:
        raise Refused("pack WrongVersion")
    digits = message.mti.encode()
    head = digits if table.mti == "ascii" else packed(digits)
    parts = [part(table.rows.get(number), number, message.elements[number]) for number in sorted(message.elements)]
    return head + written_bitmaps(table.bitmap, message.elements.keys()) + b"".join(parts)


def part(row, number, value):
    """The length and the body of an element."""
    fault = value_fault(row, value) if row else "NoRow"
    if fault:
        raise Refused(f"pack {fault} element {number}")
    return written_prefix(row, len(value)) + written_body(row, value)
