"""Bitmaps: which elements a message has. Bit 1 is the most significant one of the first byte."""
from .characters import HEX_DIGITS


def bitmap_size(coding):
    """How many bytes one bitmap takes."""
    return 16 if coding == "hex" else 8


def bitmap_digits_fault(coding, text):
    """What is wrong with the bytes of a bitmap, before its bits are looked at."""
    return "BadHex" if coding == "hex" and not HEX_DIGITS.issuperset(text) else None


def bits_of(coding, text):
    """The bits that are set in one bitmap, from 1 to 64."""
    word = int(text, 16) if coding == "hex" else int.from_bytes(text, "big")
    return {bit for bit in range(1, 65) if word >> 64 - bit & 1}


def written_bitmap(coding, bits):
    """One bitmap with these bits."""
    text = sum(1 << 64 - bit for bit in bits).to_bytes(8, "big")
    return text.hex().upper().encode() if coding == "hex" else text


def written_bitmaps(coding, numbers):
    """The bitmaps of a message with these elements. The second one is there only where an element is above 64."""
    above = {number - 64 for number in numbers if number > 64}
    if not above:
        return written_bitmap(coding, numbers)
    return written_bitmap(coding, {1} | {number for number in numbers if number <= 64}) + written_bitmap(coding, above)
