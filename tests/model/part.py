"""The part of an element in a message: the digits that tell its length, where its row has them, and its body.

A length counts the characters of the value. A padded value is kept without its padding.
"""
from .characters import HEX_DIGITS, are_digits, in_class


def packed(characters):
    """Two characters a byte, high nibble first. An odd count has a filler nibble 0 in front."""
    nibbles = [character - 0x30 for character in characters]
    if len(nibbles) % 2:
        nibbles.insert(0, 0)
    return bytes(16 * high + low for high, low in zip(nibbles[::2], nibbles[1::2]))


def unpacked(text):
    """The characters of all nibbles, a filler among them: 0x30 and the nibble each."""
    return bytes(0x30 + int(nibble, 16) for nibble in text.hex())


# ---- the length

def prefix_size(row):
    """How many bytes tell the length."""
    if row.is_fixed():
        return 0
    return len(row.length) if row.prefix == "ascii" else (len(row.length) + 1) // 2


def written_prefix(row, count):
    """The bytes that tell a length."""
    if row.is_fixed():
        return b""
    digits = str(count).zfill(len(row.length)).encode()
    return digits if row.prefix == "ascii" else packed(digits)


def prefix_digits(row, prefix):
    """The digits of a length. Three digits in BCD have a nibble before them."""
    return prefix if row.prefix == "ascii" else unpacked(prefix)


def prefix_fault(row, prefix):
    """What is wrong with the bytes of a length. The nibble before three digits is 0, and never F."""
    digits = prefix_digits(row, prefix)
    if not are_digits(digits) or len(digits) > len(row.length) and digits[:1] != b"0":
        return "BadLengthDigits"
    if int(digits) > row.max:
        return "LengthOver"
    return None


# ---- the body

def body_size(row, count):
    """How many bytes a body of so many characters takes."""
    return {"ascii": count, "raw": count, "bcd": (count + 1) // 2, "hex": 2 * count}[row.coding]


def value_fault(row, value):
    """Why a value has no place in a row."""
    if len(value) > row.max or len(value) < row.max and row.is_fixed() and not row.pad:
        return "WrongLength"
    if not in_class(row.char_class, value):
        return "NotInClass"
    if without_padding(row, value) != value:
        return "PadEnd"
    return None


def written_body(row, value):
    """The plain body of a value that fits: filler 0, hexadecimal digits in upper case."""
    characters = padded(row, value)
    if row.coding == "bcd":
        return packed(characters)
    return characters.hex().upper().encode() if row.coding == "hex" else characters


def body_fault(row, count, body):
    """What is wrong with a body of so many characters: its filler, its digits, then its characters."""
    if row.coding == "bcd" and count % 2 and body[0] >> 4 not in (0x0, 0xF):
        return "BadFiller"
    if row.coding == "hex" and not HEX_DIGITS.issuperset(body):
        return "BadHex"
    if not in_class(row.char_class, value_of(row, count, body)):
        return "NotInClass"
    return None


def value_of(row, count, body):
    """The value that a body of so many characters stands for."""
    if row.coding == "bcd":
        return without_padding(row, unpacked(body)[count % 2:])
    return bytes.fromhex(body.decode()) if row.coding == "hex" else without_padding(row, body)


# ---- the padding

def padded(row, value):
    """A value filled up to the row's length."""
    if not row.pad:
        return value
    side, byte = row.pad
    fill = bytes([byte]) * (row.max - len(value))
    return fill + value if side == "left" else value + fill


def without_padding(row, characters):
    """Characters without the pad bytes at their padded end. Nothing but padding is the empty value."""
    if not row.pad:
        return characters
    side, byte = row.pad
    return characters.lstrip(bytes([byte])) if side == "left" else characters.rstrip(bytes([byte]))
