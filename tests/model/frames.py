"""Frames: a header that counts the bytes of a body, and the body."""
from .characters import are_digits
from .part import packed, unpacked

SIZES = {"binary2": 2, "ascii4": 4, "bcd2": 2}


class BadHeader(Exception):
    """A frame's header isn't of digits."""


class CutFrame(Exception):
    """The bytes end inside a frame."""


def first_frame(header, text):
    """The body of the frame that bytes begin with, and the bytes behind it. A header is judged as soon as it is whole."""
    size = SIZES[header]
    if len(text) < size:
        raise CutFrame
    count = body_size(header, text[:size])
    if len(text) < size + count:
        raise CutFrame
    return text[size:size + count], text[size + count:]


def body_size(header, digits):
    """How many bytes a header counts."""
    if header == "binary2":
        return int.from_bytes(digits, "big")
    characters = digits if header == "ascii4" else unpacked(digits)
    if not are_digits(characters):
        raise BadHeader
    return int(characters)


def frame(header, body):
    """The frame of a body, which isn't too long for its header."""
    if header == "binary2":
        return len(body).to_bytes(2, "big") + body
    digits = b"%04d" % len(body)
    return (digits if header == "ascii4" else packed(digits)) + body
