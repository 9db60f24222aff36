"""The classes of characters that a value may have."""

DIGITS = frozenset(b"0123456789")
LETTERS = frozenset(b"ABCDEFGHIJKLMNOPQRSTUVWXYZabcdefghijklmnopqrstuvwxyz")
HEX_DIGITS = frozenset(b"0123456789ABCDEFabcdef")
TRACK = frozenset(range(0x30, 0x40))

CLASSES = {
    "N": DIGITS,
    "A": LETTERS,
    "AN": LETTERS | DIGITS,
    "ANS": frozenset(range(0x20, 0x7F)),
    "Z": TRACK,
    "ZD": TRACK | {ord("D")},
    "XN": None,
    "B": frozenset(range(0x100)),
}


def are_digits(text):
    """Whether all bytes are digits: 0x30 to 0x39, no sign and no blank."""
    return DIGITS.issuperset(text)


def in_class(name, value):
    """Whether a value is in a class. `XN` goes by place: `C` or `D`, then digits; an empty value is in it."""
    if name == "XN":
        return value[:1] in (b"", b"C", b"D") and are_digits(value[1:])
    return CLASSES[name].issuperset(value)
