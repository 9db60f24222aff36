"""A message as lines for a human, with stars for what a bystander shouldn't read."""
from .message_type import words

HIDDEN = (34, 35, 36, 45, 52, 55)
ACCOUNT_NUMBER = 2


def lines(table, message, clear):
    """The line of the message type, and one for each element."""
    shown = [f"MTI={message.mti} {words(message.mti)}\n".encode()]
    for number, value in sorted(message.elements.items()):
        shown.append(b"DE%03d=%s\n" % (number, written(table.rows[number], value, clear)))
    return b"".join(shown)


def written(row, value, clear):
    """A value: its first and last bytes that may be shown, and a star for each byte between them."""
    first, last = (len(value), 0) if clear else shown_ends(row.number, len(value))
    stars = b"*" * (len(value) - first - last)
    return text(row, value[:first]) + stars + text(row, value[len(value) - last:])


def shown_ends(number, size):
    """How many bytes are shown at both ends: of an account number of 13 or more the first six and the last four, of shorter ones
    none, and of tracks, PIN and chip data none."""
    if number == ACCOUNT_NUMBER:
        return (6, 4) if size >= 13 else (0, 0)
    return (0, 0) if number in HIDDEN else (size, 0)


def text(row, value):
    """Bytes as they stand in a line: those of class `B` as hexadecimal digits."""
    return value.hex().upper().encode() if row.char_class == "B" else value
