"""A message as a line of JSON, and back."""
import json

from .message import Message
from .showing import written


def json_line(table, message, clear):
    """One object on a line, without blanks: the message type, and the value of each element at its number."""
    values = {str(number): written(table.rows[number], value, clear).decode() for number, value in sorted(message.elements.items())}
    return json.dumps({"mti": message.mti, "elements": values}, separators=(",", ":")).encode() + b"\n"


def message_of(table, line):
    """The message that such a line says, in clear."""
    said = json.loads(line)
    return Message(said["mti"], {int(number): value_of(table.rows[int(number)], text) for number, text in said["elements"].items()})


def value_of(row, text):
    """The value that a text stands for: that of class `B` is of hexadecimal digits."""
    return bytes.fromhex(text) if row.char_class == "B" else text.encode()
