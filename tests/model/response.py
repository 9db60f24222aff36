"""What a message gets."""
from dataclasses import dataclass

from .message import Message
from .message_type import response_to

GIVEN_BACK = (2, 3, 4, 7, 11, 12, 13, 32, 33, 37, 41, 42, 49, 70, 90)


@dataclass(frozen=True)
class Answer:
    """A response code, the place in the journal (0 for none), and the balance that an inquiry shows."""
    code: str
    place: int = 0
    shown: int | None = None


def respond(message, answer):
    """The response: the elements that are given back, and 39, 38 and 54 where they are due."""
    elements = {number: message.elements[number] for number in GIVEN_BACK if number in message.elements}
    elements[39] = answer.code.encode()
    if answer.code == "00" and answer.place and message.mti[1] in "12":
        elements[38] = b"%06d" % answer.place
    if answer.shown is not None:
        elements[54] = b"0002" + message.elements[49] + written_balance(answer.shown)
    return Message(response_to(message.mti), elements)


def written_balance(amount):
    """`C`, or `D` below zero, and the amount in twelve digits."""
    return b"%s%012d" % (b"D" if amount < 0 else b"C", abs(amount))
