"""A message: its type, and the values of its elements."""
from dataclasses import dataclass, field

from .characters import are_digits


@dataclass(frozen=True)
class Message:
    """`mti` is a text of four digits. `elements` finds the value of an element."""
    mti: str
    elements: dict[int, bytes] = field(default_factory=dict)

    def is_digits(self, number, least, most=None):
        """Whether an element is so many digits. One that is missing isn't."""
        value = self.elements.get(number)
        return value is not None and least <= len(value) <= (most or least) and are_digits(value)
