"""A refusal, in the words that the command tells behind `refused: `."""


class Refused(Exception):
    """An input isn't taken. Its text names the first thing that is wrong, and where."""
