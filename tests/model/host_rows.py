"""The rows that a host needs, so that each of its responses can be written."""
from .refused import Refused

NUMBER = {"N"}
NUMBER_OR_TEXT = {"N", "AN", "ANS"}
TEXT = {"AN", "ANS"}
NEEDED_FIXED = {3: (NUMBER, 6), 4: (NUMBER, 12), 7: (NUMBER, 10), 11: (NUMBER, 6), 38: (NUMBER_OR_TEXT, 6),
                39: (NUMBER_OR_TEXT, 2), 49: (NUMBER_OR_TEXT, 3), 70: (NUMBER, 3), 90: (NUMBER, 42)}
NEEDED_TO = {2: (NUMBER, range(1, 20)), 32: (NUMBER, range(1, 12)), 54: (TEXT, range(20, 1000))}
GIVEN_BACK = {12, 13, 33, 37, 41, 42}


def judge_host_rows(table):
    """Refuses a table under which no host can serve: for its version, then for the first element that isn't as needed."""
    if table.version != 0:
        raise Refused("host NotVersion0")
    for number in sorted({*NEEDED_FIXED, *NEEDED_TO, *GIVEN_BACK}):
        row = table.rows.get(number)
        if row is None and number not in GIVEN_BACK:
            raise Refused(f"host NoRow element {number}")
        if row and not serves(row):
            raise Refused(f"host RowShape element {number}")


def serves(row):
    """Whether a row has the shape that a host needs. Codings are free."""
    if row.number in GIVEN_BACK:
        return row.max <= 99
    if row.number in NEEDED_FIXED:
        classes, size = NEEDED_FIXED[row.number]
        return row.char_class in classes and row.is_fixed() and row.max == size and not row.pad
    classes, sizes = NEEDED_TO[row.number]
    return row.char_class in classes and row.length in ("LL", "LLL") and row.max in sizes
