"""Documents of tables. They are good; spoiling.py spoils them."""
import json

from model.characters import CLASSES
from model.row import CODED, MOST, PAD_BYTES

LENGTHS = ["fixed", "fixed", "LL", "LLL", "LLLL"]
NUMBERS = [number for number in range(2, 129) if number != 65]


def draw_table(draw):
    """A table of some rows."""
    numbers = draw.sample(NUMBERS, 126 if draw.random() < 0.03 else draw.choice([0, 1, 2, 5, 10, 20]))
    return {"profile": 2, "version": draw.choice([0, 0, 0, 1, 2, 9]), "mti": draw.choice(["ascii", "bcd"]),
            "bitmap": draw.choice(["hex", "raw"]), "rows": [draw_row(draw, number) for number in numbers]}


def draw_row(draw, number):
    """A good row."""
    char_class = draw.choice(list(CLASSES))
    return with_length(draw, number, char_class, draw_coding(draw, char_class), draw.choice(LENGTHS))


def draw_coding(draw, char_class):
    """A coding that writes a class."""
    return draw.choice([coding for coding in CODED if char_class in CODED[coding]])


def with_length(draw, number, char_class, coding, length):
    """A row with this length, and with what goes with it."""
    most = MOST[length]
    size = min(most, draw.choice([1, 2, 3, draw.randint(1, 30), draw.randint(1, 30), draw.randint(1, most), most]))
    row = {"number": number, "class": char_class, "coding": coding, "length": length, "max": size, "pad": "none"}
    if length != "fixed":
        row["prefix"] = draw.choice(["ascii", "bcd"])
    elif row["class"] not in ("XN", "B") and draw.random() < 0.5:
        row["pad"] = f"{draw.choice(['left', 'right'])}:{draw_pad(draw, row['coding'])}"
    return row


def draw_pad(draw, coding):
    """The digits of a pad byte, often of one that values have too."""
    digits = f"{draw.choice([0x30, 0x30, draw.choice(PAD_BYTES[coding])]):02X}"
    return draw.choice([digits, digits.lower()])


def draw_variant(draw, table):
    """Another table that may write the same messages: some rows have another coding, length or size, and some are gone."""
    rows = []
    for row in table["rows"]:
        kind = draw.choice(["same", "same", "same", "same", "coding", "length", "size", "class"])
        if kind == "coding":
            row = {**row, "coding": draw_coding(draw, row["class"]), "pad": "none"}
        if kind == "length":
            row = with_length(draw, row["number"], row["class"], row["coding"], draw.choice(LENGTHS))
        if kind == "size":
            row = {**row, "max": max(1, min(MOST[row["length"]], row["max"] + draw.choice([-1, 1, 5])))}
        if kind == "class":
            char_class = draw.choice(list(CLASSES))
            coding = draw_coding(draw, char_class)
            row = {**with_length(draw, row["number"], char_class, coding, row["length"]), "max": row["max"]}
        if draw.random() < 0.98:
            rows.append(row)
    version = table["version"] if draw.random() < 0.95 else draw.choice([0, 1, 2, 9])
    codings = {"mti": draw.choice(["ascii", "bcd"]), "bitmap": draw.choice(["hex", "raw"])}
    return {**table, **codings, "version": version, "rows": rows}


def document(draw, table):
    """The text of a document. Members and rows stand in any order; profile 1 does where no length has four digits."""
    table = dict(table)
    if "LLLL" not in (row["length"] for row in table["rows"]) and draw.random() < 0.3:
        table["profile"] = 1
    table["rows"] = [shuffled(draw, row) for row in draw.sample(table["rows"], len(table["rows"]))]
    return json.dumps(shuffled(draw, table), indent=draw.choice([None, None, 1])).encode()


def shuffled(draw, members):
    """An object with its members in another order."""
    return dict(draw.sample(list(members.items()), len(members)))
