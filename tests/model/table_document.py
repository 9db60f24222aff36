"""The document of a table: which JSON it is, and the table that it stands for."""
import functools
import pathlib
import re

from .characters import CLASSES
from .json_text import NotJson, has_members, is_one_of, is_whole, value_of
from .refused import Refused
from .row import CODED, MOST, Row
from .table import checked

MEMBERS = ("bitmap", "mti", "profile", "rows", "version")
ROW_MEMBERS = ("class", "coding", "length", "max", "number", "pad")
PAD = re.compile("(left|right):([0-9A-Fa-f]{2})")
U16 = 65_535


def read_table(text):
    """The table of a document, or the first thing that is wrong with it. The profile is judged first."""
    try:
        document = value_of(text)
    except NotJson:
        raise Refused("table NotJson") from None
    if not isinstance(document, dict) or not is_whole(document.get("profile"), 0, U16):
        raise Refused("table Shape")
    if document["profile"] not in (1, 2):
        raise Refused("table Profile")
    if not has_shape(document):
        raise Refused("table Shape")
    return checked(document["version"], document["mti"], document["bitmap"], [row_of(row) for row in document["rows"]])


def has_shape(document):
    """Whether a document has the members of a table, each of its kind, and no other."""
    return (has_members(document, MEMBERS)
            and is_whole(document["version"], 0, 255)
            and is_one_of(document["mti"], ("ascii", "bcd"))
            and is_one_of(document["bitmap"], ("hex", "raw"))
            and isinstance(document["rows"], list)
            and all(has_row_shape(row, document["profile"]) for row in document["rows"]))


def has_row_shape(row, profile):
    """The same of a row. Its prefix is there exactly where its length isn't fixed; profile 1 has no `LLLL`."""
    if not isinstance(row, dict):
        return False
    lengths = ("fixed", "LL", "LLL") if profile == 1 else MOST
    prefix = () if row.get("length") == "fixed" else ("prefix",)
    return (has_members(row, (*ROW_MEMBERS, *prefix))
            and is_whole(row["number"], 0, U16)
            and is_one_of(row["class"], CLASSES)
            and is_one_of(row["coding"], CODED)
            and is_one_of(row["length"], lengths)
            and is_one_of(row.get("prefix", "ascii"), ("ascii", "bcd"))
            and is_whole(row["max"], 0, U16)
            and isinstance(row["pad"], str)
            and (row["pad"] == "none" or PAD.fullmatch(row["pad"]) is not None))


def row_of(row):
    """The row that an object stands for."""
    pad = PAD.fullmatch(row["pad"])
    return Row(row["number"], row["class"], row["coding"], row["length"], row.get("prefix"), row["max"],
               (pad[1], int(pad[2], 16)) if pad else None)


@functools.cache
def built_in(name):
    """`ascii87` or `bcd87`: the document of that name in tables/."""
    folder = pathlib.Path(__file__).resolve().parents[2] / "tables"
    return read_table((folder / f"{name}.json").read_bytes())
