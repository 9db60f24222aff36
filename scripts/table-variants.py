#!/usr/bin/env python3
"""Makes the documents of raw and BCD tables in tables/ from the edition's table in ASCII, or says whether they are those.

    table-variants.py            writes the documents that aren't what this makes
    table-variants.py --check    names those instead, and ends with status 1 where there is one
"""

import json
import pathlib
import sys

TABLES = pathlib.Path(__file__).resolve().parent.parent / "tables"

# the members in the order in which these documents have them
MEMBERS = ("profile", "version", "mti", "bitmap")
ROW_MEMBERS = ("number", "class", "coding", "length", "prefix", "max", "pad")


def raw_row(row):
    """The row where bytes are written as they are: only class B becomes other."""
    return {**row, "coding": "raw"} if row["class"] == "B" else row


def bcd_row(row):
    """The row where digits are BCD as well: values of class N, and each length before a value."""
    row = {**raw_row(row), **({"prefix": "bcd"} if "prefix" in row else {})}
    return {**row, "coding": "bcd"} if row["class"] == "N" else row


def raw(table):
    """The table with text for digits, and bytes for bitmaps and class B."""
    return {**table, "bitmap": "raw", "rows": [raw_row(row) for row in table["rows"]]}


def bcd(table):
    """The table with BCD for digits, and bytes for bitmaps and class B."""
    return {**table, "mti": "bcd", "bitmap": "raw", "rows": [bcd_row(row) for row in table["rows"]]}


def dumped(value):
    """JSON without blanks."""
    return json.dumps(value, separators=(",", ":"))


def in_order(value, members):
    """The object with its members in this order; one that isn't named is an error."""
    if set(value) - set(members):
        sys.exit(f"table-variants.py: no place for {', '.join(sorted(set(value) - set(members)))}")
    return {member: value[member] for member in members if member in value}


def by_lines(table):
    """The document with a row on each line, in ascending order of the numbers."""
    head = in_order({member: value for member, value in table.items() if member != "rows"}, MEMBERS)
    rows = [dumped(in_order(row, ROW_MEMBERS)) for row in sorted(table["rows"], key=lambda row: row["number"])]
    return f'{dumped(head)[:-1]},"rows":[\n' + ",\n".join(rows) + "\n]}\n"


def by_writer(table):
    """The document as the program's own writer has it: one line, members in ascending order of their names."""
    rows = sorted(table["rows"], key=lambda row: row["number"])
    return json.dumps({**table, "rows": rows}, separators=(",", ":"), sort_keys=True)


# each variant: the edition's table, what is made of it, and how the document is laid out
VARIANTS = {
    "ascii87raw": ("ascii87", raw, by_lines),
    "bcd87": ("ascii87", bcd, by_writer),
    "ascii93raw": ("ascii93", raw, by_lines),
    "bcd93": ("ascii93", bcd, by_lines),
    "ascii03raw": ("ascii03", raw, by_lines),
    "bcd03": ("ascii03", bcd, by_lines),
}


def path_of(name):
    """Where the table of this name stands."""
    return TABLES / f"{name}.json"


def text_of(name):
    """The document of a variant."""
    edition, made, laid_out = VARIANTS[name]
    return laid_out(made(json.loads(path_of(edition).read_text())))


def is_there(name):
    """Whether the document of a variant is what this makes, byte for byte."""
    path = path_of(name)
    return path.exists() and path.read_bytes() == text_of(name).encode()


def main(words):
    """Writes the documents, or compares them."""
    if words not in ([], ["--check"]):
        sys.exit("table-variants.py: write nothing, or --check")
    others = [name for name in VARIANTS if not is_there(name)]
    for name in others:
        if words:
            print(f"FAILED tables/{name}.json: it isn't what table-variants.py makes of tables/{VARIANTS[name][0]}.json")
        else:
            path_of(name).write_text(text_of(name))
            print(f"tables/{name}.json is written")
    if words:
        print(f"table-variants: {len(VARIANTS) - len(others)} passed, {len(others)} failed")
        sys.exit(len(others) > 0)


if __name__ == "__main__":
    main(sys.argv[1:])
