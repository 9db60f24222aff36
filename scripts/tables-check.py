#!/usr/bin/env python3
"""Checks the documents in tables/: tables-check.py RUMPADOL

Each of them is a good table. For each way in which an edition is written tests/tables/ has a purchase: NAME.hex are its bytes under
tables/NAME.json, a piece of the message on each line, laid by hand; purchaseNN.json are its values, the same for all of an edition.
`rumpadol decode` has to read the values from the bytes, and `rumpadol encode` to write the bytes from the values. The list in
docs/TABLES.md has to name each document with its edition, digits and bitmaps, and `table-variants.py --check` has to pass.
Prints each failure, and as its last line 'tables-check: N passed, M failed'.
"""

import json
import pathlib
import re
import subprocess
import sys

TOP = pathlib.Path(__file__).resolve().parent.parent
TABLES = TOP / "tables"
MESSAGES = TOP / "tests" / "tables"
PAGE = TOP / "docs" / "TABLES.md"
EDITIONS = {0: "1987", 1: "1993", 2: "2003"}
DIGITS = {"ascii": "ASCII", "bcd": "BCD"}
BITMAPS = {"hex": "hexadecimal", "raw": "raw"}


def run(words):
    """What a program prints, or why it didn't end well."""
    done = subprocess.run(words, stdout=subprocess.PIPE, stderr=subprocess.STDOUT, text=True, errors="replace")
    return done.stdout, "" if done.returncode == 0 else f"it ended with status {done.returncode}: {done.stdout.strip()}"


def good(rumpadol, path):
    """What is wrong with a document by itself."""
    told, wrong = run([rumpadol, "table", "check", str(path)])
    return wrong or ("" if ": good, " in told else f"it isn't said to be good: {told.strip()}")


def edition_of(name):
    """The two digits of a table's edition: those of ascii93raw are 93."""
    return re.sub(r"[^0-9]", "", name)


def decoded(rumpadol, name):
    """What is wrong with what `decode` reads from a purchase."""
    words = ["decode", str(TABLES / f"{name}.json"), "--hex", "--json", "--clear", str(MESSAGES / f"{name}.hex")]
    told, wrong = run([rumpadol, *words])
    wanted = (MESSAGES / f"purchase{edition_of(name)}.json").read_text()
    return wrong or ("" if told == wanted else f"{told.strip()} is read, and not {wanted.strip()}")


def encoded(rumpadol, name):
    """What is wrong with what `encode` writes of a purchase."""
    values = MESSAGES / f"purchase{edition_of(name)}.json"
    told, wrong = run([rumpadol, "encode", str(TABLES / f"{name}.json"), "--hex", str(values)])
    wanted = "".join((MESSAGES / f"{name}.hex").read_text().split())
    return wrong or ("" if told.strip() == wanted else f"{told.strip()} is written, and not {wanted}")


def has_message(name):
    """What is wrong where a document has the rows of an edition, and no purchase."""
    return "" if (MESSAGES / f"{name}.hex").exists() else f"there is no tests/tables/{name}.hex"


def has_document(name):
    """What is wrong where a purchase has no document."""
    return "" if (TABLES / f"{name}.json").exists() else f"there is no tables/{name}.json"


def in_list(path):
    """What is wrong with a document's line in the list of the page."""
    table = json.loads(path.read_text())
    wanted = [EDITIONS[table["version"]], DIGITS[table["mti"]], BITMAPS[table["bitmap"]]]
    lines = re.findall(rf"^[|] `{re.escape(path.name)}` (.*)[|]$", PAGE.read_text(), re.MULTILINE)
    if len(lines) != 1:
        return f"the list has {len(lines)} lines of it, and not one"
    shown = [part.strip() for part in lines[0].split("|")[1:4]]
    return "" if shown == wanted else f"the list says {', '.join(shown)}, and not {', '.join(wanted)}"


def listed():
    """What is wrong with the list of the page as a whole: names of no document."""
    names = re.findall(r"^[|] `([^`]*[.]json)` ", PAGE.read_text(), re.MULTILINE)
    others = [name for name in names if not (TABLES / name).exists()]
    return f"the list names {', '.join(others)}, which isn't there" if others else ""


def variants():
    """What table-variants.py says of the documents."""
    return run([sys.executable, str(TOP / "scripts" / "table-variants.py"), "--check"])[1]


def checks(rumpadol):
    """All that is checked, each with its name and what is wrong."""
    for path in sorted(TABLES.glob("*.json")):
        yield f"tables/{path.name}", good(rumpadol, path)
        yield f"docs/TABLES.md: {path.name}", in_list(path)
        if edition_of(path.stem):
            yield f"tables/{path.name}", has_message(path.stem)
    for path in sorted(MESSAGES.glob("*.hex")):
        missing = has_document(path.stem)
        yield f"tests/tables/{path.name}", missing
        if not missing:
            yield f"tests/tables/{path.name}, decoded", decoded(rumpadol, path.stem)
            yield f"tests/tables/{path.name}, encoded", encoded(rumpadol, path.stem)
    yield "docs/TABLES.md", listed()
    yield "table-variants.py --check", variants()


def main(words):
    """Does all of it."""
    if len(words) != 1:
        sys.exit("tables-check.py: write the program: tables-check.py RUMPADOL")
    passed = failed = 0
    for name, wrong in checks(words[0]):
        passed, failed = passed + (not wrong), failed + bool(wrong)
        if wrong:
            print(f"FAILED {name}: {wrong}")
    print(f"tables-check: {passed} passed, {failed} failed")
    sys.exit(failed > 0)


if __name__ == "__main__":
    main(sys.argv[1:])
