#!/usr/bin/env python3
"""Runs the model over the rows of crates/iso_cli/rows, and over the examples, and compares what it says with what they say.

It needs no command. Rows with a device that fails are left out: the model has no devices. Each row on which it doesn't agree is
printed with what differs; the last line says how many agreed.
"""
import importlib
import os
import pathlib
import sys

TOP = pathlib.Path(__file__).resolve().parents[2]
sys.path[:1] = [str(TOP / "scripts"), str(TOP / "tests")]

from model.command import act

command_rows = importlib.import_module("command-rows")

EXAMPLES = [
    ("echo", [], "echo.txt", b""),
    ("show", ["show", "ascii87"], "payment.txt", b""),
    ("convert", ["convert", "ascii87", "bcd87"], "echo.txt", b""),
    ("check", ["check", "terminals.json"], None, b""),
    ("day", ["run", "ascii87", "accounts.json", "ascii4"], "day.txt", b"frames=8 answered=7 silent=0 unreadable=1\n"),
    ("hotel", ["run", "ascii87", "accounts.json", "ascii4"], "hotel.txt", b"frames=5 answered=5 silent=0 unreadable=0\n"),
]


def has_device(row):
    """Whether a row needs a stream that fails."""
    return any(row[name] != command_rows.ROW[name] for name in command_rows.DEVICES if name != "input pieces")


def row_case(row):
    """A row's name, words, files and input, and the status, output and fault line that it wants."""
    files = {os.fsdecode(name): text for name, text in row["files"].items()}
    words = [os.fsdecode(word) for word in row["words"]]
    return row["name"], words, files, row["input"], (row["status"], row["output"], row["faults"])


def example_case(name, words, source, told):
    """The same of an example."""
    examples = TOP / "examples"
    files = {"accounts.json": examples / "accounts.json", "terminals.json": TOP / "tables" / "terminals.json"}
    text = (examples / source).read_bytes() if source else b""
    wanted = 0, (examples / "expected" / name).read_bytes(), told
    return f"examples/expected/{name}", words, {path: file.read_bytes() for path, file in files.items()}, text, wanted


def main():
    rows = command_rows.all_rows()
    cases = [row_case(row) for row in rows if not has_device(row)] + [example_case(*example) for example in EXAMPLES]
    failed = 0
    for name, words, files, text, wanted in cases:
        end = act(words, files, text)
        found = end.status, end.output, end.told
        if found != wanted:
            failed += 1
            print(f"FAILED {name}")
            for what, one, other in zip(("the status", "the output", "the fault line"), found, wanted):
                if one != other:
                    print(f"    {what} is {one!r}, not {other!r}")
    print(f"{len(rows) + len(EXAMPLES) - len(cases)} rows have a device that fails")
    print(f"model: {len(cases) - failed} rows passed, {failed} failed")
    return 1 if failed or not cases else 0


if __name__ == "__main__":
    sys.exit(main())
