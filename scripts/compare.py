#!/usr/bin/env python3
"""Compares both programs with the model of tests/model on cases that are drawn at random.

    compare.py COMMAND [RUMPADOL]  draws cases for SECONDS (120), from SEED (drawn and printed where none is given)
        --seed SEED/NUMBER         draws one case again, and writes it to a folder too where both sides say the same
        --keep FILE                also writes the failing cases as rows, which say what the model says

COMMAND is a built iso_cli, and RUMPADOL a built rumpadol; without it the cases that are rumpadol's are left out. Those are streams of
frames: as JSON, from there back to frames by a second run, or in plain spelling.

The output, the fault line and the status have to be the same. Each failing case is made smaller, printed with what both sides
say, and written to a folder: its words, files and input, and both outputs. The last line is
`compare: N cases passed, M failed`.
docs/TESTING.md says how to read a failing case, and how to keep it.
"""
import argparse
import collections
import json
import multiprocessing
import os
import pathlib
import random
import subprocess
import sys
import tempfile
import time

TOP = pathlib.Path(__file__).resolve().parent.parent
sys.path.insert(0, str(TOP / "tests"))

from drawn.cases import draw_case, smaller
from model import command, streams
from model.command import End
from model.refused import Refused

WAIT = 60
SHOWN = 10         # so many failing cases are made smaller and printed
REDUCING = 5       # so many seconds a failing case is tried with less


# ---- both sides

def by_model(case):
    """What the model says."""
    act = streams.act if case.program == "rumpadol" else command.act
    end = act(case.words, case.files, case.text)
    return act(case.then, case.files, end.output) if case.then else end


def by_command(commands, case, folder):
    """What the program says, in a folder that has the files. A second run follows one that ended well."""
    for name, text in case.files.items():
        (folder / name).write_bytes(text)
    end = run_on(commands[case.program], case.words, case.text, folder)
    return run_on(commands[case.program], case.then, end.output, folder) if case.then and end == End(0, end.output) else end


def run_on(program, words, text, folder):
    """What one run of a program says."""
    with tempfile.TemporaryFile() as file:
        file.write(text)
        file.seek(0)
        run = subprocess.run([program, *words], stdin=file, capture_output=True, cwd=folder, env={}, timeout=WAIT)
    return End(run.returncode, run.stdout, run.stderr)


def differs(commands, case):
    """Whether both sides differ. A program that doesn't end differs from any model."""
    wanted = by_model(case)
    with tempfile.TemporaryDirectory() as folder:
        try:
            return by_command(commands, case, pathlib.Path(folder)) != wanted
        except subprocess.TimeoutExpired:
            return True


# ---- many cases

def compare_some(commands, seed, numbers, end):
    """Compares case after case until the time is over: how many passed of each command, and the numbers of those that failed. The cases
    of a program that isn't given are left out."""
    passed, failed = collections.Counter(), []
    for number in numbers:
        if time.monotonic() > end:
            break
        try:
            case = draw_case(f"{seed}/{number}")
            if case.program not in commands:
                continue
            if differs(commands, case):
                failed.append(number)
            else:
                passed[name_of(case)] += 1
        except Exception as fault:
            raise RuntimeError(f"case {seed}/{number}") from fault
    return passed, failed


def compare_all(commands, seed, seconds):
    """The same by as many workers as there are cores: each takes the next number that no other takes."""
    workers, end = os.cpu_count(), time.monotonic() + seconds
    with multiprocessing.Pool(workers) as pool:
        some = pool.starmap(compare_some, [(commands, seed, range(first, 1 << 60, workers), end) for first in range(workers)], 1)
    return sum((passed for passed, _ in some), collections.Counter()), sorted(number for _, failed in some for number in failed)


def name_of(case):
    """What a case is of: the first word, or the echo."""
    if case.program == "rumpadol":
        return f"rumpadol {'round trips' if case.then else case.words[0]}"
    known = case.words and case.words[0] in ("check", "show", "convert", "run")
    return case.words[0] if known else "other words" if case.words else "echo"


# ---- a failing case

def still_differs(commands, less):
    """Whether both sides differ on less than what was drawn. Of frames without the rows that they need the model says nothing."""
    try:
        return differs(commands, less)
    except Refused:
        return False


def reduced(commands, case):
    """A case with less that still differs."""
    end = time.monotonic() + REDUCING
    found = case
    while found:
        case, found = found, None
        for less in smaller(case):
            if time.monotonic() > end:
                return case
            if still_differs(commands, less):
                found = less
                break
    return case


def tell_failed(commands, seed, numbers, kept):
    """Tells the first failing cases, and the seeds of the others, and keeps those that it tells as rows."""
    folder, rows = new_folder(), []
    for number in numbers[:SHOWN]:
        case = reduced(commands, draw_case(f"{seed}/{number}"))
        tell(commands, case, f"FAILED {seed}/{number}", folder / str(number))
        try:
            rows.append(row_of(case, f"drawn: {seed}/{number}"))
        except ValueError as fault:
            print(f"    it can't be kept: {fault}")
    if numbers[SHOWN:]:
        print("FAILED too:", *(f"{seed}/{number}" for number in numbers[SHOWN:]))
    if kept:
        keep(rows, kept)


def new_folder():
    """A folder for what is told."""
    return pathlib.Path(tempfile.mkdtemp(prefix="compare-"))


def tell(commands, case, name, folder):
    """Prints a case and what both sides say, and writes it to a folder."""
    folder.mkdir(parents=True)
    try:
        said = by_command(commands, case, folder)
    except subprocess.TimeoutExpired:
        said = End(-1, told=b"it doesn't end\n")
    wanted = by_model(case)
    for file, text in {"input": case.text, "command.output": said.output, "model.output": wanted.output}.items():
        (folder / file).write_bytes(text)
    for file, words in {"words": case.words, "words.then": case.then}.items():
        if words or file == "words":
            (folder / file).write_text("".join(f"{word}\n" for word in words), errors="surrogateescape")
    then = f", and then {' '.join(map(repr, case.then))}" if case.then else ""
    print(f"{name}: {' '.join(map(repr, case.words)) or 'no words'}{then}, in {folder}")
    for what in ("status", "output", "told"):
        one, other = getattr(said, what), getattr(wanted, what)
        if one != other:
            at = first_difference(one, other) if isinstance(one, bytes) else 0
            print(f"    {what}, the command: {shown(one, at)}\n    {what}, the model:   {shown(other, at)}")


def first_difference(one, other):
    """Where two texts begin to differ."""
    return next((at for at, both in enumerate(zip(one, other)) if both[0] != both[1]), min(len(one), len(other)))


def shown(value, at):
    """A value, or a text from a little before its first difference on."""
    if not isinstance(value, bytes):
        return value
    first = max(0, at - 40)
    return f"{'.. ' if first else ''}{value[first:at + 60]!r}{' ..' if len(value) > at + 60 else ''}"


# ---- rows

def row_of(case, name):
    """A case as a row of its program. It wants what the model says."""
    if case.then:
        raise ValueError("no row has two runs")
    wanted = by_model(case)
    row = {"name": name, "words": [os.fsencode(word).decode("latin-1") for word in case.words],
           "files": {path: text_of(text) for path, text in case.files.items()},
           "input": [text_of(part) for part in case.parts], "status": wanted.status, "output": text_of(wanted.output),
           "faults": text_of(wanted.told)}
    return {member: value for member, value in row.items() if value or member == "words"}


def text_of(text):
    """A text of a row, in which each character is one byte. None begins with `@`, which would name a text."""
    characters = text.decode("latin-1")
    if characters.startswith("@"):
        raise ValueError("no row has a text that begins with @")
    return characters


def keep(rows, path):
    """Writes rows as a document of a program's rows."""
    lines = ",\n".join(f"  {json.dumps(row)}" for row in rows)
    path.write_text(f'{{\n "about": "Cases on which the command and the model differed.",\n "rows": [\n{lines}\n ]\n}}\n')


# ---- the whole

def arguments():
    """The words of this script."""
    parser = argparse.ArgumentParser(description="compares both programs with the model on drawn cases")
    parser.add_argument("command", type=pathlib.Path)
    parser.add_argument("rumpadol", type=pathlib.Path, nargs="?")
    parser.add_argument("--seed", help="one case again, SEED/NUMBER")
    parser.add_argument("--keep", type=pathlib.Path, help="a document of rows that the failing cases are written to")
    given = parser.parse_args()
    if not all(os.access(program, os.X_OK) for program in (given.command, given.rumpadol) if program):
        parser.error("which command?")
    return given


def main():
    given = arguments()
    programs = {"iso_cli": given.command, "rumpadol": given.rumpadol}
    commands = {name: str(program.resolve()) for name, program in programs.items() if program}
    if given.seed:
        seed, _, number = given.seed.rpartition("/")
        passed, failed = compare_some(commands, seed, [int(number)], float("inf"))
        if passed:
            tell(commands, draw_case(given.seed), given.seed, new_folder() / number)
    else:
        seed = os.environ.get("SEED") or str(random.SystemRandom().randrange(1_000_000))
        seconds = float(os.environ.get("SECONDS") or 120)
        print(f"SEED={seed} SECONDS={seconds:g}, {os.cpu_count()} workers", flush=True)
        passed, failed = compare_all(commands, seed, seconds)
    if failed:
        tell_failed(commands, seed, failed, given.keep)
    print(", ".join(f"{count} of {name}" for name, count in sorted(passed.items())))
    print(f"compare: {sum(passed.values())} cases passed, {len(failed)} failed")
    return 1 if failed or not passed else 0


if __name__ == "__main__":
    sys.exit(main())
