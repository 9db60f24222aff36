#!/usr/bin/env python3
"""Sends the day of the examples to a host again, and compares its answers: replays.py PROGRAM

PROGRAM is the built rumpadol. `rumpadol drive --frames --expect` sends examples/day.txt to `rumpadol host`. What is expected is
examples/expected/day, or that with one thing changed, and what has to be told of it stands beside each case.

The last line is `N runs, B bad`, and the status is 0 where B is 0.
"""
import json
import pathlib
import shutil
import subprocess
import sys

from traffic import HERE, TOP, WAIT, free_ports, listening, tell_runs
from model.frames import first_frame, frame

TABLE, HEADER = "ascii87", "ascii4"
EXAMPLES = TOP / "examples"
SECRET = b"4111111111111111"


def bodies_of(text):
    """The bodies of the frames that a text is."""
    bodies = []
    while text:
        body, text = first_frame(HEADER, text)
        bodies.append(body)
    return bodies


DAY = (EXAMPLES / "expected" / "day").read_bytes()
ANSWERS = bodies_of(DAY)


def changed(place, old, new):
    """The answers, in one of which the last of some bytes are others."""
    bodies = list(ANSWERS)
    front, found, behind = bodies[place].rpartition(old)
    assert found
    bodies[place] = front + new + behind
    return b"".join(frame(HEADER, body) for body in bodies)


def summary(compared, same, missing=0, beyond=0):
    return {"compared": compared, "same": same, "differ": compared - same, "missing": missing, "beyond": beyond}


def part(mti, **elements):
    return {"mti": mti, "elements": {key[1:]: value for key, value in elements.items()}}


COUNT = len(ANSWERS)
WHOLE = {"ending": "whole", "unsent": 0}
DECLINED = {"frame": 3, "type_differs": False, "elements": [39], "expected": part("0210", _39="51"), "came": part("0210", _39="00")}
OTHER = {"frame": 3, "type_differs": False, "elements": [2], "expected": part("0210", _2="555555******4444"),
         "came": part("0210", _2="411111******1111")}

# name, what is expected, the status, what is told as JSON, and a part of what is told as text
CASES = [
    ("the answers of the day", DAY, 0, [summary(COUNT, COUNT), WHOLE], b"7 answers compared, 7 the same, 0 differ\n"),
    ("another response code", changed(2, b"00840", b"51840"), 1, [DECLINED, summary(COUNT, COUNT - 1), WHOLE],
     b"frame 3: element 39 (Response code): expected 51, came 00\n7 answers compared, 6 the same, 1 differs\n"),
    ("another account, which has stars", changed(2, SECRET, b"5555555555554444"), 1, [OTHER, summary(COUNT, COUNT - 1), WHOLE],
     b"expected 555555******4444, came 411111******1111\n"),
    ("one answer less", DAY[:-len(frame(HEADER, ANSWERS[-1]))], 1, [summary(COUNT - 1, COUNT - 1, beyond=1), WHOLE],
     b"6 answers compared, 6 the same, 0 differ, 1 came beyond them\n"),
    ("one answer more", DAY + frame(HEADER, ANSWERS[0]), 1, [summary(COUNT, COUNT, missing=1), {"ending": "silent", "unsent": 0}],
     b"frame 8: expected, and didn't come\n"),
]

# name, what is expected, the status, and a part of the complaint
REFUSED = [
    ("a cut file", DAY[:-1], 1, b"behind 6 whole frames none begins at byte"),
    ("nobody there", DAY, 3, b"no host answers at"),
]


def host(command, folder):
    """A host that has done nothing yet, and its port."""
    for old in pathlib.Path(folder).glob("journal*"):
        old.unlink()
    return listening(command, folder, ["--table", TABLE, "--header", HEADER, "--journal", "journal", "--new"])


class Replays:
    """The runs, and what was wrong."""

    def __init__(self, command, folder):
        self.command, self.folder, self.runs, self.bad = command, folder, 0, 0
        shutil.copy(EXAMPLES / "accounts.json", folder)
        shutil.copy(EXAMPLES / "day.txt", folder)

    def replay(self, port, expected, *words):
        """Sends the day again."""
        self.runs += 1
        pathlib.Path(self.folder, "expected").write_bytes(expected)
        asked = ["drive", f"{HERE}:{port}", "--table", TABLE, "--header", HEADER, "--frames", "day.txt", "--expect", "expected",
                 "--patience", "2000", *words]
        return subprocess.run([self.command, *asked], cwd=self.folder, capture_output=True, timeout=WAIT)

    def check(self, name, is_right, run):
        """Tells a run that isn't as it has to be, or that shows an account number."""
        if not is_right or SECRET in run.stdout + run.stderr:
            self.bad += 1
            print(f"BAD {name}: status {run.returncode}, {run.stdout!r} {run.stderr!r}")

    def run_all(self):
        for name, expected, status, told, text in CASES:
            with host(self.command, self.folder) as port:
                run = self.replay(port, expected, "--json")
                self.check(name, run.returncode == status and [json.loads(line) for line in run.stdout.splitlines()] == told, run)
                # the host gives the same answers again
                run = self.replay(port, expected)
                self.check(name, run.returncode == status and text in run.stdout, run)
        for name, expected, status, complaint in REFUSED:
            run = self.replay(free_ports(1)[0], expected)
            self.check(name, run.returncode == status and complaint in run.stderr and not run.stdout, run)


if __name__ == "__main__":
    sys.exit(tell_runs(Replays))
