#!/usr/bin/env python3
"""Kills a host under load, again and again, and sends it what it answered once more: crash.py COMMAND

COMMAND is the built rumpadol. Its host answers purchases over a journal in a real file, and is killed by SIGKILL at a random
moment: KILLS times, 200 by default, some of them while the journal is made. After each kill it is started again by the same words,
and is sent repeats of the orders that were answered before: each has to get its first answer, byte for byte. In the end it is sent
repeats of all of them, a second host on the file has to be refused, and the journal has to hold each of those orders once, with
the code and the place that were answered. The last line is
    K kills, N answers repeated, M bad
and the status is 0 where M is 0. CRASH_SEED repeats the choices of an earlier run, though not the moments of its kills.
"""
import os
import pathlib
import random
import select
import subprocess
import sys
import tempfile
import threading
import time

from traffic import Spelling

KILLS = int(os.environ.get("KILLS", "200"))
SEED = int(os.environ.get("CRASH_SEED", "0")) or random.randrange(1, 1 << 32)
WAIT = 60
# of so many kills, one comes while the journal is made or opened
EARLY = 10
RECORD = 128

# ---- the messages, as docs/ORDERS.md tells them

LINE = Spelling("ascii87", "ascii4")
PANS = [b"4111111111111111", b"5500000000000004", b"340000000000009"]
ACCOUNTS = (b'{"accounts":[' + b",".join(b'{"currency":"840","opening":900000000,"pan":"%s"}' % pan for pan in PANS[:2]) + b"]}")


def purchase(number, kind):
    """The purchase of a number: its trace number and its amount come of it. The third account isn't listed."""
    pan = PANS[number % 3]
    return LINE.framed(kind + b"7220000100008000" + b"%02d" % len(pan) + pan + b"000000" + b"%012d" % (1 + number % 997)
                  + b"%010d" % (101000000 + number // 900000) + b"%06d" % (number % 900000) + b"0512345" + b"840")


def number_of(answer):
    """The number of the purchase that an answer is of, by its trace number and its time; None where it is no answer to one."""
    body = answer[4:]
    if body[:4] != b"0210" or body[4:5] != b"7":
        return None
    at = 20 + 2 + int(body[20:22]) + 6 + 12
    return (int(body[at:at + 10]) - 101000000) * 900000 + int(body[at + 10:at + 16])


def is_told_by(row, answer):
    """Whether an answer tells the code of a record, and its place where it is granted: elements 39 and 38."""
    body = answer[4:]
    at = 20 + 2 + int(body[20:22]) + 6 + 12 + 10 + 6 + 7
    if body[4:20] == b"7220000106008000":
        return row[99:107] == body[at + 6:at + 8] + body[at:at + 6]
    return body[4:20] == b"7220000102008000" and row[99:101] == body[at:at + 2]


# ---- a host

class Host:
    """A host on a journal, to which frames go through a pipe."""

    def __init__(self, command, folder, *more):
        words = ["host", "--table", "ascii87", "--header", "ascii4", "--accounts", "accounts.json", "--journal", "journal", *more]
        self.output = b""
        self.process = subprocess.Popen([command, *words], cwd=folder, stdin=subprocess.PIPE, stdout=subprocess.PIPE,
                                        stderr=subprocess.PIPE)

    def feed(self, frames, choose):
        """Sends these frames in pieces, until all are sent or the host is gone."""
        def send():
            at, text = 0, b"".join(frames)
            try:
                while at < len(text):
                    size = choose.choice((1, 90, 400, 3000, 20000, 70000))
                    at += os.write(self.process.stdin.fileno(), text[at:at + size])
                self.process.stdin.close()
            except (OSError, ValueError):
                pass
        self.feeder = threading.Thread(target=send)
        self.feeder.start()

    def read_until(self, end, some):
        """Reads answers up to a moment, or until some came, or the host ends."""
        pipe = self.process.stdout.fileno()
        while time.monotonic() < end and not (some and self.output):
            if not select.select([pipe], [], [], max(0, end - time.monotonic()))[0]:
                continue
            piece = os.read(pipe, 1 << 16)
            if not piece:
                return
            self.output += piece

    def rest(self):
        """All that it wrote, once it has ended, and what it told."""
        told, watch = [], threading.Timer(WAIT, self.process.kill)
        watch.start()
        reader = threading.Thread(target=lambda: told.append(self.process.stderr.read()))
        reader.start()
        self.output += self.process.stdout.read()
        self.feeder.join()
        self.process.wait()
        reader.join()
        watch.cancel()
        return LINE.frames(self.output)[0], told[0]


# ---- the run

class Run:
    """What was answered, and what was wrong."""

    def __init__(self, command, folder):
        self.command, self.folder = command, folder
        self.choose = random.Random(SEED)
        self.answers, self.latest = {}, []
        self.sent = self.repeated = self.bad = 0

    def tell_bad(self, what):
        self.bad += 1
        if self.bad <= 10:
            print(f"BAD {what}", flush=True)

    def take(self, frames):
        """Notes first answers, and compares the others with them."""
        fresh = []
        for frame in frames:
            number = number_of(frame)
            if number is None or number >= self.sent:
                self.tell_bad(f"this is no answer to a purchase: {frame!r}")
            elif number not in self.answers:
                self.answers[number] = frame
                fresh.append(number)
            elif self.answers[number] == frame:
                self.repeated += 1
            else:
                self.tell_bad(f"purchase {number} had {self.answers[number]!r} first, and then {frame!r}")
        self.latest = fresh or self.latest

    def is_made(self):
        return os.path.exists(os.path.join(self.folder, "journal"))

    def next_frames(self):
        """Repeats of some orders that were answered, and then purchases: new ones, and those that got no answer."""
        again = self.latest[-60:] + self.choose.sample(sorted(self.answers), min(20, len(self.answers)))
        open_ones = [number for number in range(max(0, self.sent - 400), self.sent) if number not in self.answers]
        count = self.choose.choice((10, 60, 150, 300))
        fresh = list(range(self.sent, self.sent + count))
        self.sent += count
        return ([purchase(number, b"0201") for number in again] + [purchase(number, b"0201") for number in open_ones]
                + [purchase(number, b"0200") for number in fresh])

    def kill_once(self, early):
        """A host that is killed: at a random moment after its start, or after its first answer."""
        host = Host(self.command, self.folder, *([] if self.is_made() else ["--new"]))
        begun = time.monotonic()
        host.feed(self.next_frames(), self.choose)
        if early:
            host.read_until(begun + self.choose.uniform(0, 0.03), False)
        else:
            host.read_until(begun + WAIT, True)
            host.read_until(time.monotonic() + self.choose.uniform(0, 0.02), False)
        host.process.kill()
        frames, told = host.rest()
        if host.process.returncode > 0:
            self.tell_bad(f"the host ended with status {host.process.returncode}: {told!r}")
        self.take(frames)

    def ask_all(self):
        """Repeats of all that was ever answered, to a host that isn't killed."""
        before = self.repeated
        host = Host(self.command, self.folder)
        host.feed([purchase(number, b"0201") for number in sorted(self.answers)], self.choose)
        frames, told = host.rest()
        self.take(frames)
        if host.process.returncode != 0 or self.repeated - before != len(self.answers):
            self.tell_bad(f"{self.repeated - before} of {len(self.answers)} answers came again, with status "
                          f"{host.process.returncode}: {told!r}")

    def ask_second(self):
        """A second host on the file is refused, while the first one answers."""
        first = Host(self.command, self.folder)
        number = min(self.answers)
        os.write(first.process.stdin.fileno(), purchase(number, b"0201"))
        first.read_until(time.monotonic() + WAIT, True)
        second = Host(self.command, self.folder)
        second.feed([], self.choose)
        told = second.rest()[1]
        if second.process.returncode != 3 or b"journal: another host has it open" not in told:
            self.tell_bad(f"a second host ended with status {second.process.returncode}: {told!r}")
        first.feed([purchase(number, b"0201")], self.choose)
        frames, told = first.rest()
        if first.process.returncode != 0 or frames != [self.answers[number]] * 2:
            self.tell_bad(f"beside a second one a host ended with status {first.process.returncode}: {told!r}, after {frames!r}")

    def read_journal(self):
        """Each answered order is in the journal once: docs/JOURNAL.md has the columns."""
        text = pathlib.Path(self.folder, "journal").read_bytes()
        held = {}
        for at in range(RECORD, len(text) - RECORD + 1, RECORD):
            row = text[at:at + RECORD]
            if 0 in row:
                break
            if row[:31] in held:
                self.tell_bad(f"the journal has the key {row[:31]!r} twice")
            held[row[:31]] = row
        for number, answer in self.answers.items():
            key = b"0200%06d%010d00000012345" % (number % 900000, 101000000 + number // 900000)
            row = held.get(key)
            if row is None:
                self.tell_bad(f"purchase {number} was answered and isn't in the journal")
            elif not is_told_by(row, answer):
                self.tell_bad(f"purchase {number} is in the journal as {row!r}, and was answered {answer!r}")


def main(words):
    if len(words) != 1 or not os.access(words[0], os.X_OK):
        sys.exit("crash.py: which command?")
    with tempfile.TemporaryDirectory() as folder:
        pathlib.Path(folder, "accounts.json").write_bytes(ACCOUNTS)
        run = Run(os.path.abspath(words[0]), folder)
        for kill in range(KILLS):
            run.kill_once(kill % EARLY == 0)
        run.ask_all()
        run.ask_second()
        run.read_journal()
    if run.bad:
        print(f"CRASH_SEED={SEED}")
    print(f"{KILLS} kills, {run.repeated} answers repeated, {run.bad} bad")
    return 1 if run.bad else 0


if __name__ == "__main__":
    sys.exit(main(sys.argv[1:]))
