#!/usr/bin/env python3
"""Drives good hosts and bad ones: drives.py PROGRAM

PROGRAM is the built rumpadol. `rumpadol drive` buys from `rumpadol host`, which misbehaves by rules in most of the cases, and from ports
where nobody is or where somebody says nothing. Each run has to end within its time, with the status and the counts of its case.

The last line is `N runs, B bad`, and the status is 0 where B is 0.
"""
import contextlib
import json
import pathlib
import select
import socket
import subprocess
import sys
import threading
import time

from traffic import HERE, WAIT, Peer, Spelling, accounts_document, asked, free_ports, listening, payment, tell_runs

ACCOUNTS = {b"4111111111111111": 10_000_000, b"5500000000000004": 10_000_000}
SPELLING = Spelling("bcd87", "binary2")
COUNT = 50
SLACK = 3               # seconds beyond `--seconds`, in which a run has ended

HONEST = [{"amount": 999_999_999_999, "do": "silent"}]      # a rule that nothing fits
SILENT = {"type": "0200", "do": "silent"}
CALM = ["--patience", "5000", "--count", str(COUNT)]
MIX = "hold=30,complete=15,inquiry=10,undo=10"
MIXED = 400
QUICK = ["--patience", "200", "--count", str(COUNT)]


def is_clean(told):
    return told["transactions"]["approved"] == COUNT and told["traffic"]["begun"] == COUNT and told["latency_micros"]["answers"] == COUNT


def is_declined(told):
    return told["transactions"]["declined_by_code"] == [{"code": "05", "count": COUNT}] and told["traffic"]["reversals"] == 0


def is_reversed(told):
    traffic, transactions = told["traffic"], told["transactions"]
    return transactions["reversed"] == COUNT and traffic["reversals"] >= COUNT and traffic["again"] >= COUNT


def is_late(told):
    return told["traffic"]["late"] > 0 and told["transactions"]["approved"] + told["transactions"]["reversed"] == COUNT


def is_unreadable(told):
    return told["traffic"]["unreadable"] > 0 and told["transactions"]["open"] > 0


def is_cut(told):
    return told["traffic"]["closed"] > 1 and told["traffic"]["connected"] > 1


def is_broken(told):
    traffic = told["traffic"]
    return all(traffic[kind] > 0 for kind in ("lost", "repeated", "delayed", "cut", "again"))


def is_mixed(told):
    begun = sum(kind["begun"] for kind in told["mix"].values())
    ends = told["transactions"]
    bought = ends["approved"] + ends["declined"] + ends["reversed"]
    return begun + bought == MIXED and all(kind["granted"] > 0 and kind["open"] == 0 for kind in told["mix"].values())


def is_mixed_and_broken(told):
    return is_mixed(told) and is_broken(told)


def is_tampered(told):
    return told["traffic"]["differing"] > 0 and told["transactions"]["approved"] == COUNT


def is_refused(told):
    return told["traffic"]["refused"] > 0 and told["traffic"]["connected"] == 0 and told["traffic"]["begun"] == 0


def is_unanswered(told):
    return told["traffic"]["answers"] == 0 and told["transactions"]["open"] > 0


# name, the rules of the host (none: an honest one), words, whether all is closed, whether both books agree, and what is told
CASES = [
    ("an honest host", None, [*CALM, "--check"], True, True, is_clean),
    ("the same again, whose openings are others now", None, [*CALM, "--check", "--seed", "2"], True, True, is_clean),
    ("eight connections", None, [*CALM, "--check", "--peers", "8", "--seed", "3"], True, True, is_clean),
    ("networks that do everything", None, ["--patience", "200", "--count", "200", "--check", "--lose", "0.1", "--repeat", "0.1",
                                           "--delay", "0..100", "--cut", "0.02", "--peers", "4"], True, True, is_broken),
    ("holds, completions, inquiries and partial reversals", None, ["--patience", "5000", "--count", str(MIXED), "--check", "--mix", MIX], True, True,
     is_mixed),
    ("the same through networks that do everything", None, ["--patience", "200", "--count", str(MIXED), "--check", "--mix", MIX, "--lose", "0.1",
                                                            "--repeat", "0.1", "--delay", "0..100", "--cut", "0.02", "--peers", "4", "--seed", "9"],
     True, True, is_mixed_and_broken),
    ("a host that refuses all", [{"type": "0200", "do": "answer", "code": "05"}], [*CALM, "--check"], True, True, is_declined),
    ("a host that answers no purchase", [SILENT], [*QUICK, "--check"], True, True, is_reversed),
    ("a host that answers late", [{"type": "0200", "do": "delay", "milliseconds": 300}], [*QUICK, "--check"], True, True, is_late),
    ("a host that cuts each purchase off", [{"type": "0200", "do": "cut"}], QUICK, True, None, is_cut),
    ("a host that sends garbage", [{"do": "garbage"}], [*QUICK, "--seconds", "3"], False, None, is_unreadable),
    ("a host that answers nothing", [{"do": "silent"}], [*QUICK, "--seconds", "3"], False, None, is_unanswered),
]


# ---- hosts

def host(command, folder, rules):
    """A host in memory that has these rules, and its port."""
    pathlib.Path(folder, "accounts.json").write_bytes(accounts_document(ACCOUNTS))
    pathlib.Path(folder, "rules.json").write_text(json.dumps({"rules": rules}))
    return listening(command, folder, ["--table", SPELLING.name, "--header", SPELLING.header, "--script", "rules.json"])


@contextlib.contextmanager
def nobody():
    """A port at which nobody listens."""
    yield free_ports(1)[0]


def tampered(answers, seen):
    """The frames of whole answers, each of which differs in its last byte where it came before, and what is left of the bytes."""
    out = b""
    while len(answers) > 2 and len(answers) >= 2 + int.from_bytes(answers[:2], "big"):
        frame, answers = answers[:2 + int.from_bytes(answers[:2], "big")], answers[2 + int.from_bytes(answers[:2], "big"):]
        out += frame[:-1] + bytes([frame[-1] ^ 1]) if frame in seen else frame
        seen.add(frame)
    return out, answers


def relay_once(listener, port):
    """Takes a connection, and relays it to a host until either end closes: repeats of answers are tampered with."""
    near, _ = listener.accept()
    far, seen, rest = socket.create_connection((HERE, port)), set(), b""
    with near, far:
        while True:
            ready, _, _ = select.select([near, far], [], [])
            if near in ready:
                asked_for = near.recv(1 << 16)
                if not asked_for:
                    return
                far.sendall(asked_for)
            if far in ready:
                out, rest = tampered(rest + far.recv(1 << 16), seen)
                near.sendall(out)


@contextlib.contextmanager
def tampering(port):
    """A port before a host, whose answers to repeats have another last byte there."""
    with socket.create_server((HERE, 0)) as listener:
        threading.Thread(target=relay_once, args=(listener, port), daemon=True).start()
        yield listener.getsockname()[1]


@contextlib.contextmanager
def mute():
    """A port at which connections are taken, and nothing is said."""
    with socket.create_server((HERE, 0)) as listener:
        yield listener.getsockname()[1]


# ---- runs

class Drives:
    """The runs, and what was wrong."""

    def __init__(self, command, folder):
        self.command, self.folder, self.runs, self.bad = command, folder, 0, 0

    def drive(self, port, words, table=SPELLING):
        """The status of a run, what it told as JSON, what it complained of, and how long it took."""
        words = ["drive", f"{HERE}:{port}", "--table", table.name, "--header", table.header, "--acquirer", "12345", "--accounts",
                 "accounts.json", "--json", *words]
        begun = time.monotonic()
        run = subprocess.run([self.command, *words], cwd=self.folder, capture_output=True, timeout=WAIT)
        return run.returncode, json.loads(run.stdout), run.stderr, time.monotonic() - begun

    def judge(self, name, port, words, closed, agree, holds, table=SPELLING):
        """Runs a case, and tells what is wrong with it."""
        self.runs += 1
        try:
            status, told, faults, took = self.drive(port, words, table)
        except (ValueError, subprocess.TimeoutExpired) as fault:
            self.bad += 1
            print(f"BAD {name}: {fault!r}")
            return
        wanted = 0 if closed and agree is not False and told["traffic"]["connected"] else 1
        most = float(words[words.index("--seconds") + 1]) + SLACK if "--seconds" in words else WAIT
        right = {"status": status == wanted, "closed": told["all_closed"] is closed, "agree": told["books_agree"] is agree,
                 "counts": holds(told), "time": took < most,
                 "masked": not any(pan in json.dumps(told).encode() + faults for pan in ACCOUNTS)}
        if not all(right.values()):
            self.bad += 1
            wrong = [what for what, is_right in right.items() if not is_right]
            print(f"BAD {name}: {wrong}: status {status} after {took:.1f} s, {faults!r}, {told}")

    def another_posts(self):
        """Another acquirer posts to an account meanwhile, so the books differ: the account is named, and the messages in question are."""
        self.runs += 1
        with host(self.command, self.folder, HONEST) as port:
            words = ["drive", f"{HERE}:{port}", "--table", SPELLING.name, "--header", SPELLING.header, "--acquirer", "12345", "--accounts",
                     "accounts.json", "--rate", "50", "--count", "100", "--lose", "0.3", "--patience", "100", "--check"]
            run = subprocess.Popen([self.command, *words], cwd=self.folder, stdout=subprocess.PIPE, stderr=subprocess.PIPE)
            time.sleep(1)
            peer = Peer(port)
            peer.ask(SPELLING, asked(payment("debit", 1, 777, b"4111111111111111", 1234)))
            peer.close()
            out, told = run.communicate(timeout=WAIT)
        shown = [json.loads(line)["mti"] for line in out.splitlines() if line.startswith(b"    {")]
        names = b"411111******1111" in out + told and b"4111111111111111" not in out + told
        if run.returncode != 1 or not names or "0200" not in shown or "0420" not in shown:
            self.bad += 1
            print(f"BAD another posts: status {run.returncode}, {out!r} {told!r}")

    def run_all(self):
        with contextlib.ExitStack() as stack:
            honest = stack.enter_context(host(self.command, self.folder, HONEST))
            for name, rules, words, closed, agree, holds in CASES:
                port = honest if rules is None else stack.enter_context(host(self.command, self.folder, rules))
                self.judge(name, port, words, closed, agree, holds)
            with tampering(honest) as port:
                self.judge("a host that answers a repeat with other bytes", port, [*CALM, "--repeat", "1"], True, None, is_tampered)
            self.judge("a host of another table", honest, [*QUICK, "--seconds", "3"], False, None, is_unanswered,
                       Spelling("ascii87", "ascii4"))
        with nobody() as port:
            self.judge("nobody there", port, ["--seconds", "2"], True, None, is_refused)
        with mute() as port:
            self.judge("somebody who says nothing", port, [*QUICK, "--seconds", "3"], False, None, is_unanswered)
        self.another_posts()


if __name__ == "__main__":
    sys.exit(tell_runs(Drives))
