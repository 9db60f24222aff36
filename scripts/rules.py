#!/usr/bin/env python3
"""Starts the built program as a host with rules, sends it messages, and checks each behaviour.

rules.py COMMAND. Prints each behaviour that is bad, with why, and as its last line how many there were and how many were bad.
"""
import contextlib
import json
import pathlib
import socket
import subprocess
import sys
import tempfile
import time

from traffic import ECHO, WAIT, Peer, Spelling, accounts_document, asked, payment, program, reversal

ACCOUNT, OTHER = b"4111111111111111", b"5500000000000004"
OPENING = 10_000
QUIET = 0.4             # so long nothing comes where nothing is to come, in seconds
DELAY = 700             # milliseconds
RULES = [
    {"amount": 101, "do": "answer", "code": "05"},
    {"amount": 102, "do": "delay", "milliseconds": DELAY},
    {"amount": 103, "do": "silent"},
    {"amount": 104, "do": "cut"},
    {"amount": 105, "do": "garbage"},
    {"amount": {"least": 200, "most": 299}, "every": 3, "do": "silent"},
    {"account": OTHER.decode(), "type": "0200", "amount": {"least": 1}, "do": "answer", "code": "62"},
    {"type": "0420", "every": 2, "do": "garbage"},
]


class Run:
    """A host with these rules, and what is asked of it."""

    def __init__(self, command, folder, rules=None):
        pathlib.Path(folder, "accounts.json").write_bytes(accounts_document({ACCOUNT: OPENING, OTHER: OPENING}))
        pathlib.Path(folder, "rules.json").write_text(json.dumps({"rules": rules or RULES}))
        self.spelling = Spelling("bcd87", "binary2")
        words = ["host", "--listen", "127.0.0.1:0", "--table", "bcd87", "--header", "binary2", "--accounts", "accounts.json",
                 "--script", "rules.json", "--stop-file", "stop"]
        self.folder = folder
        self.process = subprocess.Popen([command, *words], cwd=folder, stdin=subprocess.PIPE, stdout=subprocess.DEVNULL,
                                        stderr=subprocess.PIPE)
        self.first = self.process.stderr.readline().decode()
        self.port = int(self.process.stderr.readline().decode().rsplit(":", 1)[1])
        self.number = 0

    def peer(self):
        return Peer(self.port)

    def payment(self, amount, account=ACCOUNT, act="debit"):
        """A payment that wasn't asked before."""
        self.number += 1
        return payment(act, self.number, 12345, account, amount)

    def code(self, frame):
        """The response code of a frame."""
        return self.spelling.message(frame).elements[39].decode()

    def ask(self, peer, order, again=False):
        """The response code to an order."""
        frames = peer.ask(self.spelling, asked(order, again))
        assert len(frames) == 1, f"{len(frames)} answers"
        return self.code(frames[0])

    def available(self, account=ACCOUNT):
        """What is available on an account, as an inquiry tells it."""
        peer = self.peer()
        frames = peer.ask(self.spelling, asked(self.payment(0, account, "inquiry")))
        peer.close()
        return int(self.spelling.message(frames[0]).elements[54][-12:])

    def send(self, peer, order, again=False):
        peer.send(self.spelling.frame(asked(order, again)))

    def stop(self):
        """Its status and what it told, once its input has ended."""
        self.process.stdin.close()
        self.process.stdin = None
        told = self.process.communicate(timeout=WAIT)[1].decode().splitlines()
        return self.process.returncode, [json.loads(line) for line in told]


def nothing_comes(peer):
    """Whether nothing comes of the host for a while."""
    peer.socket.settimeout(QUIET)
    try:
        piece = peer.socket.recv(1)
    except TimeoutError:
        return True
    finally:
        peer.socket.settimeout(WAIT)
    raise AssertionError(f"{piece!r} came")


def same(found, wanted):
    assert found == wanted, f"{found!r} and not {wanted!r}"


# ---- the behaviours

def says_so(run):
    """It says loudly that it misbehaves."""
    same(run.first, "rumpadol: THIS HOST MISBEHAVES ON PURPOSE by the rules of rules.json, and forgets all when it ends\n")


def honest(run):
    """A payment that no rule is for is granted and entered, and an echo test is answered."""
    before, peer = run.available(), run.peer()
    same(run.ask(peer, run.payment(500)), "00")
    same(run.code(peer.ask(run.spelling, ECHO)[0]), "00")
    same(run.available(), before - 500)


def answers(run):
    """A rule that answers gives its code, and enters nothing."""
    before, peer, order = run.available(), run.peer(), run.payment(101)
    same(run.ask(peer, order), "05")
    same(run.ask(peer, order, again=True), "05")
    same(run.available(), before)


def answers_an_account(run):
    """A rule for an account and a type is for no other."""
    peer = run.peer()
    same(run.ask(peer, run.payment(500, OTHER)), "62")
    same(run.available(OTHER), OPENING)


def delays(run):
    """A late answer holds up no other, and comes when it is to."""
    before, peer, late, other = run.available(), run.peer(), run.payment(102), run.payment(500)
    began = time.monotonic()
    run.send(peer, late)
    same(run.ask(peer, other), "00")
    assert time.monotonic() - began < DELAY / 2000, "the other answer is late"
    same(run.code(peer.take(run.spelling, 1)[0]), "00")
    waited = time.monotonic() - began
    # (the host counts whole milliseconds)
    assert (DELAY - 1) / 1000 <= waited < DELAY / 1000 + 1, f"it came after {waited} s"
    same(run.available(), before - 602)


def delays_to_one_that_ended(run):
    """A late answer comes to a peer that sends nothing more."""
    peer = run.peer()
    run.send(peer, run.payment(102))
    peer.socket.shutdown(socket.SHUT_WR)
    same(len(run.spelling.frames(peer.waits_for_close())[0]), 1)


def is_silent(run):
    """The order is entered, and its answer is lost."""
    before, peer = run.available(), run.peer()
    run.send(peer, run.payment(103))
    nothing_comes(peer)
    same(run.ask(peer, run.payment(500)), "00")
    same(run.available(), before - 603)


def cuts(run):
    """The order is entered, the answers before it come, and the connection is closed."""
    before, peer = run.available(), run.peer()
    frames = [asked(run.payment(500)), asked(run.payment(104)), asked(run.payment(500))]
    peer.send(b"".join(map(run.spelling.frame, frames)))
    same(len(run.spelling.frames(peer.waits_for_close())[0]), 1)
    same(run.available(), before - 604)


def sends_garbage(run):
    """The order is entered, and in place of the answer comes a frame that is no message."""
    before, peer = run.available(), run.peer()
    frames = peer.ask(run.spelling, asked(run.payment(105)))
    same(frames, [b"\0\x08" + b"\xff" * 8])
    same(run.ask(peer, run.payment(500)), "00")
    same(run.available(), before - 605)


def counts(run):
    """A rule for every third message decides at the third, and a repeat of it gets the answer that was lost."""
    before, peer = run.available(), run.peer()
    same([run.ask(peer, run.payment(amount)) for amount in (200, 299)], ["00", "00"])
    lost = run.payment(250)
    run.send(peer, lost)
    nothing_comes(peer)
    same(run.ask(peer, lost, again=True), "00")
    same(run.available(), before - 749)


def counts_a_type(run):
    """A rule for a type alone is for its repeats too."""
    peer, order = run.peer(), run.payment(500)
    same(run.ask(peer, order), "00")
    undone = reversal(900_001, order)
    same(run.ask(peer, undone), "00")
    same(peer.ask(run.spelling, asked(undone, again=True)), [b"\0\x08" + b"\xff" * 8])


def no_message(run):
    """A frame that is no message is not answered, and what comes behind it is."""
    peer = run.peer()
    peer.send(run.spelling.framed(b"\xff" * 8))
    same(run.ask(peer, run.payment(500)), "00")


def tells(run):
    """Each rule that decided is told, and no account number."""
    status, told = run.stop()
    same(status, 0)
    rules = [event for event in told if event["event"] == "rule"]
    for place, rule in enumerate(RULES, start=1):
        found = {event["do"] for event in rules if event["rule"] == place}
        same(found, {rule["do"]})
    text = json.dumps(told)
    assert ACCOUNT.decode() not in text and OTHER.decode() not in text, "an account number is told"
    peers = {event["peer"] for event in told if event["event"] == "connected"}
    same({event["peer"] for event in told if event["event"] == "closed"} - peers, set())


BEHAVIOURS = [says_so, honest, answers, answers_an_account, delays, delays_to_one_that_ended, is_silent, cuts, sends_garbage, counts,
              counts_a_type, no_message, tells]


def main():
    command, bad = program(sys.argv[1:]), 0
    with tempfile.TemporaryDirectory() as folder, contextlib.ExitStack() as stack:
        run = Run(command, folder)
        stack.callback(run.process.kill)
        for behaviour in BEHAVIOURS:
            try:
                behaviour(run)
            except (AssertionError, OSError, LookupError) as why:
                bad += 1
                print(f"{behaviour.__name__}: {why!r}")
    print(f"{len(BEHAVIOURS)} behaviours, {bad} bad")
    return 1 if bad else 0


if __name__ == "__main__":
    sys.exit(main())
