#!/usr/bin/env python3
"""A front before three hosts, each with accounts of its own: fronts.py PROGRAM

PROGRAM is the built rumpadol. An acquirer asks the front for purchases, refunds, inquiries, reversals, repeats and echo tests, one after
the other. Then

- each answer is that of one host with all accounts, to which the same orders come in the same order; only the place (38) may differ,
  since each shard counts its own,
- while a shard is killed, orders of its accounts and reversals aren't answered, and others are; once it is started again, their repeats
  are answered,
- many acquirers at once get an answer to each of their orders, of their own order,
- the front says where it listens and which shards it has, ends with status 0 by its stop file, and shows no account number.

The last line is `N answers compared, M bad`, and the status is 0 where M is 0. FRONTS_SEED draws the same orders again.
"""
import contextlib
import json
import os
import pathlib
import random
import socket
import subprocess
import sys
import tempfile
import threading
import time

from traffic import (ECHO, HERE, WAIT, Peer, Spelling, accounts_document, asked, free_ports, on_a_stream, payment, program, reversal)

SEED = int(os.environ.get("FRONTS_SEED", "0")) or random.randrange(1, 1 << 32)
SPELLING = Spelling("ascii87", "ascii4")
ACQUIRER = 12345
ORDERS = 300
PEERS, EACH = 20, 30
SILENCE = 1.5
REST = 1.2

# name, the prefixes of its account numbers, and its accounts
SHARDS = [
    ("north", [("4", "4")], {b"4111111111111111": 900_000, b"4222222222222": 500}),
    ("south", [("51", "55"), ("340000", "349999")], {b"5500000000000004": 900_000, b"340000000000009": 900_000}),
    ("west", [("36", "36")], {b"36000000000008": 900_000}),
]
ALL = {number: opening for _, _, accounts in SHARDS for number, opening in accounts.items()}
UNKNOWN = b"6011000000000004"


class Shard:
    """A host with some of the accounts, which can be killed and started again."""

    def __init__(self, command, folder, name, accounts):
        self.command, self.folder, self.process = command, pathlib.Path(folder, name), None
        self.folder.mkdir()
        (self.folder / "accounts.json").write_bytes(accounts_document(accounts))
        (self.port,) = free_ports(1)

    def start(self, *words):
        self.process = subprocess.Popen(
            [self.command, "host", "--listen", f"{HERE}:{self.port}", "--table", SPELLING.name, "--header", SPELLING.header, "--accounts",
             "accounts.json", "--journal", "journal", *words],
            cwd=self.folder, stdin=subprocess.PIPE, stdout=subprocess.DEVNULL, stderr=subprocess.DEVNULL)
        Peer(self.port, tries=100).close()

    def kill(self):
        if self.process:
            self.process.kill()
            self.process.wait()
            self.process = None


def without_place(text):
    """The message of a frame, but for its place (38)."""
    message = SPELLING.message(text)
    return message.mti, {number: value for number, value in message.elements.items() if number != 38}


class Fronts:
    """A front and its shards, and what was wrong."""

    def __init__(self, command, folder):
        self.command, self.folder, self.compared, self.bad = command, pathlib.Path(folder), 0, 0
        self.draw = random.Random(SEED)
        self.shards = [Shard(command, folder, name, accounts) for name, _, accounts in SHARDS]
        self.number, self.sent, self.got, self.bought = 0, [], [], []

    def check(self, is_so, what):
        if not is_so:
            self.bad += 1
            if self.bad <= 20:
                print(f"BAD {what}", flush=True)

    # ---- the front

    def document(self):
        rows = [{"name": name, "address": f"{HERE}:{shard.port}", "accounts": [{"from": first, "to": last} for first, last in prefixes]}
                for (name, prefixes, _), shard in zip(SHARDS, self.shards)]
        return json.dumps({"shards": rows})

    @contextlib.contextmanager
    def front(self):
        """A front before the shards, and its port."""
        (port,) = free_ports(1)
        (self.folder / "shards.json").write_text(self.document())
        process = subprocess.Popen([self.command, "front", "--shards", "shards.json", "--listen", f"{HERE}:{port}", "--table", SPELLING.name,
                                    "--header", SPELLING.header, "--stop-file", "stop"],
                                   cwd=self.folder, stdin=subprocess.PIPE, stdout=subprocess.DEVNULL, stderr=subprocess.PIPE)
        try:
            Peer(port, tries=100).close()
            yield port
            (self.folder / "stop").touch()
            told = process.communicate(timeout=WAIT)[1]
            self.check(process.returncode == 0, f"the front ends with status {process.returncode}: {told!r}")
            self.check(f"{HERE}:{port}".encode() in told.splitlines()[0], f"the front doesn't say where it listens: {told[:200]!r}")
            self.check(all(name.encode() in told.splitlines()[0] for name, _, _ in SHARDS), "the front doesn't name its shards")
            self.check(not any(number in told for number in [*ALL, UNKNOWN]), "the front shows an account number")
        finally:
            process.kill()
            process.wait()

    # ---- one acquirer

    def new_order(self, accounts):
        """The next order."""
        self.number += 1
        kind = self.draw.random()
        if kind < 0.2 and self.bought:
            return reversal(self.number, self.bought.pop())
        act = "debit" if kind < 0.7 else "credit" if kind < 0.85 else "inquiry"
        order = payment(act, self.number, ACQUIRER, self.draw.choice(accounts), self.draw.randrange(1, 400))
        if act == "debit":
            self.bought.append(order)
        return order

    def answered(self, peer, message):
        """Asks for it, and keeps the answer beside it."""
        answers = peer.ask(SPELLING, message)
        self.check(len(answers) == 1, f"no answer to {message}")
        self.sent.append(SPELLING.frame(message))
        self.got += answers

    def silent(self, peer, message):
        """Asks for it, and gets no answer."""
        peer.send(SPELLING.frame(message))
        peer.socket.settimeout(SILENCE)
        with contextlib.suppress(socket.timeout):
            self.check(not peer.socket.recv(1), f"an answer to {message}")
        peer.socket.settimeout(WAIT)

    def day(self, peer):
        """Orders of all kinds, with repeats and echo tests between them."""
        orders = []
        for _ in range(ORDERS):
            kind = self.draw.random()
            if kind < 0.1:
                self.answered(peer, ECHO)
            elif kind < 0.25 and orders:
                self.answered(peer, asked(self.draw.choice(orders), again=True))
            else:
                orders.append(self.new_order([*ALL, UNKNOWN]))
                self.answered(peer, asked(orders[-1]))

    def lost(self, peer):
        """A shard is killed and started again."""
        south = self.shards[1]
        theirs, others = list(SHARDS[1][2]), list(SHARDS[0][2])
        south.kill()
        payments = [payment("debit", self.number + n, ACQUIRER, number, 7) for n, number in enumerate([theirs[0], others[0]], 1)]
        undone = reversal(self.number + 3, payments[1])
        self.number += 3
        self.silent(peer, asked(payments[0]))
        self.answered(peer, asked(payments[1]))
        self.silent(peer, asked(undone))
        south.start()
        time.sleep(REST)
        self.answered(peer, asked(payments[0], again=True))
        self.answered(peer, asked(undone, again=True))

    def compare(self):
        """Compares what came with what one host for all accounts answers."""
        (self.folder / "accounts.json").write_bytes(accounts_document(ALL))
        wanted = on_a_stream(self.command, self.folder, SPELLING, self.sent)
        self.check(len(wanted) == len(self.got), f"{len(self.got)} answers came, and one host gives {len(wanted)}")
        for sent, want, got in zip(self.sent, wanted, self.got):
            self.compared += 1
            self.check(without_place(want) == without_place(got), f"to {sent!r} came {got!r}, and one host answers {want!r}")

    # ---- many acquirers

    def many(self, port):
        """Many acquirers at once: each gets the answers to its own orders."""
        def run(acquirer):
            peer, draw = Peer(port), random.Random(f"{SEED}/{acquirer}")
            for number in range(1, EACH + 1):
                order = payment("debit", number, acquirer, draw.choice(list(ALL)), 1)
                for message in (asked(order), asked(reversal(number + 1000, order))):
                    answers = peer.ask(SPELLING, message)
                    answer = SPELLING.message(answers[0]) if answers else None
                    same = answer and all(answer.elements.get(n) == message.elements[n] for n in (7, 11, 32))
                    with self.lock:
                        self.compared += 1
                        self.check(same, f"acquirer {acquirer} got {answer} to {message}")
            peer.close()
        self.lock = threading.Lock()
        threads = [threading.Thread(target=run, args=(1_000 + n,)) for n in range(PEERS)]
        for thread in threads:
            thread.start()
        for thread in threads:
            thread.join()

    def run_all(self):
        try:
            for shard in self.shards:
                shard.start("--new")
            with self.front() as port:
                peer = Peer(port)
                self.day(peer)
                self.lost(peer)
                self.compare()
                self.many(port)
                peer.close()
        finally:
            for shard in self.shards:
                shard.kill()


def main():
    with tempfile.TemporaryDirectory() as folder:
        made = Fronts(program(sys.argv[1:]), folder)
        made.run_all()
    if made.bad:
        print(f"FRONTS_SEED={SEED}")
    print(f"{made.compared} answers compared, {made.bad} bad")
    return 1 if made.bad else 0


if __name__ == "__main__":
    sys.exit(main())
