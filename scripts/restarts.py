#!/usr/bin/env python3
"""Kills a host with many peers at random, and starts it again, for a while: restarts.py PROGRAM SECONDS

PROGRAM is the built rumpadol. Its host listens on two links, `atm` in ASCII and `pos` in BCD. Peers on both send purchases, refunds,
reversals and repeats, some together, and connect again where they lost the host. It is killed by SIGKILL up to three seconds after
its start, and started again by the same words. In the end

- each order that was ever answered is sent again, and gets the same bytes,
- `rumpadol journal check` says that the journal is whole, under its accounts,
- the journal has each answered order once, with the code and the place that were answered,
- the ledger of each account is its opening and what the journal's entries add to it.

The last line is `K kills, N answers repeated, M orders in the journal, B bad`, and the status is 0 where B is 0. RESTARTS_SEED draws the
same orders again, though not the same moments; PEERS is how many peers there are, 8 by default.
"""
import json
import os
import pathlib
import random
import sys
import tempfile
import threading
import time

from books import moved_by_entries, moved_by_ledgers
from traffic import (HERE, WAIT, Host, Peer, Spelling, accounts_document, asked, entries, free_ports, journal_told, key_of_entry,
                     payment, program, reversal)

SEED = int(os.environ.get("RESTARTS_SEED", "0")) or random.randrange(1, 1 << 32)
PEERS = int(os.environ.get("PEERS", "8"))
LONGEST_LIFE = 3
EACH = 20_000           # so many orders a peer asks for; then it sends repeats alone
ACCOUNTS = {b"4%015d" % number: 1_000_000 for number in range(40)}
PANS = list(ACCOUNTS)
SPELLINGS = {"atm": Spelling("ascii87", "ascii4"), "pos": Spelling("bcd87", "binary2")}


class Restarted(threading.Thread):
    """A peer that goes on wherever it lost the host."""

    def __init__(self, place, ports, over):
        super().__init__()
        link = sorted(SPELLINGS)[place % 2]
        self.spelling, self.port, self.over = SPELLINGS[link], ports[link], over
        self.draw = random.Random(f"{SEED}/{place}")
        self.acquirer, self.number = 1000 + place, 0
        self.orders, self.answers, self.answered, self.open, self.wrong = [], {}, [], [], []
        self.repeated = 0

    def new_order(self):
        """The next order: of its own acquirer, so that no other peer asks for it."""
        self.number += 1
        kind = self.draw.random()
        if kind < 0.2 and self.orders:
            return reversal(self.number, self.draw.choice(self.orders[-200:]))
        act = "debit" if kind < 0.8 else "credit"
        order = payment(act, self.number, self.acquirer, self.draw.choice(PANS), self.draw.randrange(1, 3000))
        self.orders.append(order)
        return order

    def next_orders(self):
        """What is sent together: orders that got no answer, others again, and new ones."""
        again = self.open + [self.draw.choice(self.answered) for _ in range(self.draw.choice((0, 0, 1, 4))) if self.answered]
        fresh = [self.new_order() for _ in range(self.draw.choice((1, 2, 10, 40)))] if self.number < EACH else []
        return [(order, True) for order in again] + [(order, False) for order in fresh]

    def note(self, order, answer):
        """A first answer is kept, and another one is compared with it."""
        if order not in self.answers:
            self.answers[order] = answer
            self.answered.append(order)
            return
        self.repeated += 1
        if (first := self.answers[order]) != answer:
            self.wrong.append(f"{order} had {first!r} first, and then {answer!r}")

    def turn(self, peer):
        """Sends some orders, and takes their answers. What gets none is sent again."""
        sent = self.next_orders()
        self.open = [order for order, _ in sent if order not in self.answers]
        answers = peer.ask(self.spelling, *(asked(order, again) for order, again in sent))
        for (order, _), answer in zip(sent, answers):
            self.note(order, answer)
        self.open = [order for order in self.open if order not in self.answers]
        return len(answers) == len(sent)

    def run(self):
        while not self.over.is_set():
            try:
                peer = Peer(self.port, patience=10)
                while not self.over.is_set() and self.turn(peer):
                    pass
                peer.close()
            except OSError:
                time.sleep(0.02)
            except Exception as fault:
                self.wrong.append(f"what a host sent is no answer: {fault!r}")
                return

    def ask_all(self):
        """Each order that was answered, again."""
        peer = Peer(self.port)
        for at in range(0, len(self.answered), 200):
            some = self.answered[at:at + 200]
            answers = peer.ask(self.spelling, *(asked(order, True) for order in some))
            if len(answers) != len(some):
                self.wrong.append(f"{len(some)} repeats got {len(answers)} answers")
            for order, answer in zip(some, answers):
                self.note(order, answer)
        peer.close()


class Restarts:
    """A host that is killed and started again, and what was wrong."""

    def __init__(self, command, folder):
        self.command, self.folder = command, pathlib.Path(folder)
        self.ports = dict(zip(SPELLINGS, free_ports(len(SPELLINGS))))
        self.choose = random.Random(SEED)
        self.kills = self.bad = 0

    def tell_bad(self, what):
        self.bad += 1
        if self.bad <= 20:
            print(f"BAD {what}", flush=True)

    def write_documents(self):
        links = [{"name": name, "listen": f"{HERE}:{self.ports[name]}", "table": spelling.name, "header": spelling.header}
                 for name, spelling in SPELLINGS.items()]
        (self.folder / "links.json").write_text(json.dumps({"links": links}))
        (self.folder / "accounts.json").write_bytes(accounts_document(ACCOUNTS))

    def start(self):
        """Starts the host, which makes its journal where there is none."""
        is_made = (self.folder / "journal").exists()
        (self.folder / "log").unlink(missing_ok=True)
        return Host(self.command, self.folder, ["--links", "links.json", *([] if is_made else ["--new"])])

    def live_and_die(self):
        """A host from its start to its kill, which may come before it listens."""
        host = self.start()
        end = time.monotonic() + self.choose.uniform(0.05, LONGEST_LIFE)
        while time.monotonic() < end:
            if host.process.poll() is not None:
                self.tell_bad(f"the host ended by itself: {host.ends()}")
                return
            time.sleep(0.02)
        host.kill()
        self.kills += 1

    def live(self, seconds):
        """Peers at work, and kills."""
        over, end = threading.Event(), time.monotonic() + seconds
        peers = [Restarted(place, self.ports, over) for place in range(PEERS)]
        for peer in peers:
            peer.start()
        while time.monotonic() < end and not self.bad:
            self.live_and_die()
        over.set()
        for peer in peers:
            peer.join()
        return peers

    def ask_all(self, peers):
        """All that was answered, again, at a host that isn't killed."""
        host = self.start()
        host.listens(len(SPELLINGS))
        for peer in peers:
            peer.ask_all()
            for what in peer.wrong:
                self.tell_bad(what)
        host.end_input()
        status, told = host.ends()
        if status != 0:
            self.tell_bad(f"the last host ended with status {status}: {told!r}")

    def look_at_entries(self, peers, book):
        """Each answered order stands once, as it was answered."""
        held = {key_of_entry(entry): entry for entry in book}
        if len(held) != len(book):
            self.tell_bad(f"the journal has {len(book)} entries of {len(held)} keys")
        for peer in peers:
            for order, answer in peer.answers.items():
                entry, elements = held.get(order.key), peer.spelling.message(answer).elements
                place = b"%06d" % entry["place"] if entry and entry["code"] == "00" and order.act != "reversal" else None
                if not entry or (entry["code"].encode(), place) != (elements[39], elements.get(38)):
                    self.tell_bad(f"{order} was answered {answer!r}, and the journal has {entry}")

    def look_at_balances(self, book):
        """The ledger of each account is its opening and what was entered, less what was reversed."""
        shown, sums = moved_by_ledgers(self.command, self.folder, PANS), moved_by_entries(book, PANS)
        if shown != sums:
            self.tell_bad(f"the ledgers moved by {shown}, and the entries by {sums}")

    def look_at_journal(self, peers):
        """What the command tells of the journal, and what its entries are."""
        told = journal_told(self.command, self.folder, "check", "journal", "--accounts", "accounts.json")
        book = entries(self.command, self.folder)
        if told != [b"journal: whole, %d orders" % len(book)]:
            self.tell_bad(f"the check of the journal of {len(book)} orders says {told}")
        self.look_at_entries(peers, book)
        self.look_at_balances(book)
        return len(book)


def main(words):
    command, seconds = program(words), float(words[1]) if len(words) == 2 else 120
    orders = repeated = 0
    with tempfile.TemporaryDirectory() as folder:
        restarts = Restarts(command, folder)
        print(f"RESTARTS_SEED={SEED} SECONDS={seconds:g}, {PEERS} peers", flush=True)
        restarts.write_documents()
        try:
            peers = restarts.live(seconds)
            restarts.ask_all(peers)
            orders = restarts.look_at_journal(peers)
            repeated = sum(peer.repeated for peer in peers)
        except (AssertionError, OSError) as fault:
            restarts.tell_bad(repr(fault))
    print(f"{restarts.kills} kills, {repeated} answers repeated, {orders} orders in the journal, {restarts.bad} bad")
    return 1 if restarts.bad else 0


if __name__ == "__main__":
    sys.exit(main(sys.argv[1:]))
