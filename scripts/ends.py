"""A host, a driver and what lies between them, for scripts that break all of it: a relay, the driver over its diary, and what has to
hold in the end.
"""
import json
import random
import re
import select
import socket
import subprocess
import threading
import time
from collections import Counter

from traffic import HERE, WAIT, Key, Peer, Spelling, entries, journal_told, key_of_entry, without_repeat

ACCOUNTS = {b"4%015d" % number: 5_000_000 for number in range(20)}
SPELLING = Spelling("ascii87", "ascii4")
ACQUIRER = 12345
CLOSING = 120            # seconds in which all is closed in the end


def order_key(message):
    """The key of the order that a request asks for."""
    elements = message.elements
    return Key(without_repeat(message.mti), int(elements[11]), int(elements[7]), int(elements[32]))


# ---- between both ends

class Relay(threading.Thread):
    """Hands the bytes of connections on, both ways, notes whole frames, and cuts connections where it is told to.

    `leads` gives the port of the host that a new connection goes to, or `None` where no host serves.
    """

    def __init__(self, port, leads):
        super().__init__(daemon=True)
        self.leads = leads
        self.listener = socket.create_server((HERE, port), backlog=100)
        self.noting = threading.Lock()
        self.pairs, self.asked, self.answers, self.differing = {}, {}, {}, []
        self.compared, self.cuts, self.to_cut, self.to_leave, self.firsts = 0, 0, 0, set(), {}

    def cut(self, count):
        """Cuts so many connections soon."""
        self.to_cut += count

    def leave(self, port):
        """Cuts all connections to a host soon."""
        self.to_leave.add(port)

    def begin(self):
        """Forgets when each host gave its first answer."""
        self.firsts = {}

    def open_pair(self):
        near, _ = self.listener.accept()
        port = self.leads()
        try:
            far = socket.create_connection((HERE, port), 1) if port else None
        except OSError:
            far = None
        if not far:
            near.close()
            return
        for one in (near, far):
            one.setsockopt(socket.IPPROTO_TCP, socket.TCP_NODELAY, 1)
        self.pairs[near], self.pairs[far] = [far, b"", None], [near, b"", port]

    def close_pair(self, one):
        if one in self.pairs:
            other = self.pairs.pop(one)[0]
            self.pairs.pop(other, None)
            one.close()
            other.close()

    def note(self, frame, is_answer):
        """Notes an order that was asked for, or compares its answer with the first one."""
        message = SPELLING.message(frame)
        key = (message.mti[1], message.elements.get(7), message.elements.get(11), message.elements.get(32))
        with self.noting:
            self.note_under(key, frame, is_answer)

    def note_under(self, key, frame, is_answer):
        if not is_answer:
            self.asked.setdefault(key, frame)
        elif self.answers.setdefault(key, frame) is not frame:
            self.compared += 1
            if self.answers[key] != frame:
                self.differing.append(f"{self.answers[key]!r} and then {frame!r} to {self.asked.get(key)!r}")

    def pump(self, one):
        """Hands on what came of one end."""
        other, rest, port = self.pairs[one]
        try:
            piece = one.recv(1 << 16)
            other.sendall(piece)
        except OSError:
            piece = b""
        if not piece:
            self.close_pair(one)
            return
        frames, self.pairs[one][1] = SPELLING.frames(rest + piece)
        for frame in frames:
            self.note(frame, port is not None)
        if frames and port:
            self.firsts.setdefault(port, time.monotonic())

    def cut_some(self):
        """Cuts what is to be cut now."""
        left, self.to_leave = self.to_leave, set()
        for one in [one for one, (_, _, port) in self.pairs.items() if port in left]:
            self.close_pair(one)
        while self.to_cut and self.pairs:
            self.to_cut -= 1
            self.cuts += 1
            self.close_pair(random.choice(list(self.pairs)))
        self.to_cut = 0

    def run(self):
        while True:
            ready, _, _ = select.select([self.listener, *self.pairs], [], [], 0.05)
            for one in ready:
                if one is self.listener:
                    self.open_pair()
                elif one in self.pairs:
                    self.pump(one)
            self.cut_some()


# ---- the driver

def breaking(choose):
    """Words of a driver that breaks its own traffic."""
    return ("--lose", f"{choose.uniform(0, 0.1):.3f}", "--repeat", f"{choose.uniform(0, 0.1):.3f}",
            "--delay", f"0..{choose.randrange(1, 100)}", "--cut", f"{choose.uniform(0, 0.005):.4f}",
            "--seed", str(choose.randrange(1 << 32)), "--patience", str(choose.randrange(100, 1500)),
            "--peers", str(choose.choice((1, 2, 8))), "--rate", str(choose.choice((50, 200, 400))),
            "--count", "400000", "--seconds", "3600")


def driver(command, folder, port, words, accounts="accounts.json"):
    """A driver over its diary, which it makes where there is none."""
    new = [] if (folder / "diary").exists() else ["--new"]
    words = ["drive", f"{HERE}:{port}", "--table", SPELLING.name, "--header", SPELLING.header, "--acquirer", str(ACQUIRER),
             "--accounts", accounts, "--journal", "diary", *new, "--json", *words]
    return subprocess.Popen([command, *words], cwd=folder, stdin=subprocess.DEVNULL, stdout=subprocess.PIPE, stderr=subprocess.PIPE)


class Ends:
    """What was done to both ends, and what was wrong."""

    def __init__(self, command, folder, port, leads, accounts="accounts.json"):
        self.command, self.folder, self.port, self.accounts = command, folder, port, accounts
        self.done, self.bad, self.driver = Counter(), 0, None
        self.relay = Relay(port, leads)

    def tell_bad(self, what):
        self.bad += 1
        if self.bad <= 20:
            print(f"BAD {what}", flush=True)

    def start_driver(self, words):
        self.driver = driver(self.command, self.folder, self.port, words, self.accounts)
        self.done["starts of the driver"] += 1

    def end_driver(self):
        self.driver.kill()
        self.driver.communicate()

    def close_all(self):
        """A driver that begins nothing, breaks nothing and closes what is open, and what it says of both books."""
        self.start_driver(("--count", "0", "--seconds", str(CLOSING), "--patience", "500", "--check"))
        try:
            out, told = self.driver.communicate(timeout=CLOSING + WAIT)
        except subprocess.TimeoutExpired:
            self.driver.kill()
            self.tell_bad("the last driver doesn't end")
            return {}
        if self.driver.returncode != 0:
            self.tell_bad(f"the last driver ended with status {self.driver.returncode}: {told!r} {out!r}")
        return json.loads(out) if out else {}

    def ask_all(self, port):
        """Each order that was answered, once more, at a host itself."""
        peer = Peer(port, tries=50)
        keys = list(self.relay.answers)
        for at in range(0, len(keys), 200):
            frames = [self.relay.asked[key] for key in keys[at:at + 200]]
            peer.send(b"".join(frames))
            for frame in peer.take(SPELLING, len(frames)):
                self.relay.note(frame, True)
        peer.close()
        for what in self.relay.differing:
            self.tell_bad(f"an order got two answers: {what}")
        self.relay.differing = []

    def run(self, seconds):
        """A soak of so long and its end: how many orders the journal has. What ends it is told, and all that it began is ended."""
        try:
            self.soak(seconds)
            return self.end()
        except (AssertionError, OSError, KeyError, ValueError) as fault:
            self.tell_bad(repr(fault))
            return 0
        finally:
            self.clear()

    def look_at_journal(self, journal):
        """The journal is whole, and has each key once, and each order with the code that it was answered: its entries."""
        told = journal_told(self.command, self.folder, "check", journal, "--accounts", "accounts.json")
        book = entries(self.command, self.folder, journal)
        if told != [b"%s: whole, %d orders" % (journal.encode(), len(book))]:
            self.tell_bad(f"the check of the journal of {len(book)} orders says {told}")
        if len({key_of_entry(entry) for entry in book}) != len(book):
            self.tell_bad("the journal has a key twice")
        held = {key_of_entry(entry): entry["code"].encode() for entry in book}
        for key, frame in self.relay.answers.items():
            order = order_key(SPELLING.message(self.relay.asked[key]))
            if (code := SPELLING.message(frame).elements[39]) != held.get(order):
                self.tell_bad(f"{order} was answered {code!r}, and the journal has {held.get(order)!r}")
        return book


# ---- the page

def write_part(page, mark, text):
    """Puts a text in place of the part of the page that this mark begins, which goes up to the next mark, or else behind all parts."""
    begin = f"<!-- written by {mark} -->\n"
    told = page.read_text() if page.exists() else ""
    parts = re.split(r"(?=^<!-- written by )", told, flags=re.MULTILINE)
    place = next((place for place, part in enumerate(parts) if part.startswith(begin)), len(parts))
    parts[place:place + 1] = [f"{begin}\n{text}"]
    page.write_text("\n\n".join(part.strip() for part in parts) + "\n")
