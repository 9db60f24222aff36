#!/usr/bin/env python3
"""Bad peers at a host on ports, while good ones are served: peers.py PROGRAM

PROGRAM is the built rumpadol. Its host listens on three links: `atm` is ascii87 behind ascii4, `pos` bcd87 behind binary2 for the
acquirers and the network that it names, `tpdu` the same behind five bytes more. One good peer on each sends purchases, refunds,
inquiries, reversals, repeats and echo tests, while one kind of bad peer after the other is at work. Then

- each answer of a good peer is that of a host on a stream, byte for byte, to which the orders come in the order of the journal,
- the journal has the orders of the good peers and no other, and the log tells each of their answers,
- each bad peer has its line in the log, the metrics count what the log tells, and no account number stands in the log, the metrics or
  the error stream,
- a host that is stopped by its stop file, or by the end of its input, has answered what it entered, and ends with status 0,
- the host that is started after it gives each order its first answer,
- a host whose log can't be written answers all the same, and so does one whose log goes to a pipe that nobody reads.

The last line is `N kinds of bad peers, M answers of good ones compared, B bad`, and the status is 0 where B is 0. PEERS_SEED draws
the same orders again.
"""
import contextlib
import http.client
import json
import os
import pathlib
import random
import re
import subprocess
import sys
import tempfile
import threading
import time
from collections import Counter

from bad_peers import KINDS
from traffic import (ECHO, HERE, TOP, WAIT, Host, Peer, Spelling, accounts_document, asked, entries, free_ports, key_of_entry,
                     let_open_many, on_a_stream, payment, program, reversal, without_repeat)

SEED = int(os.environ.get("PEERS_SEED", "0")) or random.randrange(1, 1 << 32)
ALLOWED = {"atm": 1200, "pos": 12, "tpdu": 100}
LIMITS = {"idle": 4, "frame": 3, "unread": 2, "waiting": 65536}
OWN, OTHER = 12345, 777
PATIENCE = 10

ACCOUNTS = {b"4111111111111111": 90_000_000, b"5500000000000004": 90_000_000, b"340000000000009": 500, b"36000000000008": 5000}
SHARED, APART = list(ACCOUNTS)[:3], list(ACCOUNTS)[3]
UNKNOWN = b"6011000000000004"

SPELLINGS = {"atm": Spelling("ascii87", "ascii4"), "pos": Spelling("bcd87", "binary2"),
             "tpdu": Spelling("bcd87", "binary2", bytes.fromhex("6000010002"))}
ATM, POS = SPELLINGS["atm"], SPELLINGS["pos"]


# ---- good peers

class Good(threading.Thread):
    """A good peer: it draws orders, sends some together, and notes each answer."""

    def __init__(self, link, port, acquirer, first, bought):
        super().__init__(name=link)
        self.spelling, self.port, self.acquirer = SPELLINGS[link], port, acquirer
        self.draw = random.Random(f"{SEED}/{link}")
        self.number, self.bought = first, bought
        self.orders, self.answers = [], []
        self.over, self.fault, self.longest = threading.Event(), None, 0

    def new_order(self):
        """The next order. A reversal may be of a purchase that came over another link."""
        self.number += 1
        kind = self.draw.random()
        if kind < 0.2 and self.acquirer == OWN:
            with contextlib.suppress(IndexError):
                return reversal(self.number, self.bought.pop())
        act = "debit" if kind < 0.7 else "credit" if kind < 0.85 else "inquiry"
        return payment(act, self.number, self.acquirer, self.draw.choice([*SHARED, UNKNOWN]), self.draw.randrange(1, 400))

    def next_one(self):
        """What is sent next: an order or none, which is the echo test, and the message."""
        kind = self.draw.random()
        if kind < 0.1:
            return None, ECHO
        if kind < 0.3 and self.orders:
            order = self.draw.choice(self.orders)
            return order, asked(order, again=True)
        return (order := self.new_order()), asked(order)

    def turn(self, peer):
        """Sends some messages together, and takes their answers."""
        sent = [self.next_one() for _ in range(self.draw.choice((1, 1, 2, 5, 20)))]
        begun = time.monotonic()
        got = peer.ask(self.spelling, *(message for _, message in sent))
        self.longest = max(self.longest, time.monotonic() - begun)
        if len(got) != len(sent):
            raise AssertionError(f"{len(sent)} frames got {len(got)} answers")
        for (order, message), answer in zip(sent, got):
            self.answers.append((order, answer))
            if order and message.mti[3] == "0":
                self.orders.append(order)
                if order.act == "debit" and order.key.acquirer == OWN:
                    self.bought.append(order)

    def run(self):
        try:
            peer = Peer(self.port)
            while not self.over.is_set():
                self.turn(peer)
                time.sleep(0.005)
            peer.close()
        except Exception as fault:
            self.fault = f"the good peer on {self.name}: {fault!r}"


# ---- a host

class Run:
    """A host on its links, and what was wrong."""
    spellings, atm, pos, allowed, limits, account, seed = SPELLINGS, ATM, POS, ALLOWED, LIMITS, SHARED[0], SEED

    def __init__(self, command, folder):
        self.command, self.folder = command, pathlib.Path(folder)
        *ports, self.metrics = free_ports(len(SPELLINGS) + 1)
        self.ports = dict(zip(SPELLINGS, ports))
        self.bad = self.kinds = self.compared = 0
        self.told = b""

    def tell_bad(self, what):
        self.bad += 1
        if self.bad <= 20:
            print(f"BAD {what}", flush=True)

    def check(self, is_so, what):
        if not is_so:
            self.tell_bad(what)

    # ---- the host

    def documents(self):
        """The links and the accounts."""
        links = [{"name": name, "listen": f"{HERE}:{self.ports[name]}", "table": spelling.name, "header": spelling.header,
                  "skip": len(spelling.front), "limits": {"peers": ALLOWED[name], **LIMITS}} for name, spelling in SPELLINGS.items()]
        links[1] |= {"networks": [f"{HERE}/32"], "acquirers": [str(OWN), str(OTHER)]}
        (self.folder / "links.json").write_text(json.dumps({"links": links}))
        (self.folder / "accounts.json").write_bytes(accounts_document(ACCOUNTS))

    def launch(self, *more, log="log"):
        """Starts the host, once its stop file is gone."""
        (self.folder / "stop").unlink(missing_ok=True)
        words = ["--links", "links.json", "--metrics", f"{HERE}:{self.metrics}", "--stop-file", "stop", *more]
        self.host = Host(self.command, self.folder, words, log)

    def start(self, *more):
        """Starts the host, and waits until it listens."""
        self.launch(*more)
        try:
            self.host.listens(len(SPELLINGS))
        except AssertionError as fault:
            raise AssertionError(f"{fault}; the host told {self.host.kill()!r}") from None

    def ended(self, how):
        """The host has ended by itself, and well."""
        status, told = self.host.ends()
        self.told += told
        self.check(status == 0, f"{how} the host ended with status {status}: {told!r}")

    # ---- what the log tells

    def number_of(self, peer):
        """The number of a connection in the log. An earlier one that had its address is closed."""
        address = f"{peer.socket.getsockname()[0]}:{peer.socket.getsockname()[1]}"
        link = next(name for name, port in self.ports.items() if port == peer.socket.getpeername()[1])
        end = time.monotonic() + WAIT
        while time.monotonic() < end:
            closed = {event["connection"] for event in self.host.told(event="closed")}
            told = self.host.told(event="connected", link=link, address=address)
            if open_ones := [event["connection"] for event in told if event["connection"] not in closed]:
                return open_ones[0]
            time.sleep(0.02)
        raise AssertionError(f"no open connection of {link} has the address {address}")

    def closed(self, number, *reasons):
        """The connection was closed for one of these reasons, and a line tells its counts."""
        event = self.host.waits_for(event="closed", connection=number)[0]
        if event["why"] not in reasons:
            raise AssertionError(f"the connection was closed as {event['why']}, not as {reasons}")
        return event

    def refused(self, why, count=1):
        self.host.waits_for(count, event="refused", why=why)

    # ---- what is read of the metrics' address

    def get(self, path):
        """The status, the kind and the text of a page."""
        connection = http.client.HTTPConnection(HERE, self.metrics, timeout=WAIT)
        connection.request("GET", path)
        response = connection.getresponse()
        text = response.read()
        connection.close()
        return response.status, response.getheader("Content-Type", ""), text


# ---- what is looked at while they are at work

LINE = re.compile(rb'# (HELP|TYPE) [a-z_]+ .*|[a-z_]+(\{[a-z_]+="[^"]*"(,[a-z_]+="[^"]*")*\})? [0-9.e+-]+')


def look_at_metrics(run):
    """The metrics have the form that Prometheus reads, and the health is well."""
    status, kind, text = run.get("/metrics")
    run.check((status, kind.split(";")[0]) == (200, "text/plain"), f"/metrics answers {status} {kind}")
    odd = [line for line in text.splitlines() if not LINE.fullmatch(line)]
    run.check(text and not odd, f"/metrics has {len(text)} bytes, and lines like {odd[:3]}")
    status, _, health = run.get("/health")
    run.check(status == 200 and json.loads(health).get("status") == "ok", f"/health answers {status} {health!r}")
    run.told += text + health


def counted(text, name):
    """The counts of one name in the metrics: by link, and by their other label."""
    pattern = re.compile(rf'{name}{{link="([^"]*)",[a-z]+="([^"]*)"}} (\d+)')
    found = (pattern.fullmatch(line) for line in text.decode().splitlines())
    return {(line[1], line[2]): int(line[3]) for line in found if line and line[3] != "0"}


def told_by(run, member, *events):
    """The same counts by the lines of the log."""
    return Counter((event["link"], event[member]) for event in run.host.events() if event["event"] in events)


def compare_metrics(run):
    """Once the peers are gone, the metrics count the answers and the closed connections that the log tells."""
    end = time.monotonic() + PATIENCE
    while True:
        text = run.get("/metrics")[2]
        pairs = [(counted(text, "rumpadol_answers_total"), told_by(run, "code", "answered", "replied", "foreign")),
                 (counted(text, "rumpadol_connections_closed_total"), told_by(run, "why", "closed")),
                 (counted(text, "rumpadol_connections_refused_total"), told_by(run, "why", "refused"))]
        if all(mine == others for mine, others in pairs) or time.monotonic() > end:
            break
        time.sleep(0.2)
    for mine, others in pairs:
        run.check(mine == others, f"the metrics count {mine}, and the log {dict(others)}")


def across_links(run):
    """A reversal over the link in ASCII finds the purchase that came over the link in BCD: the balance is as it was."""
    bought = payment("debit", 910_001, OWN, APART, 1000)
    shown = [payment("inquiry", number, OWN, APART, 0) for number in (910_002, 910_004)]
    pos, atm = Peer(run.ports["pos"]), Peer(run.ports["atm"])
    before = POS.message(pos.ask(POS, asked(bought), asked(shown[0]))[1]).elements[54]
    code = ATM.message(atm.ask(ATM, asked(reversal(910_003, bought)))[0]).elements[39]
    after = POS.message(pos.ask(POS, asked(shown[1]))[0]).elements[54]
    run.check((before, code, after) == (b"0002840C000000004000", b"00", b"0002840C000000005000"),
              f"around the reversal of a purchase over another link stand {before}, {code} and {after}")
    for peer in (pos, atm):
        peer.close()
    return [bought, shown[0], reversal(910_003, bought), shown[1]]


def try_bad_peers(run):
    """Each kind of bad peer, one after the other."""
    for act in KINDS:
        begun = time.monotonic()
        try:
            act(run)
        except (AssertionError, OSError, KeyError, IndexError) as fault:
            run.tell_bad(f"{act.__name__}: {fault!r}")
        run.kinds += 1
        print(f"{time.monotonic() - begun:5.1f} s  {act.__name__.replace('_', ' ')}: {act.__doc__}", flush=True)


# ---- what the good peers got

def by_a_stream(run, spelling, orders, keys):
    """What a host on a stream answers to the orders with these keys, and to the echo test behind them."""
    known = [key for key in keys if key in orders]
    sent = [spelling.frame(message) for message in [*(asked(orders[key]) for key in known), ECHO]]
    frames = on_a_stream(run.command, run.folder, spelling, sent)
    return dict(zip([*known, None], map(spelling.message, frames)))


def compare(run, good, more):
    """Compares each answer with that of a host on a stream which gets the orders in the order of the journal."""
    orders = {order.key: order for order in [*more, *(order for peer in good for order in peer.orders)]}
    book = entries(run.command, run.folder)
    keys = [key_of_entry(entry) for entry in book]
    run.check(sorted(map(repr, keys)) == sorted(map(repr, orders)), f"{len(keys)} orders in the journal, {len(orders)} were sent")
    expected = {spelling.name: by_a_stream(run, spelling, orders, keys) for spelling in (ATM, POS)}
    for peer in good:
        for order, answer in peer.answers:
            wanted = expected[peer.spelling.name].get(order.key if order else None)
            run.compared += 1
            run.check(wanted and answer == peer.spelling.frame(wanted), f"on {peer.name} {order} got {answer!r}, not {wanted}")
    return book


def compare_log(run, good, book):
    """The log tells each answer of the good peers, with its code and its place."""
    told = {}
    for event in run.host.told(event="answered"):
        name = without_repeat(event["type"]), event["trace"], event["sent"], event["acquirer"]
        told.setdefault(name, []).append((event["code"], event["entry"]))
    for entry in book:
        name = entry["type"], entry["trace"], entry["time"], entry["acquirer"]
        wrong = [pair for pair in told.get(name, []) if pair != (entry["code"], entry["place"])]
        run.check(name in told and not wrong, f"the log tells {told.get(name)} of entry {entry['place']}")
    lines, count = sum(map(len, told.values())), sum(order is not None for peer in good for order, _ in peer.answers)
    run.check(lines >= count, f"the log tells {lines} answers of {count}")


def look_for_numbers(run):
    """No account number, in digits or two digits a byte, stands in the log or in what else the host told."""
    text = run.host.log.read_bytes() + run.told
    for pan in [*ACCOUNTS, UNKNOWN]:
        packed = bytes.fromhex((pan if len(pan) % 2 == 0 else b"0" + pan).decode())
        run.check(pan not in text and packed not in text, f"the account number {pan[:6].decode()}.. stands in the log")


# ---- the end of a host

def stop_in_a_burst(run, how, stop, first):
    """The host is stopped while frames come: what it entered it has answered, and it ends well."""
    orders = [payment("credit", first + number, OTHER, SHARED[0], 1) for number in range(300)]
    peer = Peer(run.ports["pos"])
    peer.send(b"".join(POS.frame(asked(order)) for order in orders))
    answers = peer.take(POS, 1)
    stop()
    answers += POS.frames(peer.waits_for_close())[0]
    run.ended(how)
    peer.close()
    held = {key_of_entry(entry) for entry in entries(run.command, run.folder)}
    entered = sum(order.key in held for order in orders)
    run.check(entered == len(answers) > 0, f"{how} {entered} orders were entered and {len(answers)} answered")
    run.check(run.host.told(event="stopping"), f"{how}: the log doesn't tell that the host stops")


def serve_again(run, good):
    """The host that is started by the same words gives each order its first answer."""
    for peer in good:
        first = dict(reversed([(order.key, answer) for order, answer in peer.answers if order]))
        again = Peer(run.ports[peer.name])
        for at in range(0, len(peer.orders), 100):
            some = peer.orders[at:at + 100]
            for order, answer in zip(some, again.ask(peer.spelling, *(asked(order, again=True) for order in some))):
                run.compared += 1
                run.check(answer == first[order.key], f"after a restart {order} got {answer!r}, not {first[order.key]!r}")
        again.close()


def serve_without_a_log(run):
    """A host whose log can't be written answers all the same, and counts the lines that it drops."""
    run.launch(log="/dev/full")
    peer = Peer(run.ports["atm"], tries=100)
    run.check(peer.ask(ATM, ECHO), "a host whose log can't be written doesn't answer")
    dropped = re.search(rb"rumpadol_log_lines_dropped_total ([0-9]+)", run.get("/metrics")[2])
    run.check(dropped and int(dropped[1]) > 0, "the lines that were dropped aren't counted")
    peer.close()
    run.host.end_input()
    run.ended("without a log")


def serve_to_a_pipe_that_nobody_reads(run):
    """A host whose error stream is full answers all the same, counts the lines that it drops, and has told whole lines."""
    run.launch(log=None)
    peer = Peer(run.ports["atm"], tries=100)
    for at in range(0, 12_000, 400):
        got = peer.ask(ATM, *[ECHO] * 400)
        run.check(len(got) == 400, f"a host whose error stream is full answers {len(got)} of 400, after {at}")
    dropped = re.search(rb"rumpadol_log_lines_dropped_total ([0-9]+)", run.get("/metrics")[2])
    run.check(dropped and int(dropped[1]) > 0, "the lines that the pipe didn't take aren't counted")
    peer.close()
    run.host.end_input()
    status, told = run.host.ends()
    run.check(status == 0 and told, f"with a full error stream the host ended with status {status}")
    broken = [line for line in told.splitlines()[:-1] if not line.startswith(b'{"at":"') or not line.endswith(b"}")]
    run.check(not broken, f"the error stream has lines like {broken[:2]}")
    run.told += told


def serve_good_and_bad(run):
    """The good peers, and the bad ones beside them."""
    bought = []
    good = [Good(link, run.ports[link], acquirer, first, bought)
            for link, acquirer, first in (("atm", OWN, 0), ("pos", OWN, 300_000), ("tpdu", OTHER, 600_000))]
    for peer in good:
        peer.start()
    try_bad_peers(run)
    look_at_metrics(run)
    more = across_links(run)
    for peer in good:
        peer.over.set()
        peer.join()
        run.check(peer.fault is None, peer.fault)
        run.check(peer.longest < PATIENCE, f"the good peer on {peer.name} waited {peer.longest:.1f} s for its answers")
    print(f"{max(peer.longest for peer in good):5.1f} s  at most a good peer waited for its answers", flush=True)
    return good, more


def read_example(run):
    """The links of examples/ are good: the host that is started with them lacks the accounts alone."""
    words = ["host", "--links", str(TOP / "examples" / "links.json"), "--accounts", "none.json", "--journal", "none"]
    told = subprocess.run([run.command, *words], cwd=run.folder, capture_output=True, timeout=WAIT).stderr
    run.check(b"none.json" in told and b"links.json" not in told, f"a host on examples/links.json tells {told!r}")


def play(run):
    """The whole run."""
    run.documents()
    read_example(run)
    run.start("--new")
    good, more = serve_good_and_bad(run)
    book = compare(run, good, more)
    compare_log(run, good, book)
    compare_metrics(run)
    stop = run.folder / "stop"
    stop_in_a_burst(run, "by its stop file", stop.touch, 700_000)
    look_for_numbers(run)
    run.start()
    serve_again(run, good)
    stop_in_a_burst(run, "at the end of its input", run.host.end_input, 710_000)
    look_for_numbers(run)
    serve_without_a_log(run)
    serve_to_a_pipe_that_nobody_reads(run)


def main(words):
    command = program(words)
    let_open_many()
    with tempfile.TemporaryDirectory() as folder:
        run = Run(command, folder)
        try:
            play(run)
        except (AssertionError, OSError) as fault:
            run.tell_bad(repr(fault))
        finally:
            run.host.process.kill()
    if run.bad:
        print(f"PEERS_SEED={SEED}")
    print(f"{run.kinds} kinds of bad peers, {run.compared} answers of good ones compared, {run.bad} bad")
    return 1 if run.bad else 0


if __name__ == "__main__":
    sys.exit(main(sys.argv[1:]))
