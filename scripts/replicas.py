#!/usr/bin/env python3
"""Two hosts over one journal on etcd, and everything around them breaks: replicas.py PROGRAM [MINUTES [PAGE]]

PROGRAM is the built rumpadol. Three members of etcd keep the journal (scripts/etcd-members.sh). Two hosts are started over it, one of
them as a standby. A relay leads `rumpadol drive` to whichever of them says that it serves, as a proxy does. For so many minutes, 2
where none are given, in an order that a seed draws,

- the active host is killed by SIGKILL, or called off by the end of its input, and the standby takes over,
- the active host is stopped by SIGSTOP until the standby has taken over, and then goes on: it has to answer nothing new, and to end,
- the standby is told to take over while the other one still serves, at its control address or by its stop file, and both are asked
  for orders until one of them ends,
- the leader of etcd is killed and started again, or any member is stopped for a while by SIGSTOP,
- connections are cut.

Whoever ended is started again as the standby. In the end, when all is closed,

- the driver's books and the journal's agree on each account, and so do the balances that the host tells and `rumpadol journal balance`,
- each answer that was ever given is the same, byte for byte, as the one to the same order asked once more, of either host,
- the journal is whole, has each key once, and each order with the code that it was answered,
- no take-over for which the lease had to run out took more than three leases.

Before that come journals that no host may serve (scripts/bad_journals.py). The last line is
`N take-overs, M answers compared, K kills, B bad`, and the status is 0 where B is 0. PAGE gets what was done, how often, and what held.
REPLICAS_SEED draws the same faults again, though not the same moments. REPLICAS_LEASE is how many seconds a lease lasts, 2 where it isn't
set; calls of etcd have half of it. A machine that is at work with something else wants more.
"""
import contextlib
import datetime
import itertools
import os
import pathlib
import random
import signal
import sys
import tempfile
import threading
import time

from bad_journals import refuse_all
from books import moved_by_entries, moved_by_ledgers
from ends import ACCOUNTS, SPELLING, Ends, breaking, write_part
from led import LEASE, Lead, Replica
from members import NAMES, Members
from traffic import WAIT, Peer, accounts_document, asked, free_ports, payment, program

SEED = int(os.environ.get("REPLICAS_SEED", "0")) or random.randrange(1, 1 << 32)
MOST_LEASES = 3          # so many leases a take-over may take for which one has to run out
OTHER = b"5500000000000004"         # an account of the other acquirer's alone
OTHER_ACQUIRER = 999
BOTH = 20                # seconds in which one of two active hosts has ended
FENCED = b"another host wrote to the journal"
IN_DOUBT = b"it is not known whether the last orders were kept"


# ---- what is done to them

class Replicas(Ends):
    """Two hosts, the members that keep their journal, a driver, what was done to them, and what was wrong."""

    def __init__(self, command, folder):
        folder = pathlib.Path(folder)
        self.members = Members(folder / "etcd")
        self.journal = self.members.place("day")
        self.replicas = [Replica(command, folder, name, self.journal) for name in ("one", "two")]
        self.lead = Lead(self.replicas)
        super().__init__(command, folder, *free_ports(1), self.lead, "driver.json")
        self.choose = random.Random(SEED)
        self.take_overs, self.asked_by_other = [], 0
        (folder / "accounts.json").write_bytes(accounts_document(ACCOUNTS | {OTHER: 9_000_000}))
        (folder / "driver.json").write_bytes(accounts_document(ACCOUNTS))

    # ---- the other acquirer

    def other_order(self):
        """The frame of an order of the other acquirer, which nobody asked for yet."""
        self.asked_by_other += 1
        frame = SPELLING.frame(asked(payment("debit", self.asked_by_other, OTHER_ACQUIRER, OTHER, 1)))
        self.relay.note(frame, False)
        return frame

    def ask_until_the_end(self, replica, over):
        """Asks a host for one order after the other until it ends, or it is over."""
        with contextlib.suppress(OSError):
            peer = Peer(replica.port, patience=BOTH)
            while not over.is_set():
                peer.send(self.other_order())
                answers = peer.take(SPELLING, 1)
                if not answers:
                    break
                self.relay.note(answers[0], True)
            peer.close()

    def part(self, first, second):
        """Asks two active hosts for orders until one of them is cut off, which starts again as the standby. They are so by chance too,
        where the members kept no lease for a while: a host that nobody asks for an order puts no batch, and so isn't cut off."""
        over = threading.Event()
        askers = [threading.Thread(target=self.ask_until_the_end, args=(replica, over)) for replica in (first, second)]
        for asker in askers:
            asker.start()
        self.waits(lambda: not first.runs() or not second.runs(), BOTH, "one of two active hosts ends")
        over.set()
        for asker in askers:
            asker.join()
        for replica in (first, second):
            if not replica.runs():
                self.done["times that one of two active hosts was cut off"] += 1
                self.see_end(replica, [FENCED])

    # ---- who serves

    def waits(self, holds, seconds, what):
        """Whether something holds within so many seconds. It is told as bad where not."""
        end = time.monotonic() + seconds
        while not holds():
            if time.monotonic() > end:
                self.tell_bad(f"not within {seconds:g} seconds: {what}")
                return False
            time.sleep(0.01)
        return True

    def settled(self):
        """The host that serves and the one that stands by, once both do."""
        found = []

        def is_settled():
            self.keep_hosts_alive()
            if all(replica.is_up() for replica in self.replicas):
                self.done["times that both hosts were active by chance"] += 1
                self.part(*self.replicas)
            found[:] = [pair for pair in itertools.permutations(self.replicas) if pair[0].is_up() and pair[1].is_standing_by()]
            return found

        if not self.waits(is_settled, WAIT, "one host serves and the other one stands by"):
            raise AssertionError("it isn't known who is active")
        return found[0]

    def active(self):
        """The same, while the driver is answered."""
        self.relay.begin()
        if not self.waits(lambda: self.relay.firsts, WAIT, "a host answers"):
            raise AssertionError("no host answers")
        return self.settled()

    def answers_in_place(self, other):
        """Whether the other host answers. Where both were active by chance and it is the one that was cut off, it starts again."""
        if not other.runs():
            self.done["ends of a host by itself"] += 1
            self.see_end(other, [FENCED, IN_DOUBT])
        return other.port in self.relay.firsts

    def take_over(self, kind, stop):
        """Has the active host stopped, and waits for the first answer of the other one: both, first the one that was active. What the
        other one answered before, where it was active by chance, doesn't count."""
        active, other = self.active()
        time.sleep(self.choose.uniform(0, LEASE))
        self.relay.begin()
        process, began = other.host.process, time.monotonic()
        stop(active)
        answers = self.waits(lambda: self.answers_in_place(other), WAIT, f"the other host answers after the active one was {kind}")
        if answers and other.host.process is process:
            self.take_overs.append((kind, self.relay.firsts[other.port] - began))
        return active, other

    def see_end(self, replica, why):
        """Waits for the end of a host, which has to tell one of these reasons, and starts it again as the standby."""
        status, told = replica.host.ends()
        if status != 3 or not any(reason in told for reason in why):
            self.tell_bad(f"host {replica.name} ended with status {status}, and not for {why}: {told!r}")
        replica.start_standby()

    # ---- what breaks

    def kill_active(self):
        active, _ = self.take_over("killed", lambda active: active.host.kill())
        self.done["kills of the active host"] += 1
        active.start_standby()

    def hand_over(self):
        active, _ = self.take_over("called off", lambda active: active.host.end_input())
        status, told = active.host.ends()
        if status != 0:
            self.tell_bad(f"a host that was called off ended with status {status}: {told!r}")
        self.done["times that the active host was called off"] += 1
        active.start_standby()

    def enters(self, replica):
        """Whether a host answers a new order, which has its place in the journal then. A repeat takes none."""
        if not self.answers_in_place(replica):
            return False
        with contextlib.suppress(OSError):
            peer = Peer(replica.port, patience=BOTH)
            peer.send(self.other_order())
            answers = peer.take(SPELLING, 1)
            peer.close()
            for answer in answers:
                self.relay.note(answer, True)
            return bool(answers)
        return False

    def pause_active(self):
        """The active host stands still until the other one has taken over and entered an order. It has an order to answer when it goes
        on."""
        peers = []

        def stop(active):
            peers.append(Peer(active.port, patience=BOTH))
            active.send(signal.SIGSTOP)
            self.waits(active.stands_still, WAIT, "a host that is stopped stands still")
            peers[0].send(self.other_order())

        active, other = self.take_over("stopped", stop)
        self.waits(lambda: self.enters(other), WAIT, "the host that took over enters an order")
        active.send(signal.SIGCONT)
        try:
            came = peers[0].waits_for_close()
        except TimeoutError:
            came = b"no end"
        if came:
            self.tell_bad(f"a host that was cut off answered a new order: {came!r}")
        self.done["stops of the active host"] += 1
        self.see_end(active, [FENCED])

    def tell_standby(self, other):
        """Has the standby take over at once: it is told so, or its stop file goes."""
        if self.choose.random() < 0.5:
            if (told := other.tell(b"take over")) != b"ok":
                self.tell_bad(f"a standby that is told to take over says {told!r}")
            return
        other.host.kill()
        other.start_waiting()
        self.waits(other.is_standing_by, WAIT, "a standby stands by")
        other.stop_file.unlink()

    def make_both_active(self):
        """Both hosts are active, and are asked for orders until one of them ends."""
        active, other = self.active()
        self.tell_standby(other)
        self.waits(lambda: other.is_up() or not other.runs(), BOTH, "the standby serves as it was told")
        self.done["times that both hosts were active"] += 1
        self.part(active, other)

    def kill_leader(self):
        if leader := self.members.leader():
            self.members.kill(leader)
            self.done["kills of the leader of etcd"] += 1
            time.sleep(self.choose.uniform(0.5, 3))
            self.members.start()

    def pause_member(self):
        name = self.choose.choice(NAMES)
        self.members.stop(name)
        self.done["stops of a member of etcd"] += 1
        time.sleep(self.choose.uniform(0.5, 3))
        self.members.go_on(name)

    def cut(self):
        self.relay.cut(self.choose.randrange(1, 4))
        self.done["cuts of connections"] += 1

    def rounds(self):
        """What breaks, one after the other: each kind once a round, in another order each round."""
        kinds = [self.kill_active, self.pause_active, self.make_both_active, self.hand_over, self.kill_leader, self.pause_member, self.cut]
        while True:
            self.choose.shuffle(kinds)
            yield from kinds

    def keep_hosts_alive(self):
        """Starts again whom the members left without an answer."""
        for replica in self.replicas:
            if not replica.runs():
                self.done["ends of a host by itself"] += 1
                self.see_end(replica, [FENCED, IN_DOUBT])

    def keep_driver_alive(self):
        """The driver doesn't end by itself."""
        if self.driver.poll() is not None:
            out, told = self.driver.communicate()
            self.tell_bad(f"the driver ended with status {self.driver.returncode}: {told!r} {out!r}")
            self.start_driver(breaking(self.choose))

    def begin(self):
        """Members, both hosts, and a driver."""
        self.members.start()
        first, second = self.replicas
        first.start("--new")
        first.host.listens(1)
        second.start_standby()
        self.lead.start(self.relay)
        self.relay.start()
        self.start_driver(breaking(self.choose))

    def soak(self, seconds):
        """Words that are refused, then traffic, and what breaks it."""
        refuse_all(self.command, self)
        self.begin()
        end = time.monotonic() + seconds
        for break_something in self.rounds():
            if time.monotonic() > end or self.bad:
                return
            self.keep_hosts_alive()
            self.keep_driver_alive()
            self.active()
            break_something()

    # ---- what holds

    def times(self):
        """How long each take-over took, by kinds."""
        found = {}
        for kind, took in self.take_overs:
            found.setdefault(kind, []).append(took)
        return found

    def kills(self):
        return self.done["kills of the active host"] + self.done["kills of the leader of etcd"]

    def look_at_take_overs(self):
        """Those for which the lease had to run out took three leases at most."""
        for kind, took in self.take_overs:
            if kind != "called off" and took > MOST_LEASES * LEASE:
                self.tell_bad(f"a take-over after the active host was {kind} took {took:.1f} seconds")

    def look_at_balances(self, book):
        """The balances that the journal tells are its openings and what its entries add to them."""
        pans = (*ACCOUNTS, OTHER)
        shown, sums = moved_by_ledgers(self.command, self.folder, pans, self.journal), moved_by_entries(book, pans)
        if shown != sums:
            self.tell_bad(f"the ledgers moved by {shown}, and the entries by {sums}")

    def look_at_books(self):
        """The driver closes all, and has the same on each account as the host."""
        told = self.close_all()
        if not told.get("books") or told["books"]["agree"] != len(ACCOUNTS):
            self.tell_bad(f"the driver says of its books {told.get('books')}")

    def end(self):
        """What held in the end: how many orders the journal has."""
        self.end_driver()
        self.keep_hosts_alive()
        self.look_at_books()
        active, other = self.settled()
        self.ask_all(active.port)
        active.host.end_input()
        active.host.ends()
        other.host.listens(1)
        self.ask_all(other.port)
        book = self.look_at_journal(self.journal)
        self.look_at_balances(book)
        self.look_at_take_overs()
        return len(book)

    def clear(self):
        for replica in self.replicas:
            replica.clear()
        if self.driver and self.driver.poll() is None:
            self.end_driver()
        self.members.close()


# ---- what is told

def page_of(ends, seconds, orders):
    """What was done, how often, and what held."""
    rows = "".join(f"| {what} | {count:,} |\n" for what, count in sorted(ends.done.items()) if count)
    took = "".join(f"| {kind} | {len(times):,} | {min(times):.1f} s | {sum(times) / len(times):.1f} s | {max(times):.1f} s |\n"
                   for kind, times in sorted(ends.times().items()))
    held = "all of it held" if not ends.bad else f"**it failed in {ends.bad} places**"
    return f"""## The same with two hosts over etcd

`make replicas` runs two hosts over one journal on three members of etcd, one of them as a standby, and `rumpadol drive` before a relay that
leads to the one that serves. It breaks both hosts, the members and the connections, one thing after the other. Then it leaves them
alone until each transaction is closed, and compares both books ([REPLICAS](REPLICAS.md)).

Run on {datetime.date.today():%Y-%m-%d} for {seconds / 60:g} minutes, `REPLICAS_SEED={SEED}`, with leases of {LEASE} seconds: {held}.

| What was done | How often |
|---|---|
{rows}| connections that the relay cut at random | {ends.relay.cuts:,} |

| A take-over, after the active host was | How often | At best | In the mean | At worst |
|---|---|---|---|---|
{took}
| What has to hold in the end | Looked at |
|---|---|
| each order got one answer, of whichever host: each later answer is the first one, byte for byte | {ends.relay.compared:,} answers to {len(ends.relay.answers):,} orders |
| the journal is whole, has each order once, and each that was answered with the code of its answer | {orders:,} entries |
| each balance that the host tells is the opening less what the driver's books say, and the journal's balances are those of its entries | {len(ACCOUNTS) + 1} accounts |
| a host that was cut off answers nothing new, ends and says why | {ends.done["stops of the active host"]:,} times |
"""


def main(words):
    command, seconds = program(words), 60 * float(words[1]) if len(words) > 1 else 120
    signal.signal(signal.SIGTERM, lambda number, _: sys.exit(128 + number))
    with tempfile.TemporaryDirectory() as folder:
        print(f"REPLICAS_SEED={SEED} SECONDS={seconds:g} LEASE={LEASE}", flush=True)
        ends = Replicas(command, folder)
        orders = ends.run(seconds)
    if len(words) == 3:
        write_part(pathlib.Path(words[2]), "make replicas", page_of(ends, seconds, orders))
    print(f"{len(ends.take_overs)} take-overs, {ends.relay.compared} answers compared, {ends.kills()} kills, {ends.bad} bad")
    return 1 if ends.bad else 0


if __name__ == "__main__":
    sys.exit(main(sys.argv[1:]))
