"""Journals on etcd that no host may serve: each is refused by its own sentence and its status, and nothing is answered."""
import contextlib
import re
import socket
import subprocess
import threading

from ends import ACCOUNTS, SPELLING
from members import Members
from traffic import HERE, WAIT, accounts_document, asked, free_ports, payment

PAN = next(iter(ACCOUNTS))
ACQUIRER = 77
QUOTA = 1 << 24          # bytes of members that get full
EXTRA = b"340000000000009"

REFUSED, FAILED = 1, 3


class Stub(threading.Thread):
    """A port on which something else than etcd says these bytes to whoever asks."""

    def __init__(self, says):
        super().__init__(daemon=True)
        self.says, self.held = says, []
        self.listener = socket.create_server((HERE, 0))
        self.port = self.listener.getsockname()[1]

    def run(self):
        with contextlib.suppress(OSError):
            while True:
                peer, _ = self.listener.accept()
                self.held.append(peer)
                peer.recv(1 << 16)
                if self.says:
                    peer.sendall(self.says)
                    peer.close()


PAGE = b"HTTP/1.1 200 OK\r\nContent-Length: 5\r\n\r\nhello"
NOT_FOUND = b"HTTP/1.1 404 Not Found\r\nContent-Length: 0\r\n\r\n"
SHELL = b"SSH-2.0-OpenSSH_9.2\r\n"


class Refusals:
    """Runs of a host on its standard streams, whose one purchase gets no answer, or gets one."""

    def __init__(self, command, ends):
        self.command, self.folder, self.ends = command, ends.folder, ends
        self.runs = self.number = 0

    def run(self, journal, *words, accounts="accounts.json"):
        """A host that is asked for one new purchase: its status, what it answered, and what it told."""
        self.number += 1
        frame = SPELLING.frame(asked(payment("debit", self.number, ACQUIRER, PAN, 1)))
        words = ["host", "--table", SPELLING.name, "--header", SPELLING.header, "--accounts", accounts, "--journal", journal,
                 "--etcd-timeout", "1000", "--give-up", "3", "--lease", "2", *words]
        run = subprocess.run([self.command, *words], cwd=self.folder, input=frame, capture_output=True, timeout=WAIT)
        return run.returncode, run.stdout, run.stderr.decode(errors="replace")

    def refused(self, name, status, sentence, journal, *words, accounts="accounts.json"):
        """A run that is refused so."""
        self.runs += 1
        got, answer, told = self.run(journal, *words, accounts=accounts)
        if answer:
            self.ends.tell_bad(f"{name}: {answer!r} was answered")
        if got != status or not re.search(sentence, told):
            self.ends.tell_bad(f"{name}: status {got} and {told!r}, where {status} and {sentence!r} are wanted")

    def served(self, name, journal, *words):
        """A run whose purchase is answered."""
        self.runs += 1
        status, answer, told = self.run(journal, *words)
        frames, rest = SPELLING.frames(answer)
        if status != 0 or len(frames) != 1 or rest or SPELLING.message(frames[0]).elements[39] != b"00":
            self.ends.tell_bad(f"{name}: status {status}, {told!r}, and {answer!r} was answered")


def refuse_ports(refusals):
    """Members that aren't there, or aren't members."""
    place = ",".join(f"{HERE}:{port}" for port in free_ports(2))
    refusals.refused("nobody", FAILED, "no member", f"etcd://{place}/day")
    for name, says in (("a page", PAGE), ("no such path", NOT_FOUND), ("another protocol", SHELL), ("silence", b"")):
        stub = Stub(says)
        stub.start()
        refusals.refused(name, FAILED, "member", f"etcd://{HERE}:{stub.port}/day")


def refuse_names(refusals, members):
    """Journals that aren't there, or are, or are others."""
    (refusals.folder / "others.json").write_bytes(accounts_document(ACCOUNTS | {EXTRA: 1}))
    journal = members.place("refused")
    refusals.refused("none of this name", REFUSED, "no journal of this name", journal)
    refusals.served("a new one", journal, "--new")
    refusals.refused("made twice", REFUSED, "there is a journal of this name already", journal, "--new")
    refusals.refused("other accounts", REFUSED, "accounts", journal, accounts="others.json")
    refusals.served("the same again", journal)
    members.put("refused/batch/0000000003", "not a batch")
    refusals.refused("a batch that can't be read", REFUSED, r"damaged.* 3\b", journal)


def refuse_full(refusals, folder):
    """Members that are full."""
    members = Members(folder / "full", f"--quota-backend-bytes={QUOTA}")
    try:
        members.start()
        journal = members.place("full")
        refusals.served("a new one on small members", journal, "--new")
        if not members.fill(2 * QUOTA):
            refusals.ends.tell_bad("the small members don't get full")
        refusals.refused("no room", FAILED, "NOSPACE|quota|room", journal)
    finally:
        members.close()


def refuse_strangers(refusals, members, folder):
    """Members of two clusters."""
    others = Members(folder / "others")
    try:
        others.start()
        first, second = members.ports["a"], others.ports["b"]
        refusals.refused("two clusters", REFUSED, "another cluster", f"etcd://{HERE}:{first},{HERE}:{second}/refused")
    finally:
        others.close()


def refuse_all(command, ends):
    """All of them, with the members of these ends: how many there were."""
    refusals = Refusals(command, ends)
    ends.members.start()
    refuse_ports(refusals)
    refuse_names(refusals, ends.members)
    refuse_full(refusals, ends.folder)
    refuse_strangers(refusals, ends.members, ends.folder)
    print(f"{refusals.runs} journals that were served or refused", flush=True)
