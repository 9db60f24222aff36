#!/usr/bin/env python3
"""The acquirer's end of a host on a port: answers get lost, requests come again, and some peers misbehave.

client.py COMMAND starts `COMMAND serve ascii87 accounts.json HEADER PORT COUNT`, connects COUNT times, and compares each
answer, each line of the host and its status. It ends with status 0 only if all are as they should be.

For a host that somebody else starts: client.py --follow-case CASE HEADER writes its words and what it must write on its
output, waits for it, connects, and compares the answers.
"""
import contextlib
import os
import random
import select
import socket
import struct
import subprocess
import sys
import time

# ---- the messages

ACCOUNT = b"16" b"4111111111111111"
ACQUIRER = b"05" b"12345"

ECHO = b"0800" b"8220000000000000" b"0400000000000000" b"0102030405" b"000001" b"301"
ECHOED = b"0810" b"8220000002000000" b"0400000000000000" b"0102030405" b"000001" b"00" b"301"


def purchase(mti):
    return (mti + b"7220000100008000" + ACCOUNT + b"000000" b"000000001000" b"0102030405" b"000007" + ACQUIRER + b"840")


BOUGHT = (b"0210" b"7220000106008000" + ACCOUNT + b"000000" b"000000001000" b"0102030405" b"000007" + ACQUIRER
          + b"000002" b"00" b"840")


def reversal(mti):
    return (mti + b"8220000100000000" b"0000004000000000" b"0102030500" b"000008" + ACQUIRER
            + b"0200" b"000007" b"0102030405" b"00000012345" b"00000000000")


REVERSED = (b"0430" b"8220000102000000" b"0000004000000000" b"0102030500" b"000008" + ACQUIRER
            + b"00" b"0200" b"000007" b"0102030405" b"00000012345" b"00000000000")


def inquiry(trace):
    return b"0200" b"6220000100008000" + ACCOUNT + b"310000" b"0102030600" + trace + ACQUIRER + b"840"


def balance(trace, entry, amount):
    """The answer to an inquiry: the number of its journal entry, and the amount in element 54."""
    return (b"0210" b"6220000106008400" + ACCOUNT + b"310000" b"0102030600" + trace + ACQUIRER
            + entry + b"00" b"840" b"020" b"0002840C" + amount)


FIFTY, FORTY = b"000000005000", b"000000004000"

# ---- a connection

WAIT = 20


def framed(header, body):
    return b"%04d" % len(body) + body if header == "ascii4" else struct.pack(">H", len(body)) + body


class Peer:
    """One connection to the host."""

    def __init__(self, header, port, wait):
        self.header = header
        end = time.monotonic() + wait
        while True:
            self.socket = socket.socket()
            self.socket.settimeout(WAIT)
            try:
                self.socket.connect(("127.0.0.1", port))
                break
            except ConnectionRefusedError:
                self.socket.close()
                if time.monotonic() > end:
                    raise
                time.sleep(0.1)
        self.socket.setsockopt(socket.IPPROTO_TCP, socket.TCP_NODELAY, 1)

    def send(self, body):
        self.socket.sendall(framed(self.header, body))

    def take(self, size):
        taken = b""
        while len(taken) < size:
            piece = self.socket.recv(size - len(taken))
            if not piece:
                raise AssertionError(f"the host closed after {taken!r}")
            taken += piece
        return taken

    def expect(self, body):
        wanted = framed(self.header, body)
        got = self.take(len(wanted))
        if got != wanted:
            raise AssertionError(f"the answer is {got!r}, not {wanted!r}")

    def expect_no_more(self):
        """The host ends the connection once this end is done, and sends nothing more."""
        self.socket.shutdown(socket.SHUT_WR)
        more = self.socket.recv(1)
        if more:
            raise AssertionError(f"the host also sent {more!r}")

    def ask(self, *exchanges):
        for request, answer in exchanges:
            self.send(request)
            self.expect(answer)
        self.expect_no_more()


# ---- what a connection does, in words, and the lines with which the host may end it

def report(frames, answered, silent, unreadable):
    return f"frames={frames} answered={answered} silent={silent} unreadable={unreadable}"


def asks(words, *exchanges):
    return words, lambda peer: peer.ask(*exchanges), [report(len(exchanges), len(exchanges), 0, 0)]


def sends(words, data, *ends):
    return words, lambda peer: peer.socket.sendall(data), list(ends)


def buys_and_cuts(peer):
    """The answer has come, but nobody reads it. To close then is to cut: the system tells the host of unread bytes."""
    peer.send(purchase(b"0200"))
    select.select([peer.socket], [], [], WAIT)


def goes_byte_by_byte(peer):
    for byte in framed(peer.header, purchase(b"0201")):
        peer.socket.sendall(bytes([byte]))
        time.sleep(0.002)
    peer.expect(BOUGHT)
    peer.expect_no_more()


def sends_unreadable(bodies):
    def act(peer):
        for body in bodies:
            peer.send(body)
        peer.ask((ECHO, ECHOED))
    return act


def sends_an_answer(peer):
    peer.send(BOUGHT)
    peer.expect_no_more()


def never_reads(peer):
    """Sends until the host, whose answers nobody takes, takes no more; and then resets the connection."""
    requests = framed(peer.header, purchase(b"0201")) * 1000
    peer.socket.setsockopt(socket.SOL_SOCKET, socket.SO_RCVBUF, 4096)
    peer.socket.settimeout(0.5)
    try:
        while True:
            peer.socket.sendall(requests)
    except socket.timeout:
        pass
    resets(peer)


def resets(peer):
    """The close that follows cuts the connection."""
    peer.socket.setsockopt(socket.SOL_SOCKET, socket.SO_LINGER, struct.pack("ii", 1, 0))


SERVED = asks("the next one is served: the purchase again gets the same answer", (purchase(b"0201"), BOUGHT))
CUT = ["failed: Read", "failed: Write"]
CHANCE = bytes(random.Random(1).randrange(256) for _ in range(5000))

DAY = [
    asks("asks for the balance: 50.00", (inquiry(b"000001"), balance(b"000001", b"000001", FIFTY))),
    ("buys for 10.00, and cuts the connection before it reads the answer", buys_and_cuts, CUT),
    asks("sends the purchase again, as a repeat: approved, as the journal's entry 2", (purchase(b"0201"), BOUGHT)),
    asks("asks for the balance: 40.00, so it was posted once", (inquiry(b"000009"), balance(b"000009", b"000003", FORTY))),
    asks("reverses the purchase", (reversal(b"0420"), REVERSED)),
    asks("sends the reversal and the purchase again: the same answers", (reversal(b"0421"), REVERSED), (purchase(b"0201"), BOUGHT)),
    asks("asks for the balance: 50.00, so it was reversed once", (inquiry(b"000010"), balance(b"000010", b"000005", FIFTY))),
    ("sends one byte at a time: the same answer", goes_byte_by_byte, [report(1, 1, 0, 0)]),
    sends("closes in the middle of a frame", b"0082" + purchase(b"0201")[:10], "refused: CutFrame"),
    SERVED,
    sends("sends no frames at all", b"GET / HTTP/1.1\r\n\r\n", "refused: BadHeader"),
    SERVED,
    ("sends 9,999 bytes that are no message, and an echo test, which is answered", sends_unreadable([b"\xff" * 9999]),
     [report(2, 1, 0, 1)]),
    ("sends an answer, which gets none", sends_an_answer, [report(1, 0, 1, 0)]),
    ("never reads an answer, and resets the connection", never_reads, CUT),
    SERVED,
    ("resets the connection at once", resets, ["failed: Read"]),
    SERVED,
    sends("closes at once", b"", report(0, 0, 0, 0)),
    asks("asks for the first balance again: the first answer", (inquiry(b"000001"), balance(b"000001", b"000001", FIFTY))),
    asks("asks for the balance: 50.00 as before", (inquiry(b"000011"), balance(b"000011", b"000006", FIFTY))),
]

LONG = [
    ("sends two frames of 65,535 bytes, and an echo test, which is answered", sends_unreadable([b"0" * 65535, b"\xff" * 65535]),
     [report(3, 1, 0, 2)]),
    sends("announces 65,535 bytes, and sends ten", b"\xff\xff" + b"0" * 10, "refused: CutFrame"),
    ("resets the connection at once", resets, ["failed: Read"]),
    asks("the next one is served: an echo test", (ECHO, ECHOED)),
    sends("sends 5,000 bytes by chance, the last frame too short", CHANCE + b"\xff\xff", "refused: CutFrame"),
    asks("the next one is served: an echo test", (ECHO, ECHOED)),
]

# ---- a host, and the connections to it

HOSTS = {"ascii4": DAY, "binary2": LONG}


@contextlib.contextmanager
def held_port():
    """A free port, which the system gives to nobody else meanwhile. A host can listen there."""
    with socket.socket() as held:
        held.setsockopt(socket.SOL_SOCKET, socket.SO_REUSEADDR, 1)
        held.bind(("127.0.0.1", 0))
        yield held.getsockname()[1]


def host_words(header, port):
    return ["serve", "ascii87", "accounts.json", header, str(port), str(len(HOSTS[header]))]


def connect(header, port, wait):
    for number, (words, act, _) in enumerate(HOSTS[header], 1):
        peer = Peer(header, port, wait)
        act(peer)
        peer.socket.close()
        print(f"{header} {number}: {words}", flush=True)


def check_ends(header, told):
    steps = HOSTS[header]
    lines = told.decode().splitlines()
    if len(lines) != len(steps):
        raise AssertionError(f"{len(steps)} connections, and the lines {lines}")
    for (words, _, ends), line in zip(steps, lines):
        if line not in ends:
            raise AssertionError(f"'{words}' ended in '{line}', not in {ends}")


def serve(command, header):
    """Starts a host, and connects to it."""
    with held_port() as port, subprocess.Popen(command + host_words(header, port), stdin=subprocess.DEVNULL, stdout=subprocess.PIPE,
                                               stderr=subprocess.STDOUT) as host:
        try:
            connect(header, port, WAIT)
            told, _ = host.communicate(timeout=WAIT)
        finally:
            host.kill()
    check_ends(header, told)
    if host.returncode != 0:
        raise AssertionError(f"the host ended with status {host.returncode}")


def write_case(case, header, port):
    """What a host must write on its output, and last its words, one a line."""
    lines = [ends[0] for _, _, ends in HOSTS[header] if ends[0].startswith("frames=")]
    for name, text in ((case, []), (case + ".stdout", lines), (case + ".words", host_words(header, port))):
        with open(name, "w", encoding="ascii") as file:
            file.writelines(line + "\n" for line in text)
    os.rename(case + ".words", case + ".args")


def follow_case(case, header):
    """Writes the case of a host, and connects to it. The host may take its time to start."""
    with held_port() as port:
        write_case(case, header, port)
        connect(header, port, 900)


def main(words):
    if len(words) == 3 and words[0] == "--follow-case":
        follow_case(words[1], words[2])
    elif words:
        for header in HOSTS:
            serve(words, header)
        print("the answers and the balances are right: nothing was posted twice")
    else:
        sys.exit("client.py: which command?")


if __name__ == "__main__":
    try:
        main(sys.argv[1:])
    except (AssertionError, OSError, subprocess.TimeoutExpired) as fault:
        sys.exit(f"client.py: {fault}")
