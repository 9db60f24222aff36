"""The kinds of bad peers that peers.py sends to its host, one after the other.

Each gets the run: the host, its ports, and how its links are spelled and limited. It raises an `AssertionError`, an `OSError` or
what a missing member raises, where the host does anything but what docs/HOST.md says, and where the log doesn't tell of it.
"""
import random
import socket
import time

from traffic import ECHO, WAIT, Peer, asked, longest_echo, payment

MANY = 1000             # so many connect at once
STRANGER = "127.0.0.2"  # an address of this machine that is of no network of the link
FOREIGN = 999           # an acquirer that the link doesn't speak for


def silent(run):
    """Connects, and sends nothing."""
    peer = Peer(run.ports["atm"])
    number = run.number_of(peer)
    assert peer.waits_for_close() == b"", "it was answered"
    run.closed(number, "idle")


def one_byte_a_second(run):
    """Sends a byte a second, until the host has enough of it."""
    peer = Peer(run.ports["pos"])
    number = run.number_of(peer)
    for byte in run.pos.frame(ECHO)[:run.limits["frame"] + 3]:
        if run.host.told(event="closed", connection=number):
            break
        try:
            peer.send(bytes([byte]))
        except OSError:
            break
        time.sleep(1)
    run.closed(number, "unfinished-frame")


def never_reading(run):
    """Sends echo tests and takes no answer."""
    peer = Peer(run.ports["atm"])
    number = run.number_of(peer)
    peer.socket.setsockopt(socket.SOL_SOCKET, socket.SO_RCVBUF, 4096)
    peer.socket.settimeout(0.2)
    end, text, at = time.monotonic() + WAIT, run.atm.frame(ECHO) * 1000, 0
    while time.monotonic() < end and not run.host.told(event="closed", connection=number):
        try:
            at = (at + peer.socket.send(text[at:])) % len(text)
        except TimeoutError:
            pass
        except OSError:
            break
    run.closed(number, "does-not-read")


def half_a_frame(run):
    """Sends half a frame, and is gone."""
    peer = Peer(run.ports["atm"])
    number = run.number_of(peer)
    peer.send(run.atm.frame(ECHO)[:30])
    peer.close()
    run.closed(number, "cut-frame")


def reset(run):
    """Sends half a frame, and resets the connection."""
    peer = Peer(run.ports["pos"])
    number = run.number_of(peer)
    peer.send(run.pos.frame(ECHO)[:10])
    peer.reset()
    run.closed(number, "failed", "cut-frame")


def garbage(run):
    """Sends frames of random bytes, which are no messages. The echo test behind them is answered."""
    draw = random.Random(run.seed)
    for link in ("atm", "pos", "tpdu"):
        spelling, peer = run.spellings[link], Peer(run.ports[link])
        number = run.number_of(peer)
        bodies = [b"\xff" + draw.randbytes(draw.choice((0, 1, 3, 81, 900))) for _ in range(50)]
        peer.send(b"".join(map(spelling.framed, bodies)))
        answers = peer.ask(spelling, ECHO)
        assert [spelling.message(answer).mti for answer in answers] == ["0810"], f"{answers} answers an echo test behind garbage"
        run.host.waits_for(len(bodies), event="unreadable", connection=number)
        peer.close()
        assert run.closed(number, "ended")["unreadable"] == len(bodies), "the frames that can't be read weren't counted"


def bad_header(run):
    """Sends what is no header."""
    peer = Peer(run.ports["atm"])
    number = run.number_of(peer)
    peer.send(b"GET / HTTP/1.1\r\n\r\n")
    assert peer.waits_for_close() == b"", "it was answered"
    run.closed(number, "bad-header")


def largest_frames(run):
    """Sends the longest bodies that a header can count, and the longest echo test, which is answered."""
    for link, most in (("atm", 9999), ("pos", 65535)):
        spelling, peer = run.spellings[link], Peer(run.ports[link])
        number = run.number_of(peer)
        peer.send(3 * spelling.framed(b"0" * most))
        peer.send(spelling.framed(b""))
        asking = longest_echo(spelling.table) if link == "pos" else ECHO
        answers = peer.ask(spelling, asking)
        assert [spelling.message(answer).elements[39] for answer in answers] == [b"00"], f"the longest echo test got {answers}"
        run.host.waits_for(4, event="unreadable", connection=number)
        peer.close()
        run.closed(number, "ended")


def thousand_connects(run):
    """Connects a thousand times at once, and asks for an answer on each."""
    peers = [Peer(run.ports["atm"]) for _ in range(MANY)]
    for peer in peers:
        peer.send(run.atm.frame(ECHO))
    answers = [peer.take(run.atm, 1) for peer in peers]
    assert answers[0] and answers == [answers[0]] * MANY, f"not each of {MANY} echo tests got the answer {answers[0]}"
    last = run.number_of(peers[-1])
    for peer in peers:
        peer.close()
    run.closed(last, "ended")
    run.host.waits_for(MANY, event="connected", link="atm")


def too_many(run):
    """Connects more often than the link allows: those beyond are closed at once."""
    before = len(run.host.told(event="refused", why="peers"))
    peers = [Peer(run.ports["pos"]) for _ in range(run.allowed["pos"] + 4)]
    run.refused("peers", before + 5)
    for peer in peers[-4:]:
        assert peer.waits_for_close() == b"", "a peer too many was answered"
    for peer in peers:
        peer.close()
    end = time.monotonic() + WAIT
    while time.monotonic() < end:
        peer = Peer(run.ports["pos"])
        try:
            if peer.ask(run.pos, ECHO):
                return
        except OSError:
            time.sleep(0.05)
        finally:
            peer.close()
    raise AssertionError("once they are gone no other peer is let in")


def wrong_network(run):
    """Connects from an address that isn't of the link's networks."""
    peer = Peer(run.ports["pos"], STRANGER)
    try:
        peer.send(run.pos.frame(ECHO))
    except OSError:
        pass
    assert peer.waits_for_close() == b"", "a stranger was answered"
    run.refused("network")


def foreign_acquirer(run):
    """Speaks for an acquirer that its link isn't for: 12, and nothing is entered."""
    peer = Peer(run.ports["pos"])
    number = run.number_of(peer)
    order = payment("debit", 900_001, FOREIGN, run.account, 100)
    answers = peer.ask(run.pos, asked(order), ECHO)
    codes = [run.pos.message(answer).elements[39] for answer in answers]
    assert codes == [b"12", b"00"], f"the codes are {codes}"
    run.host.waits_for(event="foreign", connection=number)
    peer.close()
    run.closed(number, "ended")


def bad_reader_of_metrics(run):
    """Sends half a request, and what is no request, to the address of the metrics."""
    slow = Peer(run.metrics)
    slow.send(b"GET /metr")
    wrong = Peer(run.metrics)
    wrong.send(b"\x00\x01\x02\r\n\r\n")
    text = wrong.waits_for_close()
    assert text == b"" or text.startswith(b"HTTP/1.1 400 "), f"what is no request got {text!r}"
    assert run.get("/nothing")[0] == 404, "a page that isn't there is found"
    slow.waits_for_close()


KINDS = [silent, one_byte_a_second, never_reading, half_a_frame, reset, garbage, bad_header, largest_frames, thousand_connects,
         too_many, wrong_network, foreign_acquirer, bad_reader_of_metrics]
