#!/usr/bin/env python3
"""Starts the command as a host on a port for each row of crates/iso_cli/rows/port.json, and compares what comes of it.

port-rows.py COMMAND prints each row that fails, with what differs, and as its last line how many passed and failed. A row takes a
free port. Those that test how a port is written have one of their own: such a row waits while somebody else has it, and is left
out where that doesn't end; a line says so.

The document has "texts", which its rows name; what a text is, rows.py says. A row of "words" has
    "words"              behind the program's name; "@TAKEN" is a port at which this script listens
    "serves"             [PORT, COUNT] of the host that they name, none by default. Its first peer sends a purchase and an inquiry,
                         which show its table, its accounts and an empty journal, and the others send nothing
A row of "hosts" has
    "header"             ascii4 by default
    "peers"              who connect in this order, none by default: the host accepts the first once the last has sent all
    "accepts that fail"  so many behind them, none by default: the system then gives the host no descriptor
    "entered"            how many orders it has entered then: one more peer sends another purchase, and the answer has the number.
                         A row without it has no such peer
    "refused at"         another address of this machine, at which the host that waits for that peer isn't reached
A peer has "sent", in segments of "segment" bytes; and "answered", which is all that it gets, or null where nobody looks; or "gone",
true where it closes before it is answered. Each row may have
    "output takes"       so many bytes, before a write to the output fails
    "faults take"        the same of the fault stream, where none is the only number
    "status"             with which the command ends, 0 by default
    "output", "faults"   what it writes and tells, nothing by default
"""
import array
import contextlib
import errno
import fcntl
import os
import pathlib
import resource
import signal
import socket
import struct
import subprocess
import sys
import tempfile
import termios
import time

from rows import DOCUMENTS, read, text_of

HERE = "127.0.0.1"
WAIT = 20

# ---- bytes

def framed(header, body):
    return b"%04d" % len(body) + body if header == "ascii4" else struct.pack(">H", len(body)) + body


def shown(value):
    """A value, cut where it is long."""
    text = repr(value)
    return text if len(text) <= 400 else f"{text[:300]}.. ({len(value)} bytes)"


def difference(what, got, wanted):
    """What to say of this, unless it is as wanted."""
    return [] if got == wanted else [f"{what} {shown(got)}, not {shown(wanted)}"]

# ---- the command

PIPE = 4096
FAILED_READ = "failed: Read\n"


def filler(fails):
    """What lies in the fault stream before its first line, so that it has room for the lines of these accepts but the last."""
    return b"\n" * (PIPE - 1 - len(FAILED_READ) * (fails - 1))


def set_devices(row):
    """Does in the started process, before the command is there, what the row's devices need."""
    if row.get("output takes"):
        signal.signal(signal.SIGXFSZ, signal.SIG_IGN)
        resource.setrlimit(resource.RLIMIT_FSIZE, (row["output takes"], row["output takes"]))
    if "accepts that fail" in row:
        os.write(2, filler(row["accepts that fail"]))


@contextlib.contextmanager
def started(command, words, folder, row):
    """The command on these words. Its output is a file and its fault stream a pipe of one page, unless they take nothing."""
    device = "/dev/full" if row.get("output takes") == 0 else f"{folder}/output"
    with open(device, "wb") as output, open("/dev/full", "wb") as full:
        faults = full if row.get("faults take") == 0 else subprocess.PIPE
        host = subprocess.Popen([command, *words], cwd=folder, stdin=subprocess.DEVNULL, stdout=output, stderr=faults, bufsize=0,
                                pipesize=PIPE, preexec_fn=lambda: set_devices(row))
    with host:
        try:
            yield host
        finally:
            host.kill()


def stop(host):
    """Stops the command, so that it accepts nobody until it goes on."""
    os.kill(host.pid, signal.SIGSTOP)
    if os.waitid(os.P_PID, host.pid, os.WSTOPPED | os.WEXITED | os.WNOWAIT).si_code != os.CLD_STOPPED:
        _, faults = host.communicate(timeout=WAIT)
        raise AssertionError(f"the command ended before its peers, with status {host.returncode}, and told {faults!r}")


def go_on(host):
    os.kill(host.pid, signal.SIGCONT)


def differences_of_end(host, folder, row, texts, more_output=b"", told=b""):
    """What differs at the end of the command. More may come behind the row's output, and some faults be taken already."""
    _, faults = host.communicate(timeout=WAIT)
    file = pathlib.Path(folder, "output")
    output = file.read_bytes() if file.exists() else b""
    return [*difference("the output is", output, text_of(row.get("output", []), texts) + more_output),
            *difference("the fault stream is", told + (faults or b""), text_of(row.get("faults", []), texts)),
            *difference("the status is", host.returncode, row.get("status", 0))]

# ---- the peers of a host

def connect(port):
    return socket.create_connection((HERE, port), timeout=WAIT)


def connect_first(host, port):
    """The first connection to a host. The host is stopped wherever this connects, and goes on for ever longer until it listens."""
    pause = 0.002
    while pause < WAIT:
        stop(host)
        try:
            return connect(port)
        except ConnectionRefusedError:
            go_on(host)
            time.sleep(pause)
            pause *= 1.5
    raise AssertionError("the command doesn't listen")


def send(stream, data, segment=100_000):
    """Sends all in segments, and then no more."""
    stream.setsockopt(socket.IPPROTO_TCP, socket.TCP_NODELAY, 1)
    for at in range(0, len(data), segment):
        stream.sendall(data[at:at + segment])
    stream.shutdown(socket.SHUT_WR)


def receive(stream):
    """All that comes until the other end sends no more."""
    data = b""
    while piece := stream.recv(65536):
        data += piece
    return data


def ask(port, data):
    """All that a peer is answered that sends this."""
    with connect(port) as stream:
        send(stream, data)
        return receive(stream)


def connect_all(host, port, peers, texts):
    """The streams of these peers. Each has sent all before the host accepts the first."""
    streams = []
    for peer in peers:
        streams.append(connect(port) if streams else connect_first(host, port))
        send(streams[-1], text_of(peer.get("sent", []), texts), peer.get("segment", 100_000))
        if "gone" in peer:
            streams[-1].close()
    if streams:
        go_on(host)
    return streams


def differences_of_peers(host, port, peers, texts):
    """Connects these peers, and says what differs in their answers."""
    streams = connect_all(host, port, peers, texts)
    differences = []
    for stream, peer in zip(streams, peers):
        answered = peer.get("answered", [])
        if answered is not None and "gone" not in peer:
            differences += difference(f"{peer['name']} is answered", receive(stream), text_of(answered, texts))
    for stream in streams:
        stream.close()
    return differences


def differences_of_number(port, header, entered, texts):
    """Connects a peer that sends another purchase, and says whether its answer has the number behind so many orders."""
    wanted = text_of(["@SECOND_GRANTED_AS", f"{entered + 1:06}", "@APPROVED"], texts)
    return difference("the other purchase is answered", ask(port, framed(header, text_of("@SECOND", texts))), framed(header, wanted))


def be_refused(address, port):
    """Raises where a host, which waits for a peer, is reached at another address."""
    try:
        socket.create_connection((address, port), timeout=WAIT).close()
    except ConnectionRefusedError:
        return
    raise AssertionError(f"the host is reached at {address}")

# ---- accepts that fail

def is_blocked(host, size):
    """Whether its fault stream holds so many bytes, and the host waits: it only can for room in that stream."""
    held = array.array("i", [0])
    fcntl.ioctl(host.stderr, termios.FIONREAD, held)
    state = pathlib.Path(f"/proc/{host.pid}/stat").read_text(encoding="latin-1").rpartition(") ")[2][0]
    return held[0] == size and state == "S"


def fail_accepts(host, fails):
    """Lets so many accepts fail, and takes what the host has told of all but the last.

    The host gets no descriptor behind those of its three streams and the listener, until it waits to tell the last."""
    stop(host)
    soft, hard = resource.prlimit(host.pid, resource.RLIMIT_NOFILE)
    resource.prlimit(host.pid, resource.RLIMIT_NOFILE, (4, hard))
    go_on(host)
    size = len(filler(fails)) + len(FAILED_READ) * (fails - 1)
    end = time.monotonic() + WAIT
    while not is_blocked(host, size):
        if time.monotonic() > end:
            raise AssertionError("no accept fails")
        time.sleep(0.001)
    resource.prlimit(host.pid, resource.RLIMIT_NOFILE, (soft, hard))
    return os.read(host.stderr.fileno(), size)[len(filler(fails)):]

# ---- a row

def held_port(listens=False):
    """A port that nobody else gets before the socket is closed. A host can listen there, unless this one does."""
    held = socket.socket()
    held.setsockopt(socket.SOL_SOCKET, socket.SO_REUSEADDR, 1)
    held.bind((HERE, 0))
    if listens:
        held.listen()
    return held


def differences_of_host(command, folder, row, texts):
    """Starts a host, connects its peers, and says what differs."""
    header, peers, fails = row.get("header", "ascii4"), row.get("peers", []), row.get("accepts that fail", 0)
    count = len(peers) + fails + ("entered" in row)
    with held_port() as held:
        port = held.getsockname()[1]
        with started(command, ["serve", "ascii87", "accounts.json", header, str(port), str(count)], folder, row) as host:
            differences = differences_of_peers(host, port, peers, texts)
            told = fail_accepts(host, fails) if fails else b""
            more_output = b""
            if "refused at" in row:
                be_refused(row["refused at"], port)
            if "entered" in row:
                differences += differences_of_number(port, header, row["entered"], texts)
                more_output = text_of("@ONE_ANSWERED", texts)
            return differences + differences_of_end(host, folder, row, texts, more_output, told)


FIRST = {"name": "the first peer", "sent": ["0082", "@PURCHASE", "0070", "@INQUIRY"], "answered": ["0090", "@GRANTED", "0101", "@SHOWN"]}


def differences_of_words(command, folder, row, texts):
    """Starts the command on a row's words, connects to the host that they name, and says what differs."""
    with held_port(listens=True) as taken:
        words = [str(taken.getsockname()[1]) if word == "@TAKEN" else word for word in row["words"]]
        with started(command, words, folder, row) as host:
            differences = []
            if "serves" in row:
                port, count = row["serves"]
                differences += differences_of_peers(host, port, [FIRST], texts)
                for _ in range(1, count):
                    differences += difference("a peer that sends nothing is answered", ask(port, b""), b"")
            return differences + differences_of_end(host, folder, row, texts)

# ---- all rows

def system_says(port):
    """The system's fault for who wants this port, if any."""
    with socket.socket() as tried:
        tried.setsockopt(socket.SOL_SOCKET, socket.SO_REUSEADDR, 1)
        try:
            tried.bind((HERE, port))
        except OSError as fault:
            return fault.errno
    return None


def as_system_lets(row):
    """The row; or a read that fails, where the system refuses its port; or none, where somebody else has it for long."""
    says = system_says(row["serves"][0]) if "serves" in row else None
    end = time.monotonic() + WAIT
    while says == errno.EADDRINUSE and time.monotonic() < end:
        time.sleep(0.1)
        says = system_says(row["serves"][0])
    if says in (errno.EACCES, errno.EPERM):
        return {"name": row["name"], "words": row["words"], "status": 3, "faults": [FAILED_READ]}
    return None if says == errno.EADDRINUSE else row


def differences_in_folder(differences_of, command, files, row, texts):
    """What differs in a row that has a folder of its own."""
    with tempfile.TemporaryDirectory() as folder:
        for name, text in files.items():
            pathlib.Path(folder, name).write_bytes(text_of(text, texts))
        try:
            return differences_of(command, folder, row, texts)
        except (AssertionError, OSError, subprocess.SubprocessError) as fault:
            return [str(fault)]


def differences_of_row(differences_of, command, files, row, texts):
    """What differs in a row, which is played again where somebody took its port once it was found free."""
    for _ in range(3):
        differences = differences_in_folder(differences_of, command, files, row, texts)
        if not differences or "serves" not in row or system_says(row["serves"][0]) != errno.EADDRINUSE:
            break
        time.sleep(1)
    return differences


def only_run():
    """A socket that one run of this script has at a time, as its rows name ports that one host has at a time."""
    held = socket.socket(socket.AF_UNIX)
    end = time.monotonic() + WAIT
    while True:
        try:
            held.bind("\0scripts/port-rows.py")
            return held
        except OSError:
            if time.monotonic() > end:
                sys.exit("port-rows.py: another run of it doesn't end")
            time.sleep(0.05)


def main(command):
    document = read(DOCUMENTS / "port.json")
    texts = document["texts"]
    passed = failed = 0
    for kind, differences_of in (("words", differences_of_words), ("hosts", differences_of_host)):
        for row in document[kind]:
            played = as_system_lets(row)
            if not played:
                print(f"LEFT OUT a row of scripts/port-rows.py: somebody else has the port of '{row['name']}'")
                continue
            differences = differences_of_row(differences_of, command, document["files"], played, texts)
            for line in differences:
                print(f"FAILED scripts/port-rows.py '{row['name']}': {line}")
            failed += bool(differences)
            passed += not differences
    print(f"scripts/port-rows.py: {passed} rows passed, {failed} failed")
    sys.exit(1 if failed else 0)


if __name__ == "__main__":
    if len(sys.argv) != 2:
        sys.exit("port-rows.py: which command?")
    with only_run():
        main(os.path.abspath(sys.argv[1]))
