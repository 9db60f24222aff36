"""What scripts send to a host with many peers, and what they read of it: messages, frames, connections, and the host itself.

Messages are built and read by the model of tests/model, which shares nothing with the crates.
"""
import contextlib
import json
import os
import pathlib
import random
import resource
import socket
import struct
import subprocess
import sys
import tempfile
import time

TOP = pathlib.Path(__file__).resolve().parent.parent
sys.path.insert(0, str(TOP / "tests"))

from model.frames import SIZES, body_size, frame
from model.message import Message
from model.message_type import without_repeat
from model.order import Key, Order
from model.packing import pack
from model.part import value_fault
from model.reading import read
from model.request import request
from model.table_document import built_in

HERE = "127.0.0.1"
WAIT = 60
CURRENCY = b"840"

# ---- messages

ECHO = Message("0800", {7: b"0102030405", 11: b"000001", 70: b"301"})


def key(mti, number, acquirer):
    """The key with this number: its trace number and its time come of it."""
    return Key(mti, number % 1_000_000, 101_000_000 + number // 1_000_000, acquirer)


def payment(act, number, acquirer, account, amount):
    """A debit, a credit or an inquiry of class 2."""
    return Order(key("0200", number, acquirer), act, account, CURRENCY, 0 if act == "inquiry" else amount)


def reversal(number, named):
    """The reversal of a whole payment, by its acquirer."""
    return Order(key("0420", number, named.key.acquirer), "reversal", names=named.key)


def asked(order, again=False):
    """The message that asks for an order, or its repeat."""
    message = request(order)
    return Message(message.mti[:3] + "1", message.elements) if again else message


def longest_echo(table):
    """An echo test with all elements of a table that digits alone may fill, each at its longest."""
    digits = {number: b"1" * row.max for number, row in table.rows.items()}
    filled = {number: value for number, value in digits.items() if number != 70 and not value_fault(table.rows[number], value)}
    return Message("0800", {**filled, 70: b"301"})


def accounts_document(accounts):
    """The document of accounts: each number with its opening."""
    rows = [{"currency": CURRENCY.decode(), "opening": opening, "pan": pan.decode()} for pan, opening in accounts.items()]
    return json.dumps({"accounts": rows}).encode()


# ---- frames

class Spelling:
    """How messages are written on a link: a table, a header, and bytes in front of each message, which its answer gets back."""

    def __init__(self, table, header, front=b""):
        self.name, self.table, self.header, self.front = table, built_in(table), header, front

    def framed(self, body):
        return frame(self.header, self.front + body)

    def frame(self, message):
        return self.framed(pack(self.table, message))

    def message(self, text):
        """The message of a frame."""
        return read(self.table, text[SIZES[self.header] + len(self.front):])[0]

    def without_front(self):
        return Spelling(self.name, self.header)

    def frames(self, text):
        """The whole frames at the front of these bytes, and what is left."""
        size, at, found = SIZES[self.header], 0, []
        while len(text) - at >= size:
            end = at + size + body_size(self.header, text[at:at + size])
            if end > len(text):
                break
            found.append(text[at:end])
            at = end
        return found, text[at:]


# ---- connections

def connected(port, source, patience, tries):
    """A connection to a port, which is tried again every tenth of a second where nobody listens there."""
    while True:
        tries -= 1
        try:
            return socket.create_connection((HERE, port), patience, (source, 0) if source else None)
        except ConnectionRefusedError:
            if not tries:
                raise
            time.sleep(0.1)


class Peer:
    """One connection to a host."""

    def __init__(self, port, source=None, patience=WAIT, tries=1):
        self.socket = connected(port, source, patience, tries)
        self.socket.settimeout(patience)
        self.socket.setsockopt(socket.IPPROTO_TCP, socket.TCP_NODELAY, 1)
        self.rest = b""

    def send(self, text):
        self.socket.sendall(text)

    def take(self, spelling, count):
        """So many frames; fewer where the host closes."""
        frames, self.rest = spelling.frames(self.rest)
        while len(frames) < count:
            piece = self.socket.recv(1 << 16)
            if not piece:
                break
            more, self.rest = spelling.frames(self.rest + piece)
            frames += more
        return frames

    def ask(self, spelling, *messages):
        """The frames that answer these messages, sent together."""
        self.send(b"".join(map(spelling.frame, messages)))
        return self.take(spelling, len(messages))

    def waits_for_close(self):
        """All that comes until the host closes."""
        text = self.rest
        with contextlib.suppress(ConnectionResetError):
            while piece := self.socket.recv(1 << 16):
                text += piece
        return text

    def reset(self):
        """Cuts the connection."""
        self.socket.setsockopt(socket.SOL_SOCKET, socket.SO_LINGER, struct.pack("ii", 1, 0))
        self.socket.close()

    def close(self):
        self.socket.close()


# what marks each port that this process gave, for itself and for others, as long as it runs
MARKS = []


def is_given(port):
    """Whether the port was given before, by this process or by another one that still runs. If not, it is given now."""
    mark = socket.socket(socket.AF_UNIX)
    try:
        mark.bind(f"\0rumpadol-port-{port}")
    except OSError:
        mark.close()
        return True
    MARKS.append(mark)
    return False


def free_ports(count):
    """Ports that nobody has now and that no other call gave, and that the system gives to no connection while a host is down."""
    end = max(2048, int(pathlib.Path("/proc/sys/net/ipv4/ip_local_port_range").read_text().split()[0]))
    with contextlib.ExitStack() as stack:
        held = []
        while len(held) < count:
            one = stack.enter_context(socket.socket())
            with contextlib.suppress(OSError):
                one.bind((HERE, random.randrange(end // 2, end)))
                if not is_given(one.getsockname()[1]):
                    held.append(one)
        return [one.getsockname()[1] for one in held]


# ---- hosts

class Host:
    """A host on ports, in a folder that has its documents, its journal and its log: a file, or `None` for the error stream."""

    def __init__(self, command, folder, words, log="log", journal="journal"):
        self.log = pathlib.Path(folder, log or "none")
        self.log_at = self.log.stat().st_size if self.log.is_file() else 0
        self.seen = []
        words = ["host", "--accounts", "accounts.json", "--journal", journal, *(["--log", log] if log else []), *words]
        self.process = subprocess.Popen([command, *words], cwd=folder, stdin=subprocess.PIPE, stdout=subprocess.DEVNULL,
                                        stderr=subprocess.PIPE)

    def events(self):
        """The events of its log since it was started. A line that isn't whole yet is left out."""
        if self.log.is_file():
            with self.log.open("rb") as file:
                file.seek(self.log_at)
                text = file.read()
            whole = text[:text.rfind(b"\n") + 1]
            self.log_at += len(whole)
            self.seen += map(json.loads, whole.splitlines())
        return self.seen

    def told(self, **wanted):
        """The events that have these members."""
        return [event for event in self.events() if wanted.items() <= event.items()]

    def waits_for(self, count=1, **wanted):
        """So many events that have these members, once they are told."""
        end = time.monotonic() + WAIT
        while len(found := self.told(**wanted)) < count:
            if time.monotonic() > end or self.process.poll() is not None:
                raise AssertionError(f"{len(found)} events of {count} are like {wanted}")
            time.sleep(0.02)
        return found

    def listens(self, count):
        """Waits until it listens on so many ports."""
        self.waits_for(count, event="listening")

    def end_input(self):
        """Ends its standard input."""
        self.process.stdin.close()
        self.process.stdin = None

    def ends(self):
        """Its status, and what it wrote on its error stream, once it has ended."""
        try:
            told = self.process.communicate(timeout=WAIT)[1]
        except subprocess.TimeoutExpired:
            self.kill()
            raise AssertionError("the host doesn't end") from None
        return self.process.returncode, told

    def kill(self):
        """Ends it by SIGKILL, and gives what it wrote on its error stream."""
        self.process.kill()
        return self.process.communicate()[1]


@contextlib.contextmanager
def listening(command, folder, words):
    """A host of these words, in a folder that has its documents, and its port. It is killed in the end."""
    (port,) = free_ports(1)
    process = subprocess.Popen([command, "host", "--listen", f"{HERE}:{port}", "--accounts", "accounts.json", *words], cwd=folder,
                               stdin=subprocess.PIPE, stdout=subprocess.DEVNULL, stderr=subprocess.DEVNULL)
    try:
        Peer(port, tries=100).close()
        yield port
    finally:
        process.kill()
        process.wait()


def tell_runs(runs_of):
    """Makes the runs of a class with the program that the words name, in a folder of their own, tells how many there were, and gives the status."""
    with tempfile.TemporaryDirectory() as folder:
        made = runs_of(program(sys.argv[1:]), folder)
        made.run_all()
    print(f"{made.runs} runs, {made.bad} bad")
    return 1 if made.bad else 0


def let_open_many():
    """Lets this process, and those that it starts, open as many files and connections as the system allows it."""
    most = resource.getrlimit(resource.RLIMIT_NOFILE)[1]
    resource.setrlimit(resource.RLIMIT_NOFILE, (most, most))


def on_a_stream(command, folder, spelling, frames):
    """What a host answers on standard streams, over a journal of its own."""
    journal = f"stream.{spelling.name}"
    words = ["--table", spelling.name, "--header", spelling.header, "--accounts", "accounts.json", "--journal", journal, "--new"]
    run = subprocess.run([command, "host", *words], cwd=folder, input=b"".join(frames), capture_output=True, timeout=10 * WAIT)
    if run.returncode:
        raise AssertionError(f"the host on a stream ended with status {run.returncode}: {run.stderr!r}")
    return spelling.frames(run.stdout)[0]


def journal_told(command, folder, *words):
    """The lines that `rumpadol journal` writes of the journal."""
    run = subprocess.run([command, "journal", *words], cwd=folder, capture_output=True, timeout=10 * WAIT)
    if run.returncode:
        raise AssertionError(f"journal {words} ended with status {run.returncode}: {run.stderr!r}")
    return run.stdout.splitlines()


def entries(command, folder, journal="journal"):
    """The entries of the journal, in their order."""
    return [json.loads(line) for line in journal_told(command, folder, "export", journal, "--json")]


def key_of_entry(entry):
    """The key of an entry that was exported."""
    return Key(entry["type"], int(entry["trace"]), int(entry["time"]), int(entry["acquirer"]))


def program(words):
    """The program that the words name, by its whole path."""
    if not words or not os.access(words[0], os.X_OK):
        sys.exit(f"{pathlib.Path(sys.argv[0]).name}: which program?")
    return os.path.abspath(words[0])
