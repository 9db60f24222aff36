"""Three members of etcd for scripts, that are killed, stopped and started again, and what is put there and read of them."""
import base64
import contextlib
import json
import os
import pathlib
import random
import signal
import socket
import subprocess
import time
import urllib.error
import urllib.request

from traffic import HERE, TOP, WAIT

SCRIPT = TOP / "scripts" / "etcd-members.sh"
NAMES = "abc"
PEERS = 10               # the ports of the members among themselves come so far behind the others
PATIENCE = 10            # seconds that a member has for an answer


def are_free(ports):
    """Whether nobody has any of these ports."""
    with contextlib.ExitStack() as stack:
        try:
            for port in ports:
                stack.enter_context(socket.socket()).bind((HERE, port))
        except OSError:
            return False
    return True


def free_row():
    """The first of the ports of three members that nobody has now."""
    end = max(2048, int(pathlib.Path("/proc/sys/net/ipv4/ip_local_port_range").read_text().split()[0]))
    while True:
        first = random.randrange(end // 2, end - 2 * PEERS)
        if are_free([first + at for at in range(3)] + [first + PEERS + at for at in range(3)]):
            return first


def base64_of(text):
    return base64.b64encode(text.encode() if isinstance(text, str) else text).decode()


class Members:
    """Three members in a folder of their own. They are ended by their numbers."""

    def __init__(self, folder, *options):
        self.folder, self.options, self.first = pathlib.Path(folder), options, free_row()
        self.ports = {name: self.first + at for at, name in enumerate(NAMES)}

    def start(self):
        """Starts those that don't run, and waits for a leader."""
        words = [SCRIPT, "start", self.folder, str(self.first), *self.options]
        run = subprocess.run(words, stdin=subprocess.DEVNULL, capture_output=True, timeout=WAIT)
        if run.returncode:
            raise AssertionError(f"the members don't start: {run.stderr!r}")

    def place(self, name):
        """The words that name a journal here."""
        return "etcd://" + ",".join(f"{HERE}:{port}" for port in self.ports.values()) + f"/{name}"

    def process(self, name):
        """The number of a member's process, if it has one."""
        with contextlib.suppress(OSError, ValueError):
            return int((self.folder / f"{name}.pid").read_text())

    def send(self, name, number):
        """A signal to a member, if it runs."""
        if process := self.process(name):
            with contextlib.suppress(ProcessLookupError):
                os.kill(process, number)

    def kill(self, name):
        """Ends a member as a crash does."""
        self.send(name, signal.SIGKILL)
        self.wait_for_end(name)

    def stop(self, name):
        self.send(name, signal.SIGSTOP)

    def go_on(self, name):
        self.send(name, signal.SIGCONT)

    def wait_for_end(self, name):
        """Waits until a member is gone, and forgets it. One that doesn't end is killed."""
        end = time.monotonic() + WAIT / 6
        while (process := self.process(name)) and pathlib.Path(f"/proc/{process}").exists():
            if time.monotonic() > end:
                self.send(name, signal.SIGKILL)
            time.sleep(0.02)
        (self.folder / f"{name}.pid").unlink(missing_ok=True)

    def close(self):
        """Ends all."""
        for name in NAMES:
            self.go_on(name)
            self.send(name, signal.SIGTERM)
        for name in NAMES:
            self.wait_for_end(name)

    # ---- what they are asked

    def ask(self, name, path, **body):
        """What a member answers to a request of its JSON gateway."""
        request = urllib.request.Request(f"http://{HERE}:{self.ports[name]}/v3/{path}", json.dumps(body).encode())
        with urllib.request.urlopen(request, timeout=PATIENCE) as answer:
            return json.load(answer)

    def ask_any(self, path, **body):
        """What the first member answers that does."""
        for name in NAMES:
            with contextlib.suppress(OSError, ValueError):
                return self.ask(name, path, **body)
        raise AssertionError(f"no member answers {path}")

    def leader(self):
        """The member that leads, if one does."""
        for name in NAMES:
            with contextlib.suppress(OSError, ValueError, KeyError):
                told = self.ask(name, "maintenance/status")
                if told["header"]["member_id"] == told["leader"]:
                    return name

    def put(self, key, value):
        """Puts a value at a key, whatever stands there."""
        self.ask_any("kv/put", key=base64_of(key), value=base64_of(value))

    def get(self, key):
        """The value at a key, if there is one."""
        found = self.ask_any("kv/range", key=base64_of(key)).get("kvs")
        return base64.b64decode(found[0]["value"]) if found else None

    def fill(self, size):
        """Puts values until a member says that there is no room, at most so many bytes: whether it said so."""
        piece = "x" * (1 << 17)
        for at in range(size // len(piece) + 1):
            try:
                self.ask("a", "kv/put", key=base64_of(f"filler/{at}"), value=base64_of(piece))
            except urllib.error.HTTPError as refusal:
                return b"NOSPACE" in (told := refusal.read()) or b"space exceeded" in told
        return False
