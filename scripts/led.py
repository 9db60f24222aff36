"""Hosts over one journal on etcd, and which of them connections are led to, as a proxy does."""
import contextlib
import http.client
import os
import pathlib
import socket
import threading
import time

from ends import SPELLING
from traffic import HERE, WAIT, Host, free_ports

LEASE = int(os.environ.get("REPLICAS_LEASE", "2"))          # seconds
CALL = 500 * LEASE       # milliseconds of one call of etcd
GIVE_UP = 20             # seconds for a batch in doubt
CHECK = 0.1              # seconds between two looks at a host
SLOW = LEASE / 4         # seconds in which a host says that it serves, or doesn't


class Replica:
    """One of the hosts over a journal: where it serves, where it tells so, and where it is told to take over."""

    def __init__(self, command, folder, name, journal):
        self.command, self.folder, self.name, self.journal = command, folder, name, journal
        self.port, self.metrics, self.control = free_ports(3)
        self.stop_file = folder / f"{name}.stop"
        self.host = None

    def start(self, *words):
        words = ["--listen", f"{HERE}:{self.port}", "--table", SPELLING.name, "--header", SPELLING.header,
                 "--metrics", f"{HERE}:{self.metrics}", "--lease", str(LEASE), "--etcd-timeout", str(CALL), "--give-up", str(GIVE_UP), *words]
        self.host = Host(self.command, self.folder, words, log=f"{self.name}.log", journal=self.journal)

    def start_standby(self, *words):
        self.start("--standby", "--control", f"{HERE}:{self.control}", *words)

    def start_waiting(self):
        """As a standby that takes over once its stop file goes."""
        self.stop_file.touch()
        self.start_standby("--stop-file", str(self.stop_file))

    def runs(self):
        return self.host.process.poll() is None

    def is_up(self):
        """Whether it says that it serves."""
        with contextlib.suppress(OSError, http.client.HTTPException):
            page = http.client.HTTPConnection(HERE, self.metrics, timeout=SLOW)
            page.request("GET", "/health")
            return page.getresponse().status == 200
        return False

    def is_standing_by(self):
        """Whether it can be told to take over."""
        with contextlib.suppress(OSError):
            socket.create_connection((HERE, self.control), SLOW).close()
            return True
        return False

    def tell(self, line):
        """What its control address answers to a line."""
        with socket.create_connection((HERE, self.control), WAIT / 6) as peer:
            peer.sendall(line + b"\n")
            return peer.recv(100).strip()

    def send(self, number):
        """A signal to it."""
        self.host.process.send_signal(number)

    def stands_still(self):
        """Whether the system has stopped it."""
        told = pathlib.Path(f"/proc/{self.host.process.pid}/stat").read_text()
        return told.rpartition(")")[2].split()[0] == "T"

    def clear(self):
        if self.host and self.runs():
            self.host.kill()


class Lead:
    """Which host new connections go to: one that says that it serves, and the same one as long as it does."""

    def __init__(self, replicas):
        self.replicas, self.relay = replicas, None
        self.up, self.port = set(), None

    def watch(self, replica):
        """Asks a host again and again. One that doesn't serve any more loses its connections."""
        while True:
            if replica.is_up():
                self.up.add(replica.port)
            elif replica.port in self.up:
                self.up.discard(replica.port)
                self.relay.leave(replica.port)
            time.sleep(CHECK)

    def start(self, relay):
        self.relay = relay
        for replica in self.replicas:
            threading.Thread(target=self.watch, args=(replica,), daemon=True).start()

    def __call__(self):
        """The port of the host, or `None` where none serves."""
        if self.port not in self.up:
            self.port = min(self.up, default=None)
        return self.port
