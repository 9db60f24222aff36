#!/usr/bin/env python3
"""Both ends as processes, and everything between them breaks: soak.py PROGRAM MINUTES [PAGE]

PROGRAM is the built rumpadol. `rumpadol host` serves over its journal, `rumpadol drive` buys over its diary, and a relay between
them notes each request and each answer. For so many minutes, at random moments,

- the host or the driver is killed by SIGKILL, and started again by the same words,
- either is stopped for a while by SIGSTOP, as a slow machine is,
- the relay cuts connections,
- the device of the journals is full for a while,
- the driver loses, repeats and delays its own traffic, and waits another time for answers each time it starts.

Then all is left alone until the driver has closed each transaction. In the end

- each balance that the host tells is its opening less what the driver's books say (`--check`),
- the journal is whole and has each key once, and each order with the code that it was answered,
- each answer that the relay saw to an order is the same, byte for byte, and so is the one to the same order asked once more.

The last line is `H kills of the host, D of the driver, M orders, N answers compared, B bad`, and the status is 0 where B is 0. PAGE gets
what was done, how often, and what held. SOAK_SEED draws the same faults again, though not the same moments.
"""
import contextlib
import datetime
import os
import pathlib
import random
import signal
import subprocess
import sys
import tempfile
import time

from ends import ACCOUNTS, SPELLING, Ends, breaking, write_part
from traffic import HERE, Host, accounts_document, free_ports, program

SEED = int(os.environ.get("SOAK_SEED", "0")) or random.randrange(1, 1 << 32)
DEVICE = 64 << 20        # bytes of the device of the journals, for each minute


# ---- a device that can be full

class Device:
    """A folder on a small file system of its own, where the system lets one be mounted."""

    def __init__(self, folder, size):
        self.folder, self.filler = folder, folder / "filler"
        words = ["mount", "-t", "tmpfs", "-o", f"size={size}", "tmpfs", str(folder)]
        self.is_small = subprocess.run(words, capture_output=True).returncode == 0
        self.full = 0

    def fill(self):
        """Takes all that is free."""
        if self.is_small:
            self.full += 1
            with contextlib.suppress(OSError), self.filler.open("wb", buffering=0) as file:
                while True:
                    file.write(bytes(1 << 16))

    def free(self):
        self.filler.unlink(missing_ok=True)

    def close(self):
        if self.is_small:
            subprocess.run(["umount", "-l", str(self.folder)], check=False)


# ---- both ends

class Soak(Ends):
    """The host, the driver, what was done to them, and what was wrong."""

    def __init__(self, command, folder, seconds):
        port, self.host_port = free_ports(2)
        super().__init__(command, pathlib.Path(folder), port, lambda: self.host_port)
        self.choose = random.Random(SEED)
        self.host = None
        self.device = Device(self.folder, int(DEVICE * max(1, seconds / 60)))
        (self.folder / "accounts.json").write_bytes(accounts_document(ACCOUNTS))

    def start_host(self):
        new = [] if (self.folder / "journal").exists() else ["--new"]
        words = ["--listen", f"{HERE}:{self.host_port}", "--table", SPELLING.name, "--header", SPELLING.header, *new]
        (self.folder / "log").unlink(missing_ok=True)
        self.host = Host(self.command, self.folder, words)
        self.done["starts of the host"] += 1

    def start_breaking(self):
        """A driver that breaks its own traffic."""
        self.start_driver(breaking(self.choose))

    def keep_alive(self):
        """Starts again whom a full device ended. Nobody else ends by himself."""
        if self.host.process.poll() is not None:
            status, told = self.host.ends()
            if not self.is_of_a_full_device(told):
                self.tell_bad(f"the host ended with status {status}: {told!r}")
            self.start_host()
        if self.driver.poll() is not None:
            out, told = self.driver.communicate()
            if not self.is_of_a_full_device(told) and self.driver.returncode != 0:
                self.tell_bad(f"the driver ended with status {self.driver.returncode}: {told!r} {out!r}")
            self.start_breaking()

    def is_of_a_full_device(self, told):
        """Whether an end stopped for a device that is, or just was, full."""
        is_so = b"kept" in told or b"no room" in told or b"made" in told
        self.done["ends for a full device"] += is_so
        return is_so and self.device.full > 0

    # ---- what breaks

    def kill_host(self):
        self.host.kill()
        self.done["kills of the host"] += 1
        time.sleep(self.choose.uniform(0, 0.5))
        self.start_host()

    def kill_driver(self):
        self.end_driver()
        self.done["kills of the driver"] += 1
        time.sleep(self.choose.uniform(0, 0.5))
        self.start_breaking()

    def kill_both(self):
        self.end_driver()
        self.done["kills of the driver"] += 1
        self.kill_host()
        self.start_breaking()

    def stop_for_a_while(self, process, whom):
        process.send_signal(signal.SIGSTOP)
        time.sleep(self.choose.uniform(0.1, 2))
        process.send_signal(signal.SIGCONT)
        self.done[f"stops of {whom}"] += 1

    def cut(self):
        self.relay.cut(self.choose.randrange(1, 4))
        self.done["cuts of connections"] += 1

    def fill_device(self):
        self.device.fill()
        end = time.monotonic() + self.choose.uniform(0.2, 2)
        while time.monotonic() < end:
            self.keep_alive()
            time.sleep(0.1)
        self.device.free()
        self.done["times that the device was full"] += self.device.is_small

    def break_something(self):
        kinds = [self.kill_host, self.kill_driver, self.kill_both, lambda: self.stop_for_a_while(self.host.process, "the host"),
                 lambda: self.stop_for_a_while(self.driver, "the driver"), self.cut, self.cut, self.fill_device]
        self.choose.choice(kinds)()

    def soak(self, seconds):
        """Traffic, and what breaks it."""
        self.relay.start()
        self.start_host()
        self.start_breaking()
        end = time.monotonic() + seconds
        while time.monotonic() < end and not self.bad:
            until = time.monotonic() + self.choose.uniform(0.2, 3)
            while time.monotonic() < until:
                self.keep_alive()
                time.sleep(0.05)
            self.break_something()

    # ---- what holds

    def keep_host_alive(self):
        self.device.free()
        if self.host.process.poll() is not None:
            self.host.ends()
            self.start_host()

    def end(self):
        """What held in the end: how many orders the journal has."""
        self.end_driver()
        self.keep_host_alive()
        self.close_all()
        self.ask_all(self.host_port)
        self.host.end_input()
        status, why = self.host.ends()
        if status != 0:
            self.tell_bad(f"the last host ended with status {status}: {why!r}")
        return len(self.look_at_journal("journal"))

    def clear(self):
        for process in (self.host and self.host.process, self.driver):
            if process and process.poll() is None:
                process.kill()
        self.device.close()


# ---- what is told

def page_of(ends, seconds, orders):
    """What was done, how often, and what held."""
    rows = "".join(f"| {what} | {count:,} |\n" for what, count in sorted(ends.done.items()) if count)
    held = "all of it held" if not ends.bad else f"**it failed in {ends.bad} places**"
    minutes = f"{seconds / 60:g} minute{'s' if seconds != 60 else ''}"
    return f"""`make soak` runs `rumpadol host` over its journal and `rumpadol drive` over its diary as two processes, and breaks what is between
them and around them at random moments. Then it leaves them alone until each transaction is closed, and compares both books.

Run on {datetime.date.today():%Y-%m-%d} for {minutes}, `SOAK_SEED={SEED}`: {held}.

| What was done | How often |
|---|---|
{rows}| connections that the relay cut | {ends.relay.cuts:,} |

| What has to hold in the end | Looked at |
|---|---|
| each order got one answer, however often it was asked: each later answer is the first one, byte for byte | {ends.relay.compared:,} answers to {len(ends.relay.answers):,} orders |
| the journal is whole, has each order once, and each that was answered with the code of its answer | {orders:,} entries |
| each balance that the host tells is the opening less what the driver's books say | {len(ACCOUNTS)} accounts |

What it can't show is a power cut: a killed process leaves what it wrote to the system. [JOURNAL](JOURNAL.md) says what a device has to keep.
"""


def main(words):
    command, seconds = program(words), 60 * float(words[1]) if len(words) > 1 else 120
    with tempfile.TemporaryDirectory() as folder:
        print(f"SOAK_SEED={SEED} SECONDS={seconds:g}", flush=True)
        ends = Soak(command, folder, seconds)
        orders = ends.run(seconds)
    if len(words) == 3:
        write_part(pathlib.Path(words[2]), "make soak", page_of(ends, seconds, orders))
    done, relay = ends.done, ends.relay
    print(f"{done['kills of the host']} kills of the host, {done['kills of the driver']} of the driver, {orders} orders, "
          f"{relay.compared} answers compared, {ends.bad} bad")
    return 1 if ends.bad else 0


if __name__ == "__main__":
    sys.exit(main(sys.argv[1:]))
