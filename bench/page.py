#!/usr/bin/env python3
"""Makes the figures of docs/SPEED.md out of the lines that the scripts beside it print.

    page.py bench TOLD [PAGE]       TOLD is a file of what turns.sh printed
    page.py readers TOLD [PAGE]     TOLD is a file of what readers.py printed
    page.py journal TOLD [PAGE]     TOLD is a file of what journal.sh printed, once or more
    page.py loopback TOLD [PAGE]    TOLD is a file of what loopback.sh printed
    page.py peers TOLD [PAGE]       TOLD is a file of what peers.sh printed
    page.py etcd TOLD [PAGE]        TOLD is a file of what etcd.sh printed

Prints each table. In PAGE all that stands between the comments <!-- NAME --> and <!-- end --> is replaced by the one of that
name, and `bench` draws speed.svg beside PAGE. Where a measure is missing it is named, and nothing is written.
"""
import os
import pathlib
import platform
import re
import statistics
import sys
import textwrap

from picture import picture

PAIR = re.compile(r"(\w+)=([0-9.]+)")

# each stream: how a table and the picture name it, and whether it is answered
STREAMS = {
    "echo": ("echo tests, each answered, no order", "echo tests", True),
    "silent": ("responses, none answered", "responses", False),
    "one-account": ("distinct purchases on one account", "purchases, one account", True),
    "many-accounts": ("distinct purchases over 1,000 accounts", "purchases, 1,000 accounts", True),
    "mix": ("a mix over 1,000 accounts", "a mix", True),
    "garbage": ("82 random bytes, none a message", "random bytes", False),
    "full": ("echo tests with all 126 elements, 36,470 bytes", "126 elements", True),
}
MESSAGES = {82: "82 bytes, 7 elements", 30096: "30,096 bytes, 30 elements"}
ORDERS = {"new": "new purchase", "repeat": "repeat", "reversal": "reversal"}
# each group of orders with one sync, and how often the time of a plain program it may take
GROUPS = {1: 1.2, 64: 1.5, 512: 2.5}
READERS = {
    "lines": ("`decode`, as lines", "`tshark -T fields`"),
    "json": ("`decode --json`", "`tshark -T json`"),
    "explain": ("`explain`", "`tshark -V`"),
}
ROUND_TRIPS = {
    "bytes": "86 bytes, to a program that only sends back what it reads",
    "test": "an echo test",
    "repeat": "a purchase again and again",
    "new": "distinct purchases",
}


def readings(line):
    """What a line measures: the name that it begins with, and with it the bytes, entries or peers, each measure and its value."""
    pairs = PAIR.findall(line)
    name = PAIR.split(line)[0].strip(" :")
    while pairs and pairs[0][0] in ("bytes", "entries", "group", "active", "idle"):
        name += " {}={}".format(*pairs.pop(0))
    return [((name, measure), float(value)) for measure, value in pairs]


class Figures:
    """The values that were printed, turn by turn, and what was asked and wasn't printed."""

    def __init__(self, told):
        self.values = {}
        self.missing = []
        for key, value in (reading for line in told.splitlines() for reading in readings(line)):
            self.values.setdefault(key, []).append(value)

    def of(self, name, measure):
        """The middle one of the values."""
        values = self.values.get((name, measure))
        if not values:
            self.missing.append(f"{measure} of {name}")
            return 1
        return statistics.median(values)

    def turns(self, name, measure):
        return len(self.values.get((name, measure), []))

    def sizes(self):
        """The sizes of the journal."""
        return sorted({int(name.split("=")[1]) for name, _ in self.values if name.startswith("new entries=")}) or [1]


def table(*rows):
    """Rows of cells, the first of which is the head."""
    head, *rest = ["| " + " | ".join(row) + " |" for row in rows]
    return "\n".join([head, "|" + "---|" * len(rows[0]), *rest])


def prose(text):
    return textwrap.fill(text, 128, break_on_hyphens=False)


def machine():
    told = pathlib.Path("/proc/cpuinfo").read_text()
    model = re.search(r"model name\s*: (.*)", told)
    return f"{model[1] if model else platform.machine()}, {os.cpu_count()} cores, {platform.system()} {platform.release()}"


def method(figures):
    turns = figures.turns("echo to a file", "seconds")
    return prose(f"Machine: {machine()}. Each time is the middle one of {turns} turns. Instructions are the same in each, and counted once.")


def codec(figures):
    def cell(verb, size):
        name = f"{verb} bytes={size}"
        nanoseconds, each_second = figures.of(name, "nanoseconds"), figures.of(name, "messages_per_second")
        return f"{each_second:,.0f} a second ({nanoseconds:,.0f} ns), {figures.of(name, 'instructions'):,.0f} instructions"

    rows = [[f"`{verb}`"] + [cell(verb, size) for size in MESSAGES] for verb in ("unpack", "pack", "view")]
    return table(["Call", *MESSAGES.values()], *rows)


def stream(figures, kind):
    served = f"{kind} to a file"
    name, _, is_answered = STREAMS[kind]
    frames, seconds = figures.of(served, "frames"), figures.of(served, "seconds")
    writes = f"{figures.of(f'{kind} by one write for each answer', 'seconds'):.3f}" if is_answered else "none"
    return [
        name, f"{frames:,.0f}", f"{frames / seconds:,.0f}", f"{figures.of(f'{kind} frame', 'instructions'):,.0f}", f"{seconds:.3f}",
        writes, f"{figures.of(f'{kind} by cat', 'seconds'):.3f}", f"{figures.of(served, 'peak_kilobytes') / 1024:.1f} MiB",
    ]


def streams(figures):
    head = ["Stream", "Frames", "Frames a second", "Instructions a frame", "Seconds", "Writes alone", "`cat`", "Memory"]
    return table(head, *[stream(figures, kind) for kind in STREAMS])


def counted(figures):
    few, many = [[figures.of(f"{kind} frame", name) for name in ("after", "up_to")] for kind in ("full", "mix")]
    return prose(f"The instructions of a frame are those that a stream of {many[1]:,.0f} frames takes beyond one of {many[0]:,.0f}, shared "
                 f"among the frames beyond; with all 126 elements, beyond {few[0]:,.0f} up to {few[1]:,.0f}.")


def orders(figures):
    def cell(kind, size):
        name = f"{kind} entries={size}"
        return f"{figures.of(name, 'nanoseconds'):,.0f} ns, {figures.of(name, 'instructions'):,.0f} instructions"

    rows = [[f"{size:,}"] + [cell(kind, size) for kind in ORDERS] for size in figures.sizes()]
    return table(["Entries", "A new purchase", "A repeat", "A reversal"], *rows)


def growth(figures):
    sizes = figures.sizes()
    first, last = sizes[0], sizes[-1]
    times = {kind: figures.of(f"{kind} entries={last}", "instructions") / figures.of(f"{kind} entries={first}", "instructions")
             for kind in ORDERS}
    return prose(f"From {first:,} to {last:,} entries the instructions grow {times['new']:.2f} times for a new purchase, "
                 f"{times['repeat']:.2f} times for a repeat and {times['reversal']:.2f} times for a reversal.")


def loopback(figures):
    rows = [[name] + [f"{figures.of(kind, measure):.1f} µs" for measure in ("median_microseconds", "one_in_100_over_microseconds")]
            for kind, name in ROUND_TRIPS.items()]
    first, last = [figures.of(f"memory after the {which} connection", "peak_kilobytes") for which in ("first", "last")]
    after = "memory after the last connection"
    turns, rounds = figures.turns("test", "rounds"), figures.of("test", "rounds")
    return "\n\n".join([
        prose(f"Machine: {machine()}. {rounds:,.0f} round trips of each kind in a turn; each figure is the middle one of {turns} turns."),
        table(["Round trip", "Median", "One in 100 is over"], *rows),
        prose(f"The most memory that the host has had is {first:,.0f} KiB after the first connection, and {last:,.0f} KiB after "
              f"{figures.of(after, 'connections'):,.0f} connections with {figures.of(after, 'frames'):,.0f} frames."),
    ])


def peers(figures):
    def of(name, active, measure, idle=0):
        return figures.of(f"{name} active={active} idle={idle}", measure)

    def row(sync, where, active, limits):
        rates = [of(where + name, active, "answers_per_second") for name in ("host", "echo")]
        times = [of(where + name, active, "median_microseconds") for name in ("host", "echo")]
        return [sync, f"{active}", *(f"{rate:,.0f}" for rate in rates), f"{rates[0] / rates[1]:.2f}{limits[0]}",
                *(f"{time:,.0f} µs" for time in times), f"{times[0] / times[1]:.2f}{limits[1]}"]

    alone, crowded = [of("host", 10, "median_microseconds", idle) for idle in (0, 990)]
    memory = figures.of("memory idle=990", "bytes_a_peer")
    turns = figures.turns("host active=1 idle=0", "median_microseconds")
    head = ["A sync takes", "Peers", "Answers a second", "The loop's", "As many as the loop's", "An answer takes", "The loop's",
            "As long as the loop's"]
    return "\n\n".join([
        prose(f"Machine: {machine()}. Each figure is the middle one of {turns} turns."),
        table(head, row("a millisecond", "slow ", 1, ("", ", at most 1.4")), row("a millisecond", "slow ", 64, (", at least 0.6", "")),
              row("nothing", "", 1, ("", ", at most 1.4")), row("nothing", "", 64, (", at least 0.6", ""))),
        prose(f"Beside ten peers 990 idle ones make an answer take {crowded:,.0f} µs in place of {alone:,.0f} µs: {crowded / alone:.2f} times "
              f"as long, at most 1.1. An idle peer takes {memory:,.0f} bytes of the host's memory, at most 8,192."),
    ])


def readers(figures):
    def row(job):
        mine, other, few = [f"{job} {by}" for by in ("by rumpadol", "by tshark", "of few by rumpadol")]
        rates = [figures.of(name, "frames") / figures.of(name, "seconds") for name in (mine, other)]
        peaks = [f"{figures.of(name, 'peak_kilobytes') / 1024:.1f} MiB" for name in (few, mine, other)]
        return [READERS[job][0], f"{rates[0]:,.0f}", READERS[job][1], f"{rates[1]:,.0f}", f"{rates[0] / rates[1]:.1f}", *peaks]

    few, many = [figures.of(f"lines {by}", "frames") for by in ("of few by rumpadol", "by rumpadol")]
    head = ["Job", "Frames a second", "Beside it", "Its frames a second", "Times as fast", f"Memory over {few:,.0f} frames",
            f"Over {many:,.0f}", "`tshark`'s"]
    turns = figures.turns("lines by rumpadol", "seconds")
    return "\n\n".join([
        prose(f"Machine: {machine()}. {many:,.0f} frames; each time is the middle one of {turns} turns."),
        table(head, *[row(job) for job in READERS]),
    ])


def journal(figures):
    def row(group, where=""):
        own, plain, sqlite = [figures.of(f"{where}{kind} group={group}", "nanoseconds") for kind in ("journal", "plain", "sqlite")]
        rates = [f"{1e9 / time:,.0f}" for time in (own, plain, sqlite)]
        return [f"{group}", *rates, f"{own / plain:.2f}", f"{GROUPS[group]}", f"{sqlite / own:.1f}"]

    entries = max((int(name.split("=")[1]) for name, _ in figures.values if name.startswith("start entries=")), default=1)
    start, handling = [figures.of(f"{kind} entries={entries}", "nanoseconds") for kind in ("start", "handling")]
    turns = figures.turns("journal group=1", "nanoseconds")
    instructions = figures.of("order group=512", "instructions")
    head = ["Orders with one sync", "Orders a second", "The plain program's", "SQLite's", "Its time, as often as the plain program's",
            "At most", "SQLite's, as often as its"]

    def device(told, where=""):
        took = figures.of(f"{where}plain group=1", "nanoseconds") / 1e6
        return [prose(f"{told}. To write a record and sync it took {took:.2f} ms:"), table(head, *[row(group, where) for group in GROUPS])]

    return "\n\n".join([
        prose(f"Machine: {machine()}. Each figure is the middle one of {turns} turns."),
        *device("With each sync held up for a millisecond (`bench/slow.c`), as a volume on a network may take", "held 1000 "),
        *device("With each sync held up for a fifth of a millisecond, as a disk in the machine may take", "held 200 "),
        *device("On this machine's device as it is"),
        prose(f"An order in a group of 512 takes {instructions:,.0f} instructions, at most 4,000, without those of the system."),
        prose(f"A start over {entries:,.0f} orders takes {start * entries / 1e9:.2f} s, and handling them {handling * entries / 1e9:.2f} s: "
              f"{start / handling:.2f} times, at most 2. An order takes 128 bytes in the file."),
    ])


def etcd(figures):
    def row(group):
        own, plain = [figures.of(f"etcd {kind} group={group}", "orders_per_second") for kind in ("host", "plain")]
        return [f"{group}", f"{own:,.0f}", f"{plain:,.0f}", f"{own / plain:.2f}"]

    entries = max((int(name.split("=")[1]) for name, _ in figures.values if name.startswith("etcd start entries=")), default=1)
    file, members = [figures.of(f"etcd start entries={entries}", f"{kind}_seconds") for kind in ("file", "etcd")]
    turns = figures.turns("etcd host group=64", "orders_per_second")
    return "\n\n".join([
        prose(f"Machine: {machine()}, with three members of etcd on it. Each figure is the middle one of {turns} turns."),
        table(["Orders in a batch", "Orders a second", "The plain client's", "As many as the plain client's, at least 0.7"], row(64), row(512)),
        prose(f"A start over {entries:,} orders takes {members:.2f} s, and {file:.2f} s over the same journal in a file: {members / file:.1f} times, "
              f"at most 3."),
    ])


def drawn(figures):
    kinds = [kind for kind in STREAMS if kind != "full"]
    full = figures.of("full frame", "instructions")
    rows = [(STREAMS[kind][1], figures.of(f"{kind} frame", "instructions")) for kind in kinds]
    sizes = figures.sizes()
    series = [(name, [figures.of(f"{kind} entries={size}", "nanoseconds") for size in sizes]) for kind, name in ORDERS.items()]
    return picture(rows, f"not drawn: {full:,.0f} with all 126 elements", sizes, series)


SECTIONS = {
    "bench": {"method": method, "codec": codec, "streams": streams, "counted": counted, "orders": orders, "growth": growth,
              "readers": readers, "journal": journal},
    "readers": {"readers": readers},
    "journal": {"journal": journal},
    "loopback": {"loopback": loopback},
    "peers": {"peers": peers},
    "etcd": {"etcd": etcd},
}


def replaced(page, name, text):
    """The page with that text between the comments of that name."""
    page, times = re.subn(f"(<!-- {name} -->\n).*?(<!-- end -->)", lambda found: f"{found[1]}\n{text}\n\n{found[2]}", page, flags=re.DOTALL)
    if times != 1:
        sys.exit(f"page.py: the page has {times} places for {name}, and needs one: nothing is written")
    return page


def write(path, texts, svg):
    page = path.read_text()
    for name, text in texts.items():
        page = replaced(page, name, text)
    path.write_text(page)
    if svg:
        path.with_name("speed.svg").write_text(svg)
    print(f"the figures are in {path}")


def main(subject, told, *pages):
    figures = Figures(pathlib.Path(told).read_text())
    texts = {name: section(figures) for name, section in SECTIONS[subject].items()}
    svg = drawn(figures) if subject == "bench" else None
    if figures.missing:
        names = "\n  ".join(dict.fromkeys(figures.missing))
        print(f"page.py: nothing is written, since these weren't measured:\n  {names}", file=sys.stderr)
        sys.exit(1 if pages else 0)
    print("", *texts.values(), sep="\n\n")
    for page in pages:
        write(pathlib.Path(page), texts, svg)


if __name__ == "__main__":
    main(*sys.argv[1:])
