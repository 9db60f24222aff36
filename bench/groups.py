#!/usr/bin/env python3
"""How fast a host over a journal on etcd answers groups of orders: groups.py HOST JOURNAL FOLDER ORDERS GROUPS

HOST is the built rumpadol, which serves its standard streams over JOURNAL, a new one on etcd. It gets ORDERS purchases at once, and the
next ones once all of these are answered, GROUPS times: so each group is one batch. FOLDER has the stream and the accounts (frames.py).
Prints what one order took.
"""
import os
import pathlib
import subprocess
import sys
import time

WARM = 3                 # groups before the first that counts
PIPE = 1 << 16           # a group is handed over by one write, which a pipe takes whole


def groups_of(stream, orders):
    """The groups of the stream: each frame counts its body in four digits, and all are as long as the first one."""
    size = (4 + int(stream[:4])) * orders
    if size > PIPE:
        sys.exit(f"groups.py: {orders} orders have {size} bytes, and a pipe takes {PIPE}")
    return [stream[at:at + size] for at in range(0, len(stream), size)]


def answer(host, group, orders):
    """Hands a group over, and takes its answers, of which each counts its body too."""
    if os.write(host.stdin.fileno(), group) != len(group):
        sys.exit("groups.py: the pipe doesn't take a group at once")
    rest, count = b"", 0
    while count < orders:
        piece = os.read(host.stdout.fileno(), 1 << 20)
        if not piece:
            sys.exit(f"groups.py: the host ended: {host.stderr.read().decode()}")
        rest += piece
        while len(rest) >= 4 and len(rest) >= (end := 4 + int(rest[:4])):
            rest, count = rest[end:], count + 1


def main(command, journal, folder, orders, groups):
    words = ["host", "--table", "ascii87", "--header", "ascii4", "--accounts", f"{folder}/accounts.json", "--journal", journal, "--new"]
    host = subprocess.Popen([command, *words], stdin=subprocess.PIPE, stdout=subprocess.PIPE, stderr=subprocess.PIPE)
    given = groups_of(pathlib.Path(folder, "stream").read_bytes(), orders)[:WARM + groups]
    for group in given[:WARM]:
        answer(host, group, orders)
    begun = time.monotonic()
    for group in given[WARM:]:
        answer(host, group, orders)
    took = time.monotonic() - begun
    host.stdin.close()
    if host.wait():
        sys.exit(f"groups.py: the host ended with status {host.returncode}: {host.stderr.read().decode()}")
    print(f"etcd host group={orders} groups={groups} milliseconds={1000 * took:.0f} orders_per_second={orders * groups / took:.0f}")


if __name__ == "__main__":
    main(*sys.argv[1:4], *map(int, sys.argv[4:6]))
