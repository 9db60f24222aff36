#!/usr/bin/env python3
"""Asks a host: ask.py ADDRESS:PORT sends the frames of its input, and writes the frames that come back.

It tries for ten seconds to connect, ends its side once all is sent, and ends when the host closes: a host does so once everything
is answered.
"""
import shutil
import socket
import sys
import threading
import time


def connected(address, port):
    """A connection, as soon as somebody listens there."""
    end = time.monotonic() + 10
    while True:
        try:
            return socket.create_connection((address, port), timeout=10)
        except ConnectionRefusedError:
            if time.monotonic() > end:
                sys.exit(f"ask.py: nobody listens on {address}, port {port}")
            time.sleep(0.1)


def send(connection):
    """Sends the input, and ends this side. Where the host closes first, what it wrote stands."""
    try:
        shutil.copyfileobj(sys.stdin.buffer, connection.makefile("wb"))
        connection.shutdown(socket.SHUT_WR)
    except OSError:
        pass


def main(words):
    address, _, port = words[0].rpartition(":") if len(words) == 1 else ("", "", "")
    if not port.isdigit():
        sys.exit("ask.py: which address and port?")
    with connected(address.strip("[]"), int(port)) as connection:
        sender = threading.Thread(target=send, args=(connection,), daemon=True)
        sender.start()
        shutil.copyfileobj(connection.makefile("rb"), sys.stdout.buffer)


if __name__ == "__main__":
    main(sys.argv[1:])
