#!/usr/bin/env python3
"""Asks the page of `rumpadol page` each question of tests/page/calls.json, and compares status and answer.

page-calls.py RUMPADOL prints each row that fails, with what was told, and as its last line how many passed and failed.
"""
import json
import pathlib
import socket
import subprocess
import sys
import urllib.error
import urllib.request

TOP = pathlib.Path(__file__).resolve().parent.parent
ROWS = TOP / "tests" / "page" / "calls.json"
WAIT = 20


def free_port():
    """A port that nobody listens on."""
    with socket.socket() as it:
        it.bind(("127.0.0.1", 0))
        return it.getsockname()[1]


def asked(port, call, question):
    """The status and the text of an answer."""
    text = question if isinstance(question, str) else json.dumps(question)
    request = urllib.request.Request(f"http://127.0.0.1:{port}/api/{call}", text.encode(), {"content-type": "application/json"})
    try:
        with urllib.request.urlopen(request, timeout=WAIT) as it:
            return it.status, it.read()
    except urllib.error.HTTPError as refused:
        return refused.code, refused.read()


def main():
    command = sys.argv[1]
    port = free_port()
    passed = failed = 0
    with subprocess.Popen([command, "page", "--port", str(port)], stderr=subprocess.PIPE) as page:
        page.stderr.readline()
        for row in json.loads(ROWS.read_text())["rows"]:
            status, text = asked(port, row["call"], row["question"])
            if status == row["status"] and json.loads(text) == row["answer"]:
                passed += 1
            else:
                failed += 1
                print(f"FAILED {row['name']}: {status} {text.decode()}")
        page.kill()
    print(f"page-calls: {passed} passed, {failed} failed")
    return 1 if failed else 0


if __name__ == "__main__":
    sys.exit(main())
