#!/usr/bin/env python3
"""Runs a program on each row of its crate's folder rows, and compares what comes of it with what the row says.

command-rows.py COMMAND runs every row of iso_cli on that built program. command-rows.py runs those that need no device of their
own, by one quick run, without proofs. With --program NAME before them either takes the rows and the program of that crate. Either
prints each row that fails, with what differs, and as its last line how many passed and failed.

A document in that folder has "rows", and may have "each", with members that each row has unless it gives others, and "texts",
which its rows may name. A row has a "name" and
    "words"         behind the program's name, none by default
    "called"        the program's name, that of the crate by default, null where it gets not even that
    "files"         the texts of files in the folder where it runs
    "stdin"         "folder": the input is a folder, of which each read fails
    "input"         what it reads, nothing by default
    "input pieces"  it comes through a pipe, so many bytes once those before were read
    "input fails"   true: the read behind it fails
    "output takes"  so many bytes, before a write to the output fails
    "faults take"   the same of the fault stream; of both, one at most is above 0
    "status"        with which it ends, 0 by default
    "output"        what it writes, nothing by default
    "faults"        what it tells on the fault stream, nothing by default
    "before"        earlier runs in the same folder, one after the other, each with words, input, status, output and faults of its
                    own as a row has them; none by default
    "kept"          the texts of files that are there in the end, none by default; of one that may not be there, null
What a text is, rows.py says.
"""
import array
import contextlib
import fcntl
import hashlib
import os
import pathlib
import re
import resource
import signal
import socket
import struct
import subprocess
import sys
import tempfile
import termios
import threading
import time

from rows import TOP, encoded, read, text_of

WAIT = 60

# ---- the rows

ROW = {"name": None, "words": [], "called": "iso_cli", "files": {}, "stdin": None, "input": "", "input pieces": None,
       "input fails": False, "output takes": None, "faults take": None, "status": 0, "output": "", "faults": "", "before": [],
       "kept": {}}
DEVICES = ["stdin", "input pieces", "input fails", "output takes", "faults take", "before", "kept"]


def whole_row(given, document, program="iso_cli"):
    """The row with all its members, in bytes."""
    texts = document["texts"]
    row = {**ROW, "called": program, **document.get("each", {}), **given}
    if row.keys() != ROW.keys():
        raise ValueError(f"{given['name']}: what is {sorted(row.keys() - ROW.keys())}?")
    row["files"] = {encoded(name): text_of(value, texts) for name, value in {**document["files"], **row["files"]}.items()}
    row["kept"] = {name: text if text is None else text_of(text, texts) for name, text in row["kept"].items()}
    row["words"] = [encoded(word) for word in row["words"]]
    for name in ("input", "output", "faults"):
        row[name] = text_of(row[name], texts)
    row["before"] = [whole_row({"name": row["name"], **earlier}, {"texts": texts, "files": {}}, program) for earlier in row["before"]]
    return row


def all_rows(program="iso_cli"):
    """The rows of all documents of a program, each named by its document too."""
    rows = []
    for path in sorted((TOP / "crates" / program / "rows").glob("*.json")):
        document = read(path)
        for given in document.get("rows", []):
            row = whole_row(given, document, program)
            row["name"] = f"{path.relative_to(TOP)}: {row['name']}"
            rows.append(row)
    return rows


# ---- what a built program reads

def unread(end):
    """How many bytes of a pipe or a socket nobody has read."""
    count = array.array("i", [0])
    fcntl.ioctl(end, termios.FIONREAD, count)
    return count[0]


def failing_input(text, opened):
    """A connection that gives these bytes, and then fails, since its other end was reset."""
    with socket.create_server(("127.0.0.1", 0)) as listener:
        peer = socket.create_connection(listener.getsockname())
        taken = opened.enter_context(listener.accept()[0])
    peer.sendall(text)
    end = time.monotonic() + WAIT
    while unread(taken) < len(text) and time.monotonic() < end:
        time.sleep(0.001)
    peer.setsockopt(socket.SOL_SOCKET, socket.SO_LINGER, struct.pack("ii", 1, 0))
    peer.close()
    return taken


def opened_input(row, folder, opened):
    """What the program reads, unless that comes through a pipe."""
    if row["stdin"] == "folder":
        descriptor = os.open(folder, os.O_RDONLY)
        opened.callback(os.close, descriptor)
        return descriptor
    if row["input pieces"]:
        return subprocess.PIPE
    if row["input fails"]:
        return failing_input(row["input"], opened)
    file = opened.enter_context(tempfile.TemporaryFile())
    file.write(row["input"])
    file.seek(0)
    return file


def feed(process, pipe, text, size):
    """Writes each piece once the program has read those before."""
    with pipe, contextlib.suppress(BrokenPipeError):
        for at in range(0, len(text), size):
            os.write(pipe.fileno(), text[at:at + size])
            while unread(pipe) and process.poll() is None:
                time.sleep(0.0001)


def start_feeding(process, row, opened):
    """Has a thread write what comes through a pipe, while the output is read."""
    pipe, process.stdin = process.stdin, None
    feeder = threading.Thread(target=feed, args=(process, pipe, row["input"], row["input pieces"]))
    feeder.start()
    opened.callback(feeder.join)


# ---- what it writes

def opened_output(takes, opened):
    """A stream that takes all, or so many bytes."""
    if takes is None:
        return subprocess.PIPE
    if takes == 0:
        return opened.enter_context(open("/dev/full", "wb"))
    return opened.enter_context(tempfile.TemporaryFile())


def limit_files(size):
    """The system refuses what would make a file larger, and ends nobody for it."""
    signal.signal(signal.SIGXFSZ, signal.SIG_IGN)
    resource.setrlimit(resource.RLIMIT_FSIZE, (size, size))


def written(stream, piped):
    """What a stream took."""
    if stream == subprocess.PIPE:
        return piped
    if stream.name == "/dev/full":
        return b""
    stream.seek(0)
    return stream.read()


# ---- a built program

def run_in(command, row, folder, opened):
    """The status, the output and the fault lines of a program in a folder that has its files."""
    called = [] if row["called"] is None else [encoded(row["called"])]
    limit = row["output takes"] or row["faults take"]
    output = opened_output(row["output takes"], opened)
    faults = opened_output(row["faults take"], opened)
    process = opened.enter_context(subprocess.Popen(
        called + row["words"], executable=command, cwd=folder, env={}, stdin=opened_input(row, folder, opened), stdout=output,
        stderr=faults, preexec_fn=(lambda: limit_files(limit)) if limit else None))
    if process.stdin:
        start_feeding(process, row, opened)
    opened.callback(process.kill)
    piped = process.communicate(timeout=WAIT)
    return process.returncode, written(output, piped[0]), written(faults, piped[1])


def run_before(command, row, folder):
    """What went wrong in the earlier runs of a row."""
    told = []
    for number, earlier in enumerate(row["before"]):
        with contextlib.ExitStack() as opened:
            end = run_in(command, earlier, folder, opened)
        told += [f"before, run {number + 1}: {what}" for what in differences(earlier, end)]
    return told


def unkept(row, folder):
    """What isn't there in the end, or is there otherwise."""
    told = []
    for name, text in row["kept"].items():
        path = pathlib.Path(folder, name)
        found = path.read_bytes() if path.is_file() else None
        if found != text:
            at = next((at for at, pair in enumerate(zip(found or b"", text or b"")) if pair[0] != pair[1]), None)
            told.append(f"the file {name} isn't as it should be: {'none' if found is None else len(found)} bytes, other at {at}")
    return told


def run_rows(command, rows):
    """What comes of each row on a built program."""
    ends = []
    for row in rows:
        with tempfile.TemporaryDirectory() as folder, contextlib.ExitStack() as opened:
            for name, text in row["files"].items():
                pathlib.Path(folder, os.fsdecode(name)).write_bytes(text)
            try:
                before = run_before(command, row, folder)
                end = run_in(command, row, folder, opened)
                ends.append("; ".join(before) if before else (*end, unkept(row, folder)))
            except (OSError, subprocess.TimeoutExpired) as fault:
                ends.append(fault)
    return ends


# ---- the quick run

def is_quick(row, program):
    """Whether the quick run can give the program all that: no device, and only words that stand in a line of text."""
    try:
        lines = [word.decode() for word in row["words"]]
    except UnicodeDecodeError:
        return False
    return (row["called"] == program and all(row[name] == ROW[name] for name in DEVICES)
            and not any("\n" in line or line == "{}" for line in lines))


def quick_name(name, text):
    """The cases share their files, so a file has a name of its own for each of its texts."""
    return hashlib.sha256(text).hexdigest()[:16].encode() + b"-" + name


def write_cases(rows, cases, data):
    """Writes a case for each row, and the files that their words name. Gives, for each row, the names that its files got."""
    given = []
    for number, row in enumerate(rows):
        names = {name: quick_name(name, text) for name, text in row["files"].items() if name in row["words"]}
        for name, quick in names.items():
            (data / os.fsdecode(quick)).write_bytes(row["files"][name])
        (cases / f"row{number}").write_bytes(row["input"])
        if row["words"]:
            (cases / f"row{number}.args").write_bytes(b"".join(names.get(word, word) + b"\n" for word in row["words"]))
        given.append(names)
    return given


def with_own_names(text, names):
    """What was told, with the files' own names in it."""
    for name, quick in names.items():
        text = text.replace(quick, name)
    return text


def shown(output):
    """The quick run puts a newline behind an output that has none."""
    return output if not output or output.endswith(b"\n") else output + b"\n"


def end_of(number, told, faults, names):
    """The status, the output and the fault lines of a case, out of what the quick run told."""
    line, fault_lines = faults.get(number, (b"the quick run has no such case", b""))
    status = re.search(rb" run=ended status=(\d+) ", line)
    if not status:
        return f"{line.decode()} {fault_lines.decode(errors='replace')}"
    return int(status[1]), with_own_names(told.get(number, b""), names), with_own_names(fault_lines, names)


def try_rows(rows, program):
    """What comes of each row in one quick run of the program."""
    with tempfile.TemporaryDirectory() as folder:
        cases, data = pathlib.Path(folder, "cases"), pathlib.Path(folder, "data")
        cases.mkdir()
        data.mkdir()
        names = write_cases(rows, cases, data)
        shared = [word for path in data.iterdir() for word in ("--data", f"{path.name}={path}")]
        run = subprocess.run(["rt", "try", "--cases", cases, *shared], cwd=TOP / "crates" / program,
                             stdin=subprocess.DEVNULL, capture_output=True)
    parts = re.split(rb"^== row(\d+)\n", run.stdout, flags=re.MULTILINE)
    told = {int(number): text for number, text in zip(parts[1::2], parts[2::2])}
    parts = re.split(rb"^(case=row(\d+) .*)\n", run.stderr, flags=re.MULTILINE)
    faults = {int(number): (line, text) for text, line, number in zip(parts[::3], parts[1::3], parts[2::3])}
    if not faults:
        sys.stdout.write(run.stderr.decode(errors="replace"))
    ends = [end_of(number, told, faults, names[number]) for number in range(len(rows))]
    return [(end[0], row["output"], end[2]) if isinstance(end, tuple) and end[1] == shown(row["output"]) else end
            for row, end in zip(rows, ends)]


# ---- the judgement

def differences(row, end):
    """What isn't as the row says."""
    if not isinstance(end, tuple):
        return [str(end)]
    wanted = row["status"], row["output"], row["faults"]
    return [f"{what} is {found!r}, not {expected!r}" for what, found, expected
            in zip(("the status", "the output", "the fault line"), end, wanted) if found != expected] + [
                what for kept in end[3:] for what in kept]


def main(words):
    program = "iso_cli"
    if words[:1] == ["--program"] and len(words) > 1:
        program, words = words[1], words[2:]
    rows = all_rows(program)
    if not words:
        rows = [row for row in rows if is_quick(row, program)]
        ends = try_rows(rows, program)
    elif len(words) == 1 and os.access(words[0], os.X_OK):
        ends = run_rows(os.path.abspath(words[0]), rows)
    else:
        sys.exit("command-rows.py: which command?")
    failed = 0
    for row, end in zip(rows, ends):
        differing = differences(row, end)
        failed += bool(differing)
        if differing:
            print(f"FAILED {row['name']}", *differing, sep="\n    ")
    print(f"scripts/command-rows.py: {len(rows) - failed} rows passed, {failed} failed")
    return 1 if failed or not rows else 0


if __name__ == "__main__":
    try:
        sys.exit(main(sys.argv[1:]))
    except (OSError, ValueError, KeyError) as fault:
        print(f"FAILED scripts/command-rows.py: {fault!r}")
        print("scripts/command-rows.py: 0 rows passed, 1 failed")
        sys.exit(1)
