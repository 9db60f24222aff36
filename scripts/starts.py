#!/usr/bin/env python3
"""Starts a host where it has no right to, and one over a long journal: starts.py COMMAND

COMMAND is the built rumpadol. The first rows run it as a user who is not root: over a journal that this user may not read, or not
write, or in whose folder nothing may be made, and where a new one is to be made there; one whose log is to go to a named pipe; and one
that only looks into a journal. Each has to be refused by its sentence and status 3, and everything in the folder has to be as it was.
Where this is root and may mount, the same on a file system that can only be read; where not, a line says that it was not tried. The last
rows start a host over a long journal: on a terminal it tells how far it is, and takes that line away again; elsewhere it tells nothing.
The last line is
    N passed, M failed
"""
import os
import pathlib
import pty
import shutil
import subprocess
import sys
import tempfile

WAIT = int(os.environ.get("SECONDS", "300"))
NOBODY = 65534
ACCOUNTS = b'{"accounts":[{"currency":"840","opening":900000000,"pan":"4111111111111111"}]}'
DENIED = "this user may not read and write it and make files beside it; give it the right to, or serve as the file's owner"
READ_ONLY = "its file system can only be read; a host writes: mount it so, or copy the file elsewhere"
UNREAD = "no such journal; name a file that is there and may be read"
PIPE = ("this is a pipe, whose reader could hold up the host; name a file, or leave --log out and send the error stream to a "
        "program")
HOST = ["host", "--table", "ascii87", "--header", "ascii4", "--accounts", "accounts.json", "--journal"]
# more orders than a host takes to tell of them, and as many as it tells of first
LONG, TOLD = 66000, 65536


def purchase(number):
    """The purchase of a number, as docs/ORDERS.md tells it, in its frame."""
    body = b"02007220000100008000164111111111111111000000%012d%010d%06d0512345840" % (1, 101000000, number)
    return b"%04d" % len(body) + body


def held_in(folder):
    """All that a folder has: each name, its rights, and its bytes."""
    return {str(path.relative_to(folder)): (path.stat().st_mode, path.read_bytes() if path.is_file() else b"")
            for path in sorted(pathlib.Path(folder).rglob("*"))}


class Rows:
    """The rows that passed and failed."""

    def __init__(self, command, folder):
        self.command, self.folder = command, folder
        self.passed = self.failed = 0

    def judge(self, name, is_good, told):
        if is_good:
            self.passed += 1
        else:
            self.failed += 1
            print(f"FAILED {name}: {told!r}", flush=True)

    def run(self, words, stdin=b"", **how):
        return subprocess.run([self.command, *words], cwd=self.folder, input=stdin, capture_output=True, timeout=WAIT, **how)

    def refused(self, name, words, sentence, before=(), **how):
        """The command is refused by this sentence, and leaves all as it was."""
        was = held_in(self.folder)
        run = self.run(words, **how) if not before else subprocess.run(
            [*before, self.command, *words], cwd=self.folder, input=b"", capture_output=True, timeout=WAIT)
        told = f"rumpadol: {words[-1] if words[-1] != '--new' else words[-2]}: {sentence}\n".encode()
        is_good = (run.returncode, run.stdout, run.stderr) == (3, b"", told) and held_in(self.folder) == was
        self.judge(name, is_good, (run.returncode, run.stdout, run.stderr))


# ---- rights

def journals(rows):
    """A journal with each way of having too few rights, and a folder in which nothing may be made."""
    folder = pathlib.Path(rows.folder)
    (folder / "accounts.json").write_bytes(ACCOUNTS)
    made = rows.run([*HOST, "day", "--new"], purchase(1))
    rows.judge("a journal is made", made.returncode == 0, made.stderr)
    bytes_of = (folder / "day").read_bytes()
    (folder / "shut").mkdir()
    for name, mode in (("hidden", 0o000), ("kept", 0o444), ("shut/day", 0o666)):
        (folder / name).write_bytes(bytes_of)
        (folder / name).chmod(mode)
    (folder / "shut").chmod(0o555)


def try_rights(rows):
    how = {"user": NOBODY, "group": NOBODY, "extra_groups": []} if os.geteuid() == 0 else {}
    rows.refused("a journal that may not be read", [*HOST, "hidden"], DENIED, **how)
    rows.refused("a journal that may not be written", [*HOST, "kept"], DENIED, **how)
    rows.refused("a journal in a folder that may not be written", [*HOST, "shut/day"], DENIED, **how)
    rows.refused("a new journal in such a folder", [*HOST, "shut/new", "--new"], DENIED, **how)
    os.mkfifo(os.path.join(rows.folder, "pipe"))
    rows.refused("a named pipe as the log", [*HOST, "none", "--listen", "127.0.0.1:0", "--log", "pipe"], PIPE)
    rows.refused("a look into a journal that may not be read", ["journal", "check", "hidden"], UNREAD, **how)


def try_read_only(rows):
    """The same on a file system that can only be read: in a mount that no other process sees, and that ends with its own."""
    mounted = ["unshare", "--mount", "sh", "-c", 'mount -t tmpfs none mounted && cp day mounted && mount -o remount,ro mounted && exec "$@"', "sh"]
    os.mkdir(os.path.join(rows.folder, "mounted"))
    if os.geteuid() != 0 or not shutil.which("unshare") or rows_of_mount(rows, mounted) != 0:
        print("NOT TRIED a file system that can only be read: this user may not mount one", flush=True)
        return
    rows.refused("a journal on a file system that can only be read", [*HOST, "mounted/day"], READ_ONLY, mounted)
    rows.refused("a new journal there", [*HOST, "mounted/new", "--new"], READ_ONLY, mounted)


def rows_of_mount(rows, mounted):
    """The status of a process in such a mount."""
    return subprocess.run([*mounted, "true"], cwd=rows.folder, capture_output=True, timeout=WAIT).returncode


# ---- a long start

def start_on(rows, stream):
    """A host over the long journal, whose error stream is this one."""
    return subprocess.run([rows.command, *HOST, "long"], cwd=rows.folder, stdin=subprocess.DEVNULL, stdout=subprocess.PIPE, stderr=stream,
                          timeout=WAIT)


def read_all(stream):
    """What stands on a terminal whose other end is closed."""
    told = b""
    try:
        while piece := os.read(stream, 1 << 16):
            told += piece
    except OSError:
        pass
    return told


def try_long_start(rows):
    made = rows.run([*HOST, "long", "--new"], b"".join(purchase(number) for number in range(LONG)))
    end = f"entries={LONG} frames=0 answered=0 silent=0 unreadable=0"
    rows.judge("a long journal is made", made.returncode == 0, made.stderr)
    near, far = pty.openpty()
    run = start_on(rows, far)
    os.close(far)
    told = read_all(near)
    os.close(near)
    shown = f"\rrumpadol: {TOLD} of {LONG} orders are decided again\r\x1b[K{end}\r\n".encode()
    rows.judge("a long start on a terminal", (run.returncode, told) == (0, shown), (run.returncode, told))
    run = start_on(rows, subprocess.PIPE)
    rows.judge("a long start elsewhere", (run.returncode, run.stderr) == (0, f"{end}\n".encode()), (run.returncode, run.stderr))


def main(words):
    if len(words) != 1 or not os.access(words[0], os.X_OK):
        sys.exit("starts.py: which command?")
    with tempfile.TemporaryDirectory() as folder:
        os.chmod(folder, 0o777)
        # a copy, since the user who is not root may not come to where it was built
        command = shutil.copy(words[0], os.path.join(folder, "rumpadol"))
        os.chmod(command, 0o755)
        rows = Rows(command, folder)
        journals(rows)
        try_rights(rows)
        try_read_only(rows)
        try_long_start(rows)
        os.chmod(os.path.join(folder, "shut"), 0o755)
    print(f"{rows.passed} passed, {rows.failed} failed")
    return 1 if rows.failed else 0


if __name__ == "__main__":
    sys.exit(main(sys.argv[1:]))
