#!/usr/bin/env python3
"""Tries the wrong edits of proved crates, crates/NAME/must-fail/*.edit: the prover must refuse each.

    wrong-edits.py FOLDER LOG [NAME ..]

The gate (`rt ci`) proves the tree FOLDER and prints LOG, at this moment or before. The edits of a crate are tried as soon as LOG says
that it is proved, or that its proof is kept from an earlier run. With names, only those crates.

The gate itself tries one edit after the other, each by a check of the whole crate, and proves the crate once more for it. Here one
check tries many edits, and looks at the functions that they turn alone: whatever else they call is taken to meet its contract, since
the gate has proved that. Where several edits turn one function, the first one turns it, and each of the others a copy of it, with the
same contract and the same proof under another name. An edit is refused where the check doesn't prove the very function that it turns,
and not because that function calls another one that is turned too: such an edit waits for the next check. What turns more than one body
is tried alone, over all functions that name what it turns. What isn't refused so is tried alone, and at last as the gate tries it.

The last line is 'N passed, M failed'.
"""
import json
import os
import re
import shutil
import signal
import subprocess
import sys
import tempfile
import threading
import time
from collections import Counter
from concurrent.futures import ThreadPoolExecutor
from dataclasses import dataclass, field
from pathlib import Path

from functions import ABOVE, CONSTANT, FUNCTION, Function, copied, copy_proof, functions_of, has_own_files, other_path, without_body

# what the check says of a function: the goals of its own that the search leaves, and the proofs that are refused, where it has some
LEFT = re.compile(r"did not prove ((?:`[^`]*`(?:, | and )?)+)")
REFUSED = re.compile(r"it stands on ((?:`[^`]*`(?:, | and )?)+),? which antt refuses")
# a proof file that names what the edit took away
NAMES = re.compile(r"has no field|is not in scope|has no `")
PARTS = ("src", "specs", "proofs")
# what a check says of each function that it proves
PROVED = re.compile(r"^fn (\S+): proved", re.M)
# what the gate says of a crate that it proves, or whose proof is kept from an earlier run
IS_PROVED = re.compile(r"^rt: (\w+) (?:proved|is kept: .*)$", re.M)
# kB of memory that are left to the gate's checks when one of edits begins
ROOM = 6_000_000


@dataclass
class Edit:
    """A wrong edit, and the functions at which it is to be refused: the one whose body it turns, or all that name what it turns."""

    crate: str
    name: str
    pairs: list
    turned: list = field(default_factory=list)
    # the one whose body it turns alone
    body: Function = None


@dataclass
class Turn:
    """How an edit is tried: at which functions, or at which copy of the one whose body it turns."""

    edit: Edit
    turned: list
    number: int = 0


def pairs_of(file):
    pairs, path, old = [], None, None
    for line in file.read_text().split("\n"):
        if line.startswith("file: "):
            path = line[6:].strip()
        elif line.startswith("old: "):
            old = line[5:]
        elif line.startswith("new:"):
            pairs.append((path, old, line[4:].removeprefix(" ")))
    return pairs


def turn(file, pairs, copies, emptied):
    """Puts the new texts where the old ones stand in the file as it was, the copies of functions behind these, and empties bodies."""
    text = file.read_text()
    lines = text.split("\n")
    changes = [(text.index(old), len(old), new) for old, new in pairs]
    for function, number, own in copies:
        end = len("\n".join(lines[: function.last + 1]))
        changes.append((end, 0, "\n\n" + copied(lines, function, number, own)))
    for function in emptied:
        begin, end = (len("\n".join(lines[:line])) for line in (function.body + 1, function.last))
        changes.append((begin, end - begin, without_body(lines, function)))
    for at, size, new in sorted(changes, reverse=True):
        text = text[:at] + new + text[at + size :]
    file.write_text(text)


def place_of(text, old, new):
    """The lines in which an edit's text differs from what stands there."""
    at = text.index(old)
    front = len(os.path.commonprefix([old, new]))
    back = len(os.path.commonprefix([old[front:][::-1], new[front:][::-1]]))
    return text.count("\n", 0, at + front), text.count("\n", 0, at + max(len(old) - back, front))


def name_at(lines, at):
    """What is turned at a line outside of a body: the constant, or the function, that begins there or above, or below its comments."""
    while ABOVE.match(lines[at]):
        at += 1
    for line in range(at, -1, -1):
        if found := CONSTANT.match(lines[line]) or FUNCTION.match(lines[line]):
            return found[found.lastindex]
    return None


def place(edit, folder, functions):
    """Finds the functions at which an edit is to be refused."""
    bodies, wide = [], []
    for file, old, new in edit.pairs:
        text = (folder / file).read_text()
        first, last = place_of(text, old, new)
        there = [it for it in functions if it.file == file and it.body < first and last < it.last]
        bodies += there[-1:]
        if not there:
            wide.append(name_at(text.split("\n"), first))
    # what a `const fn` gives may stand in a constant that others use
    if not wide and len({it.path for it in bodies}) == 1 and bodies[0].path is not None and not bodies[0].is_const:
        edit.body = bodies[0]
    named = [it for it in functions for name in wide if name and re.search(rf"\b{name}\b", it.text)]
    edit.turned = sorted({it.path for it in bodies + named if it.path})


def edits_of(crate, folder):
    return [Edit(crate, it.stem, pairs_of(it)) for it in sorted((folder / "must-fail").glob("*.edit"))]


def wait_for_memory():
    """Waits while the gate's checks have nearly all memory, ten minutes at most."""
    for _ in range(600):
        free = re.search(r"^MemAvailable: *(\d+)", Path("/proc/meminfo").read_text(), re.M)
        if not free or int(free[1]) > ROOM:
            return
        time.sleep(1)


def is_cited(path, copy, proofs):
    """Whether a proof elsewhere in the crate cites more of a function than that it meets its contract."""
    crate, *inside = path.split("::")
    cite = re.compile(rf"\bRattle\.{crate}\.proofs\.{re.escape('.'.join(inside))}\.(?!Met\b|Statement\b)")
    own = copy.joinpath("proofs", *inside)
    return any(cite.search(text) for file, text in proofs.items() if own not in file.parents)


def is_strange(output, turned):
    """Whether the check refuses anything but the proofs of the functions that are turned: then it says nothing of these."""
    own = tuple("proofs/" + it.partition("::")[2].replace("::", "/") + "/" for it in turned)
    files = [it.removeprefix("./") for it in re.findall(r"^(\S+?):\d+:\d+: error:", output, re.M)]
    return any(not it.startswith(own) and "/fn/" not in it and "/+" not in it for it in files)


def goals_of(path, verdict):
    """The goals of a function's own that a check doesn't prove."""
    _, *inside, name = path.split("::")
    own = re.compile(r"Rattle\.\w+\.proofs\." + re.escape(".".join(inside)) + rf"\.?\+?{re.escape(name)}\.\w+\.(.*)")
    left = re.findall(r"`([^`]*)`", "".join(LEFT.findall(verdict)))
    refused = re.findall(r"`([^`]*)`", "".join(REFUSED.findall(verdict)))
    return left + [found[1] for it in refused if (found := own.match(it))]


class Crate:
    """A proved crate, whose edits are tried."""

    def __init__(self, tree, name, folder, log):
        self.tree, self.name, self.folder = tree, name, folder
        # where the proof is kept from an earlier run, the gate names no function
        self.names = self.names_in(log) if log else None
        self.functions = []
        self.room = Path(tempfile.mkdtemp(prefix=f"edits-{name}-"))
        self.checks = 0

    def names_in(self, said):
        """The functions that a check says it has proved."""
        return sorted(it for it in set(PROVED.findall(said)) if it.startswith(f"{self.name}::"))

    def try_all(self):
        """What is told of each edit, and whether all are refused."""
        begun = time.time()
        edits = edits_of(self.name, self.folder)
        try:
            try:
                told = self.try_quickly(edits)
            except (OSError, ValueError, LookupError, re.error) as error:
                print(f"{self.name}: its edits are tried one by one: {error!r}", file=sys.stderr, flush=True)
                told = {}
            told = {name: (True, why) for name, why in told.items()}
            told |= {it.name: self.try_whole(it) for it in edits if it.name not in told}
        finally:
            shutil.rmtree(self.room, ignore_errors=True)
        lines = [f"{self.name}/{it.name}: {told[it.name][1]}" for it in edits]
        refused = sum(is_refused for is_refused, _ in told.values())
        lines.append(f"{self.name}: {refused} of {len(edits)} refused, in {self.checks} checks and {time.time() - begun:.0f} seconds")
        return lines, refused, len(edits)

    def try_quickly(self, edits):
        """Tries edits by checks of the functions that they turn alone. Tells of those that are refused."""
        if self.names is None:
            self.names = self.tree.names(self.name) or self.names_in(self.check(self.copy([]), []).stdout)
        self.functions = functions_of(self.name, self.folder, self.names)
        for it in edits:
            place(it, self.folder, self.functions)
        told = self.try_together([it for it in edits if it.body])
        for it in edits:
            if it.name not in told and it.turned:
                told |= self.try_some([Turn(it, it.turned)])
        return told

    def try_together(self, edits):
        """Tries as many edits as can be in one check, and what waits in the next one."""
        told, with_copies = {}, True
        while waiting := [it for it in edits if it.name not in told]:
            more = self.try_some(self.turns_of(waiting, with_copies))
            if not more and not with_copies:
                break
            told |= more
            with_copies = with_copies and bool(more)
        return told

    def turns_of(self, edits, with_copies):
        """How as many edits as can be are tried in one check: one for each function, and one for each copy of one."""
        turns, taken = [], Counter()
        for it in edits:
            number = taken[it.body.path]
            if number == 0:
                turns.append(Turn(it, it.turned))
            elif with_copies and it.body.can_be_copied and has_own_files(it.body, self.folder):
                turns.append(Turn(it, [other_path(it.body.path, number)], number))
            else:
                continue
            taken[it.body.path] += 1
        return turns

    def copy(self, turns, proved=()):
        """A copy of the crate, in which all that is turned is turned, and functions that are taken as proved have no body."""
        folder = self.room / "crate"
        shutil.rmtree(folder, ignore_errors=True)
        for part in PARTS:
            if (self.folder / part).is_dir():
                shutil.copytree(self.folder / part, folder / part)
        pairs = [pair for it in turns if not it.number for pair in it.edit.pairs]
        copies = [it for it in turns if it.number]
        emptied = [it for it in self.functions if it.path in proved and it.can_be_emptied]
        for name in {it[0] for it in pairs} | {it.edit.body.file for it in copies} | {it.file for it in emptied}:
            behind = [(it.edit.body, it.number, [pair[1:] for pair in it.edit.pairs]) for it in copies if it.edit.body.file == name]
            turn(folder / name, [it[1:] for it in pairs if it[0] == name], behind, [it for it in emptied if it.file == name])
        for it in copies:
            copy_proof(it.edit.body, it.number, folder)
        return folder

    def others(self, turned):
        """The functions that are taken as proved, since nothing turns them."""
        cycles = {it.name[1:] for it in (self.folder / "proofs").rglob("+*")}
        kept = {*turned, *(it.path for it in self.functions if it.in_cycle or it.name in cycles)}
        proofs = {it: it.read_text() for it in (self.folder / "proofs").rglob("*.antt")}
        may = (it for it in self.names if it not in kept and "+" not in it and "::fn::" not in it)
        return [it for it in may if not is_cited(it, self.folder, proofs)]

    def take_as_proved(self, copy, proved):
        """Leaves out the proofs of functions: the gate has proved that they meet their contracts."""
        for path in proved:
            inside = path.split("::")[1:]
            proof = copy.joinpath("proofs", *inside)
            proof.mkdir(parents=True, exist_ok=True)
            for it in ("Answers.antt", "Invariants.antt"):
                (proof / it).unlink(missing_ok=True)
            (proof / "Proof.antt").write_text(
                f"use Rattle.{self.name}.proofs.{'.'.join(inside)}.Statement.{{statement}}\n\n"
                f"pub {inside[-1]}_spec : {{M : Type 1}} → statement M\n{inside[-1]}_spec = ?\n"
            )

    def check(self, copy, words):
        """Runs a check, and once more where it was killed, most likely for memory."""
        self.checks += 1
        how = {"stdin": subprocess.DEVNULL, "stdout": subprocess.PIPE, "stderr": subprocess.STDOUT, "text": True, "errors": "replace"}
        for _ in range(2):
            wait_for_memory()
            ran = subprocess.run([self.tree.rattle, "check", *self.tree.words(self.name), *words], cwd=copy, **how)
            if ran.returncode != -signal.SIGKILL:
                break
        return ran

    def try_some(self, turns):
        """Tries edits in one check, which looks at the functions that they turn alone. Tells of those that are refused."""
        turned = sorted({path for it in turns for path in it.turned})
        proved = self.others([it.edit.body.path for it in turns if it.number] + turned)
        copy = self.copy(turns, proved)
        self.take_as_proved(copy, proved)
        words = ["--allow-holes", "--short-goals", "--incremental", str(self.room / "kept")]
        ran = self.check(copy, words + [word for it in turned for word in ("--only", it.partition("::")[2])])
        if not re.search(r"^only=\d+ ", ran.stdout, re.M) or is_strange(ran.stdout, turned):
            return {}
        said = dict(re.findall(rf"^fn ({self.name}::\S+): (.*)", ran.stdout, re.M))
        return {it.edit.name: why for it in turns if (why := self.refusal(it.turned, said, ran.stdout))}

    def refusal(self, paths, said, output):
        """Why what is turned is refused, if it is: at a goal of a function of these, or of a closure in it."""
        for turned in paths:
            front, _, name = turned.rpartition("::")
            for path, verdict in said.items():
                is_inside = path.startswith(f"{front}::fn::{name}::") or f"::fn::{'::'.join(turned.split('::')[-2:])}::" in path
                if path != turned and not is_inside:
                    continue
                inside = re.escape("/".join(path.split("::")[1:]))
                errors = re.findall(rf"^\S*proofs/{inside}/\S*: error: (.*(?:\n  .*)?)", output, re.M)
                errors = [it for it in errors if "admitted" not in it]
                if goals := goals_of(path, verdict) or (verdict.startswith("not proved") and [it.partition("\n")[0] for it in errors]):
                    # the gate says of such an edit that it tells little of the contract
                    note = " (by names in a proof file alone)" if errors and all(NAMES.search(it) for it in errors) else ""
                    return f"refused at {path}: {', '.join(goals)[:160]}{note}"
        return None

    def try_whole(self, edit):
        """Tries an edit by a check of the whole crate from nothing, as the gate does. Tells whether it is refused."""
        ran = self.check(self.copy([Turn(edit, edit.turned)]), [])
        lines = ran.stdout.rstrip("\n").split("\n")
        if ran.returncode == 1 and lines[-1].startswith("logic=not-proved"):
            return True, "refused by a check of the whole crate"
        if ran.returncode == 0:
            return False, "NOT REFUSED: the crate is still proved with this edit"
        return False, f"BAD EDIT: it did not reach the prover: {' | '.join(lines[-3:])[:300]}"


class Tree:
    """The tree that the gate proves, and what it has said so far."""

    def __init__(self, folder, log):
        self.folder, self.log = Path(folder).resolve(), Path(log)
        self.kit = Path(subprocess.run(["rt", "doc"], capture_output=True, text=True, check=True).stdout.strip()).parent
        self.rattle = str(self.kit / "bin/rattle")
        self.below, self.flags = {}, {}
        for line in (self.folder / "crates.txt").read_text().splitlines():
            front, _, needs = line.partition("#")[0].partition(":")
            if front.strip():
                name, *flags = front.split()
                self.below[name], self.flags[name] = needs.split(), flags

    def own(self, name):
        """The crates of this tree that a crate stands on, itself left out."""
        found = []
        for it in self.below[name]:
            if it in self.below:
                found += [*self.own(it), it]
        return [*dict.fromkeys(found)]

    def rlib(self, name):
        return self.folder / "crates" / name / "out/rlib" / f"{name}.rlib"

    def names(self, name):
        """The functions of a library, as its built code names them. A program's aren't kept."""
        code = self.rlib(name) / "toolchain/mir.json"
        if not code.exists():
            return []
        return sorted(it[0] for it in json.loads(code.read_text()) if it[0].startswith(f"{name}::"))

    def words(self, name):
        """The words of a check of a crate."""
        is_program = (self.folder / "crates" / name / "src/main.rt").exists()
        words = ["--crate-name", name, "src/main.rt" if is_program else "src/lib.rt", "--jobs", "1", "--links", f"{name}="]
        for it in ["std", *self.below[name]]:
            rlib = self.rlib(it) if it in self.below else self.kit / "rlibs" / f"{it}.rlib"
            words += ["--extern", f"{it}={rlib}"]
        for it in [self.kit / "rlibs", *(self.rlib(it).parent for it in self.own(name))]:
            words += ["-L", f"dependency={it}"]
        words += ["--antt-project", f"{self.kit}/rattle/logic/antt-project.json", "--logic-built", f"{self.kit}/logic_built"]
        return words + (["--crate-type", "staticlib"] if "staticlib" in self.flags[name] else [])

    def said(self):
        """What the gate has said so far."""
        return self.log.read_text(errors="replace") if self.log.exists() else ""


def said_of(name, text):
    """What the gate said of a crate that it has proved; nothing, where its proof is kept from an earlier run."""
    return "".join(re.findall(rf"^== {name}\n(.*?)^rt: {name} proved$", text, re.M | re.S))


def main(folder, log, *names):
    tree, printing = Tree(folder, log), threading.Lock()
    sources = Path(__file__).resolve().parent.parent / "crates"
    waiting = [it for it in tree.below if edits_of(it, sources / it) and (not names or it in names)]
    passed, failed = 0, 0

    def work(name, said):
        nonlocal passed, failed
        lines, refused, count = Crate(tree, name, sources / name, said).try_all()
        with printing:
            print("\n".join(lines), flush=True)
            passed, failed = passed + refused, failed + count - refused

    with ThreadPoolExecutor(len(os.sched_getaffinity(0))) as pool:
        runs = []
        while waiting:
            text = tree.said()
            proved = set(IS_PROVED.findall(text))
            runs += [pool.submit(work, it, said_of(it, text)) for it in waiting if it in proved]
            waiting = [it for it in waiting if it not in proved]
            if re.search(r"^\d+ passed, \d+ failed$", text, re.M):
                break
            time.sleep(5)
        for it in runs:
            it.result()
    for it in waiting:
        count = len(edits_of(it, sources / it))
        failed += count
        print(f"{it}: {count} edits not tried, since the crate isn't proved")
    print(f"{passed} passed, {failed} failed")
    return 1 if failed else 0


if __name__ == "__main__":
    if len(sys.argv) < 3:
        sys.exit(__doc__)
    sys.exit(main(*sys.argv[1:]))
