#!/usr/bin/env python3
"""Makes docs/CLAUSES.md from the sources: each clause of each public function, with the words that stand above it.

    clauses.py            writes the page
    clauses.py --check    writes nothing: tells where the page isn't what this would write, and which clauses have no words, and
                          ends with status 1 where there is either; the last line is 'N passed, M failed', of the clauses and the page

The words of a clause are the lines of `//` right above it. An `ensures` without any takes the first paragraph of the function's
description, where the function has no other one.
"""

import pathlib
import re
import sys
from typing import NamedTuple

ROOT = pathlib.Path(__file__).resolve().parent.parent
CRATES = ROOT / "crates.txt"
PAGE = ROOT / "docs" / "CLAUSES.md"
# crates that promise nothing to anybody else
LEFT_OUT = {"iso_memory", "iso_bench"}
# the line above the heading of a crate, to which other pages link
MARK = '<a id="{}"></a>'

INTRODUCTION = """\
# All clauses

A clause stands at a function, and the prover checks it for every input before anything is built. `ensures` says what the call gives and
what it leaves. `requires` says what its caller owes: the prover refuses a call whose caller doesn't show it, and at run time nothing
looks. Clauses have names where there are several; "the contract" is a clause without a name.

"Memory aside": the call may answer that memory ran out instead. It then leaves what it was lent as it was, unless a clause says otherwise.

[PROOFS](PROOFS.md) says what the clauses promise together, what they leave open, and what is only tested or trusted. A clause itself is
written in words that `crates/NAME/specs` define. This page is made by `scripts/clauses.py`, from the comments above the clauses, and CI
compares it with them.

To read it:

- **A value** is what its type shows to clauses. A message is its type and its elements, whatever memory it has. An issuer is its whole
  journal, though no call but `Issuer::open_holds` looks through it. A driver is its acquirer's notes, its open transactions in the order in
  which they become due, its patience and the latest moment that it was told.
- **A stream** is known where its bytes are, as of a slice and a vector. Files, sockets and terminals tell no clause what they have.
- **A file** is as its disk says. Its clauses have the premises that no wrong answer of the disk was taken as true (`is_clean`), and that a
  read after a restart gives what is on it (`Only`).
- **A log** that was opened well is ready (`is_ready`); so is a driver over it (`IsDriving`). `IsKept` says that the calls of `Sides` made the
  orders beside purchases.
- **A call for C** that writes bytes answers how many they are; or -1 with a fault, and the room is as it was. Fault 1 is want of memory.
- **A law** is a function of a module `laws`, which does nothing. A proof cites it by calling it. No proof looks into another crate's
  proofs, but for two of `iso_c`, which cite what the toolchain makes for the type `Table`.
"""


class Clause(NamedTuple):
    """A clause, and where it stands."""
    kind: str    # ensures, requires
    name: str    # empty where it has none
    words: str
    path: pathlib.Path
    line: int


class Function(NamedTuple):
    """A public function that has clauses."""
    owner: str     # `Type`, `Trait` or `Trait for Type`, or nothing
    module: str    # where its file lies in the crate
    name: str
    description: str
    clauses: list


# what isn't code: comments, and literals of texts and characters
NO_CODE = re.compile(r"""
      //[^\n]*
    | /\*.*?\*/
    | (?<!\w) b? r(\#*) " .*? " \1
    | (?<!\w) b? " (?: \\. | [^"\\] )* "
    | (?<!\w) b? ' (?: \\ (?: x[0-9a-fA-F]{2} | u\{[^}]*\} | . ) | [^'\\\n] ) '
    """, re.DOTALL | re.VERBOSE)
FN = re.compile(r"(pub(?:\s*\([^)]*\))?\s+)?(?:(?:default|const|async|unsafe|extern)\s+)*fn\s+(\w+)")
TRAIT = re.compile(r"(pub(?:\s*\([^)]*\))?\s+)?(?:unsafe\s+)?trait\s+(\w+)")
IMPL = re.compile(r"(?:default\s+|unsafe\s+)*impl\b")
TYPE = re.compile(r"(?:pub(?:\s*\([^)]*\))?\s+)?(?:struct|enum|union|macro_rules!)\s")
MODULE = re.compile(r"(?:pub(?:\s*\([^)]*\))?\s+)?mod\s+\w+\s*(?=\{)")
CLAUSE = re.compile(r"(ensures|requires)\b\s*\*?\s*(\w*)\s*(?=\{)")
CLOSING = {"(": ")", "[": "]", "{": "}"}


def without_literals(text):
    """The text with blanks in place of what isn't code: each character stays at its place, and each line too."""
    return NO_CODE.sub(lambda found: re.sub(r"[^\n]", " ", found[0]), text)


def behind_bracket(code, at):
    """The place behind the bracket that closes the one at this place."""
    opened = []
    for place in range(at, len(code)):
        if code[place] in CLOSING:
            opened.append(CLOSING[code[place]])
        elif opened and code[place] == opened[-1]:
            opened.pop()
            if not opened:
                return place + 1
    raise ValueError("a bracket isn't closed")


def behind_angles(code, at):
    """The place behind the generic parameters that begin at this place, or the place itself where none do."""
    if code[at:at + 1] != "<":
        return at
    depth = 0
    for place in range(at, len(code)):
        if code[place] == "<":
            depth += 1
        elif code[place] == ">" and code[place - 1] not in "-=":
            depth -= 1
            if depth == 0:
                return place + 1
    raise ValueError("generic parameters aren't closed")


def behind_blanks(code, at):
    """The next place at which something stands."""
    while at < len(code) and code[at].isspace():
        at += 1
    return at


def until(code, at, ends):
    """The next place of one of these characters that stands in no bracket."""
    while at < len(code) and code[at] not in ends:
        at = behind_bracket(code, at) if code[at] in CLOSING else at + 1
    return at


def short_name(written):
    """A type or a trait without its path, its generic parameters and its reference: `Peers` of `&'l crate::Peers<'l, S>`."""
    bare = re.sub(r"^&?\s*(?:'\w+\s+)?(?:mut\s+|dyn\s+)?", "", written.strip())
    return bare.split("<")[0].strip().split("::")[-1]


def owner_of(header):
    """What an `impl` is of: `Type`, or `Trait for Type`."""
    header = re.split(r"\bwhere\b", header)[0]
    header = header[behind_angles(header, behind_blanks(header, 0)):]
    depth = 0
    for found in re.finditer(r"<|(?<![-=])>|\bfor\b", header):
        if found[0] == "for" and depth == 0:
            return f"{short_name(header[:found.start()])} for {short_name(header[found.end():])}"
        depth += {"<": 1, ">": -1}.get(found[0], 0)
    return short_name(header)


class Source:
    """A file of a crate, and the public functions in it that have clauses."""

    def __init__(self, path, folder):
        self.path = path.relative_to(ROOT)
        text = path.read_text()
        self.lines = text.split("\n")
        self.code = without_literals(text)
        parts = list(path.relative_to(folder).with_suffix("").parts)
        if parts[-1] in ("lib", "main", "mod"):
            parts.pop()
        self.module = "::".join(parts)
        self.functions = []
        try:
            self.read_items(0, len(self.code), "", False)
        except ValueError as error:
            sys.exit(f"clauses.py: {self.path}: {error}")

    def line_of(self, at):
        """The number of the line of a place, from 1."""
        return self.code.count("\n", 0, at) + 1

    def read_items(self, at, end, owner, takes_all):
        """Reads the items between two places, of a file, a module, an `impl` or a `trait`."""
        begin = at
        while True:
            at = behind_blanks(self.code, at)
            if at >= end:
                return
            if self.code[at] == "#":
                at = behind_bracket(self.code, self.code.index("[", at))
                continue
            at = self.read_item(begin, at, owner, takes_all)
            begin = at

    def read_item(self, begin, at, owner, takes_all):
        """Reads one item, whose description begins behind the one before. Gives the place behind it."""
        code = self.code
        found = FN.match(code, at)
        if found:
            is_public = takes_all or (found[1] or "").strip() == "pub"
            return self.read_function(begin, found, owner, is_public)
        found = TRAIT.match(code, at)
        if found:
            return self.read_body(found.end(), found[2], (found[1] or "").strip() == "pub")
        found = IMPL.match(code, at)
        if found:
            header = owner_of(code[found.end():until(code, found.end(), "{")])
            return self.read_body(found.end(), header, " for " in header)
        found = TYPE.match(code, at)
        if found:
            place = until(code, found.end(), "{;")
            return behind_bracket(code, place) if code[place:place + 1] == "{" else place + 1
        if MODULE.match(code, at):
            return self.read_body(at, "", False)
        return until(code, at, ";") + 1

    def read_body(self, at, owner, takes_all):
        """Reads what stands in the next braces. Gives the place behind them."""
        opens = until(self.code, at, "{")
        end = behind_bracket(self.code, opens)
        self.read_items(opens + 1, end - 1, owner, takes_all)
        return end

    def read_function(self, begin, found, owner, is_public):
        """Reads a function with its clauses, and keeps it where it is public and has any. Gives the place behind it."""
        code = self.code
        at = behind_blanks(code, behind_angles(code, behind_blanks(code, found.end())))
        at = behind_bracket(code, at)
        clauses = []
        while code[at] not in "{;":
            clause = CLAUSE.match(code, at) if not (code[at - 1].isalnum() or code[at - 1] == "_") else None
            if clause:
                line = self.line_of(at)
                clauses.append(Clause(clause[1], clause[2], self.words_above(line), self.path, line))
                at = behind_bracket(code, clause.end())
            else:
                at = behind_bracket(code, at) if code[at] in CLOSING else at + 1
        if is_public and clauses:
            description = self.description_in(self.line_of(begin), self.line_of(found.start()))
            self.functions.append(Function(owner, self.module, found[2], description, clauses))
        return behind_bracket(code, at) if code[at] == "{" else at + 1

    def words_above(self, line):
        """The comment right above a line, as one line."""
        if not re.match(r"\s*(?:ensures|requires)\b", self.lines[line - 1]):
            return ""
        above = []
        while line >= 2 and re.match(r"\s*//(?![/!])", self.lines[line - 2]):
            above.insert(0, self.lines[line - 2].strip()[2:].strip())
            line -= 1
        return " ".join(above).strip()

    def description_in(self, first, last):
        """The first paragraph of the description among these lines, as one line."""
        told = [line.strip()[3:].strip() for line in self.lines[first - 1:last] if line.strip().startswith("///")]
        paragraph = told[:told.index("")] if "" in told else told
        return " ".join(paragraph)


def first_sentence(path):
    """The first sentence of the description of a crate, as a heading has it."""
    told = []
    for line in path.read_text().split("\n"):
        if not line.startswith("//!") or (told and not line[3:].strip()):
            break
        told.append(line[3:].strip())
    sentence = re.split(r"(?<=\.)\s", " ".join(told).strip())[0].rstrip(".")
    return sentence[:1].lower() + sentence[1:] if sentence[1:2].islower() or sentence[1:2] == " " else sentence


def names_in(tree):
    """The names that a tree of `use` brings: `view` and `View` of `viewing::{view, View}`."""
    tree = re.sub(r"\b\w+\s+as\s+", "", tree)
    return set(re.findall(r"(\w+)\s*(?=[,}]|$)", tree.strip()))


class Crate:
    """A crate: what it is, its public functions that have clauses, and what of it other crates can call."""

    def __init__(self, name):
        self.name = name
        folder = ROOT / "crates" / name / "src"
        top = next((folder / file for file in ("lib.rt", "main.rt") if (folder / file).exists()), None)
        if top is None:
            sys.exit(f"clauses.py: {name} has neither src/lib.rt nor src/main.rt")
        self.title = first_sentence(top)
        self.is_program = top.stem == "main"
        code = without_literals(top.read_text())
        self.public_modules = set(re.findall(r"^pub mod (\w+)", code, re.MULTILINE))
        self.exported = set().union(*map(names_in, re.findall(r"^pub use ([^;]+);", code, re.MULTILINE)))
        # file by file, the laws last
        paths = sorted(folder.rglob("*.rt"), key=lambda path: (path.stem == "laws", path.relative_to(folder).parts))
        self.functions = [function for path in paths for function in Source(path, folder).functions]

    def called(self, function):
        """How the page names a call: with its type; or with its module where that is public, or another one has its name."""
        if function.owner:
            return f"{function.owner}::{function.name}"
        alike = [other for other in self.functions if not other.owner and other.name == function.name]
        if function.module and (function.module in self.public_modules or len(alike) > 1):
            return f"{function.module}::{function.name}"
        return function.name

    def is_outer(self, function):
        """Whether other crates can call a function. Nobody calls a program's, but they say what it does."""
        if self.is_program or not function.module or function.module in self.public_modules:
            return True
        return (function.owner.split(" for ")[-1] or function.name) in self.exported


def worded(function, clause):
    """The words of a clause: its own, or the function's where it has one clause of this kind."""
    alike = [other for other in function.clauses if other.kind == clause.kind]
    if clause.words or clause.kind != "ensures" or len(alike) > 1:
        return clause.words
    return function.description


def cell(text):
    """A text as a cell of a table has it: bars don't end the cell, and what isn't code is no markup."""
    text = re.sub(r"\[(`[^`]*`)\]", r"\1", text)
    pieces = re.split(r"(`[^`]*`)", text)
    escaped = [piece if piece.startswith("`") else re.sub(r"([*<])", r"\\\1", piece) for piece in pieces]
    return "".join(escaped).replace("|", "\\|")


def table_of(crate, functions):
    """The table of the clauses of some functions of a crate."""
    lines = ["| Call | Clause | In plain words |", "|---|---|---|"]
    for function in functions:
        name = f" `{crate.called(function)}` "
        for clause in function.clauses:
            if clause.kind == "ensures":
                what = f"`{clause.name}`" if clause.name else "the contract"
            else:
                what = f"requires `{clause.name}`" if clause.name else "requires"
            words = cell(worded(function, clause))
            lines.append(f"|{name}| {what} |{words and ' ' + words} |")
            name = " "
    return lines + [""]


def section_of(crate):
    """The section of a crate: what other crates can call, and then what they can't."""
    lines = [MARK.format(crate.name), "", f"## `{crate.name}`: {crate.title}", ""]
    outer = [function for function in crate.functions if crate.is_outer(function)]
    inner = [function for function in crate.functions if not crate.is_outer(function)]
    if outer:
        lines += table_of(crate, outer)
    if inner:
        lines += ["Inside the crate, where no other one can call them:", ""] + table_of(crate, inner)
    return lines


def crates():
    """The crates that the page tells, lowest first."""
    names = re.findall(r"^(\w+)[^:\n]*:", CRATES.read_text(), re.MULTILINE)
    told = [Crate(name) for name in names if name not in LEFT_OUT and not name.endswith("_tests")]
    return [crate for crate in told if crate.functions]


def sections_of(lines):
    """The lines of a page by the crate that they tell, the introduction under no name, each with the number of its first line."""
    sections, name = {"": (1, [])}, ""
    for number, line in enumerate(lines, 1):
        found = re.fullmatch(MARK.format(r"(\w+)"), line)
        if found:
            name = found[1]
            sections[name] = (number, [])
        sections[name][1].append(line)
    return sections


def stale_places(made):
    """Where the page isn't the one that was made: the number of a line of it, and what is stale there."""
    stands = sections_of(PAGE.read_text().split("\n")) if PAGE.exists() else {}
    wanted = sections_of(made)
    places = []
    for name in wanted | stands:
        first, lines = stands.get(name, (1, []))
        other = wanted.get(name, (1, []))[1]
        if lines != other:
            same = next((at for at, pair in enumerate(zip(lines, other)) if pair[0] != pair[1]), min(len(lines), len(other)))
            places.append((first + same, f"`{name}`" if name else "the introduction"))
    if not places and list(stands) != list(wanted):
        places.append((1, "the order of the crates"))
    return places


def main():
    told = crates()
    made = INTRODUCTION.split("\n") + [f"- [`{crate.name}`](#{crate.name}): {crate.title}" for crate in told] + [""]
    for crate in told:
        made += section_of(crate)
    clauses = [(function, clause) for crate in told for function in crate.functions for clause in function.clauses]
    silent = [(function, clause) for function, clause in clauses if not worded(function, clause)]
    if "--check" not in sys.argv[1:]:
        PAGE.write_text("\n".join(made))
        print(f"clauses.py: {len(clauses)} clauses, {len(silent)} of them without words")
        return
    stale = stale_places(made)
    for line, what in stale:
        print(f"{PAGE.relative_to(ROOT)}:{line}: {what} is stale: run scripts/clauses.py")
    for function, clause in silent:
        name = f"{clause.kind} {clause.name}".strip()
        print(f"{clause.path}:{clause.line}: no words above '{name}' of {function.name}")
    failed = len(silent) + bool(stale)
    print(f"{len(clauses) + 1 - failed} passed, {failed} failed")
    sys.exit(failed > 0)


if __name__ == "__main__":
    main()
