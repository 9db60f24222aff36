#!/usr/bin/env python3
"""Counts how the house is kept: how long functions, files and lines are, and what has no words.

    house.py                prints the table
    house.py --places WORD  prints each place that the measures with this word in their title count
    house.py --check        prints nothing of it: tells each place where a measure isn't 0 that has to be, and ends with status 1
                            where there is one; the last line is 'N passed, M failed', of these measures. What stands apart isn't
                            checked
    house.py --page PAGE    writes the table into PAGE, between <!-- house --> and <!-- end -->; with --check only tells whether it
                            stands there. The last column keeps what the page has
    house.py --of FOLDER    counts a crate elsewhere, with folders src and specs, and prints its table; with --page it is the last column

It reads `src/**/*.rt` and `specs/**/*.antt` of each crate, but for files `tests.rt` and those whose first line says that a script made
them. What only tests and measures stands apart, in a column of its own: the crates `*_tests`, `iso_bench` and `iso_memory`.

- A function is one with a body. Its lines are those from `fn` to the closing brace, with comments and blank lines, and without its
  clauses and what stands between these. A loop is a `for`, `while` or `loop`; a closure given to a call is none.
- A public item is a `pub` function, type, trait, constant or module, or a function that a public trait declares. Its comment is the `///`
  above it; that of a module may be the `//!` of its file.
- A clause is an `ensures` or a `requires`, with all lines that it goes on over. A ghost item is a view or an invariant.
- A definition is what has a signature or is a record or a type in specs/, where a proof that stands there counts as well. Its comment is
  the line of `--` right above it, where that is no heading (`-- ----`).
- Its arguments by place are those that a use writes one after another. They are counted twice, and the greater count taken: on the left
  of its first equation, and before the last arrow of its type. `(a b : T)` are two, `{a : T}` is none, and a `module _ (a : T) where`
  adds its own. A record has those of its head.
- A name has two definitions where two of one crate have it, in files of their own or not. Operators (`◌+◌`) aren't counted.
- A line is too long beyond 100 columns. Of specs/ these are lines that belong to a definition, so neither `use` nor comments.
- What proofs cite is counted by lemmas.py, which says how.
"""
import argparse
import pathlib
import re
import sys
from typing import NamedTuple

from clauses import behind_angles, behind_blanks, behind_bracket, without_literals
from lemmas import foreign_cites, uncited_lemmas

ROOT = pathlib.Path(__file__).resolve().parent.parent
CRATES = ROOT / "crates"
# what promises nothing to anybody else
APART = {"iso_memory", "iso_bench"}
BEGIN, END = "<!-- house -->", "<!-- end -->"
TITLES = ["Measure", "Count", "Of", "Share", "Tests and benchmarks", "`httparse`, a proved port of the toolchain"]

WIDEST = 100
# as the toolchain's own `httparse`
LONGEST_FUNCTION = 27
MOST_ARGUMENTS = 5

FN = re.compile(r"\bfn\s+(\w+)")
CLAUSE = re.compile(r"\b(?:ensures|requires)\b\s*\*?\s*\w*\s*(?=\{)")
GHOST = re.compile(r"\bghost\s+(?:view|invariant)\s*=\s*(?=\{)")
LOOP = re.compile(r"\b(?:for\b(?!\s*<)|while\b|loop\b)")
PUBLIC = re.compile(
    r"^[ \t]*pub\s+(?:(?:const|unsafe|async)\s+(?=fn))?(fn|struct|enum|union|trait|type|const|static|mod)\s+(\w+)", re.MULTILINE)
TRAIT = re.compile(r"^[ \t]*pub\s+(?:unsafe\s+)?trait\s+\w+", re.MULTILINE)

# the head of a definition: its marks and its name; what isn't one
SIGNED = re.compile(r"(?:(?:pattern|unfoldable|abbrev|axiom|pub)\s+)*(?:(record|data)\s+)?(\S+)")
NO_DEFINITION = re.compile(r"(?:pub\s+)?(?:use|mod|module|open)\b|infix[lr]?\b|unfolding\b|--|\{-")
MODULE = re.compile(r"(?:pub\s+)?module\b")


class Place(NamedTuple):
    """What is counted, and where it stands."""
    path: pathlib.Path
    line: int
    what: str


class Measure(NamedTuple):
    """How many of some things are so, and which."""
    title: str
    places: list
    of: int
    is_zero: bool    # whether none may be so
    most: int = 0    # of a measure that tells the most in place of a count


def counted_by(path):
    """A file's lines, and its text with blanks in place of comments and literals."""
    text = path.read_text()
    return text.split("\n")[:-1], without_literals(text)


class Source:
    """A file of code: its functions, clauses, ghost items and public items."""

    def __init__(self, path):
        self.path = path
        self.lines, self.code = counted_by(path)
        self.functions = []    # the place, how many lines, how many loops
        self.clauses = [self.span_of(found, "clause") for found in CLAUSE.finditer(self.code)]
        self.ghosts = [self.span_of(found, "ghost item") for found in GHOST.finditer(self.code)]
        for found in FN.finditer(self.code):
            self.read_function(found)
        self.items = list(self.public_items())

    def line_of(self, at):
        return self.code.count("\n", 0, at) + 1

    def span_of(self, found, what):
        """The lines of a text in braces that begins with this, and whether one of them is too long."""
        first = self.line_of(found.start())
        last = self.line_of(behind_bracket(self.code, found.end()) - 1)
        wide = [number for number in range(first, last + 1) if len(self.lines[number - 1]) > WIDEST]
        return Place(self.path, wide[0] if wide else first, what), bool(wide)

    def read_function(self, found):
        """Keeps a function, if it has a body."""
        code = self.code
        at = behind_blanks(code, behind_angles(code, behind_blanks(code, found.end())))
        at = behind_bracket(code, at)
        head = at
        has_clauses = False
        while code[at] not in "{;":
            clause = CLAUSE.match(code, at)
            if clause:
                has_clauses = True
                at = behind_bracket(code, clause.end())
                continue
            at = behind_bracket(code, at) if code[at] in "([" else at + 1
            if not has_clauses and not code[at - 1].isspace():
                head = at
        if code[at] == ";":
            return
        end = behind_bracket(code, at)
        first, opens, last = self.line_of(found.start()), self.line_of(at), self.line_of(end - 1)
        left_out = opens - self.line_of(head - 1) - 1 if has_clauses else 0
        loops = len(LOOP.findall(CLAUSE.sub(" ", code[at:end])))
        self.functions.append((Place(self.path, first, f"fn {found[1]}"), last - first + 1 - left_out, loops))

    def public_items(self):
        """Each public item, and whether it has a comment."""
        for found in PUBLIC.finditer(self.code):
            yield self.item(found.start(1), found[1], found[2])
        for trait in TRAIT.finditer(self.code):
            opens = self.code.index("{", trait.end())
            for found in FN.finditer(self.code, opens, behind_bracket(self.code, opens)):
                yield self.item(found.start(), "fn", found[1])

    def item(self, at, kind, name):
        line = self.line_of(at)
        above = line - 1
        while above and re.match(r"\s*(?:#\[|[^/\s].*\]$)", self.lines[above - 1]):
            above -= 1
        has_words = bool(above) and self.lines[above - 1].lstrip().startswith("///")
        if kind == "mod" and not has_words:
            folder = self.path.parent if self.path.stem in ("lib", "main", "mod") else self.path.with_suffix("")
            inner = next((file for file in (folder / f"{name}.rt", folder / name / "mod.rt") if file.exists()), None)
            has_words = inner is not None and inner.read_text().startswith("//!")
        return Place(self.path, line, f"{kind} {name}"), has_words


def split_outside(text, mark):
    """The parts of a text between these words, where they stand in no bracket."""
    parts, depth, begin = [], 0, 0
    for at, character in enumerate(text):
        if character in "([{⟦":
            depth += 1
        elif character in ")]}⟧":
            depth -= 1
        elif depth == 0 and text.startswith(mark, at):
            before, behind = text[at - 1:at], text[at + len(mark):at + len(mark) + 1]
            if (not before or before.isspace()) and (not behind or behind.isspace()):
                parts.append(text[begin:at])
                begin = at + len(mark)
    return parts + [text[begin:]]


def words_of(text):
    """What stands in a text one after another: words, and brackets with all that they hold."""
    words, depth, begin = [], 0, None
    for at, character in enumerate(text + " "):
        if depth == 0 and character.isspace():
            if begin is not None:
                words.append(text[begin:at])
            begin = None
            continue
        if begin is None:
            begin = at
        depth += (character in "([{") - (character in ")]}")
        if depth == 0 and character in ")]}" and at + 1 < len(text) and text[at + 1] in "([{":
            words.append(text[begin:at + 1])
            begin = None
    return words


def names_in(text):
    """How many names the binders `(a b : T) (c : U)` have, or None where the text is no binders."""
    count = 0
    for word in words_of(text):
        parts = split_outside(word[1:-1], ":")
        if word[0] not in "({" or len(parts) < 2:
            return None
        count += len(parts[0].split()) if word[0] == "(" else 0
    return count


def arguments_of(kind):
    """How many arguments by place a function of this type has."""
    domains = split_outside(kind, "→")[:-1]
    return sum(1 if names_in(domain) is None else names_in(domain) for domain in domains)


class Definition:
    """A definition: where it stands, whether it has words, and how many arguments by place."""

    def __init__(self, place, text, name, is_headed, is_worded, added):
        self.place, self.name, self.is_worded, self.added = place, name, is_worded, added
        head, *kind = split_outside(text, ":")
        kind = " : ".join(kind)
        self.arguments = arguments_of(kind)
        if is_headed:
            head = head[head.index(name) + len(name):]
            self.arguments = (names_in(head) or 0) + arguments_of(re.sub(r"\bwhere\b.*", "", kind, flags=re.DOTALL))
        self.has_equation = is_headed

    def take(self, text):
        """Counts the arguments on the left of its first equation."""
        left = split_outside(text, "=")[0]
        if not self.has_equation and "◌" not in self.name:
            self.arguments = max(self.arguments, len([word for word in words_of(left)[1:] if word[0] != "{"]))
        self.has_equation = True

    def all_arguments(self):
        return self.arguments + self.added


class Specification:
    """A file of definitions."""

    def __init__(self, path):
        self.path = path
        self.lines = path.read_text().split("\n")[:-1]
        self.definitions = []
        self.own_lines = []    # the numbers of lines that belong to definitions
        self.read(0, len(self.lines), 0, 0)

    def read(self, first, end, indent, added):
        """Reads the declarations of a block, whose lines begin at this column."""
        begin = first
        while begin < end:
            line = self.lines[begin]
            if not line.strip() or line.lstrip().startswith("--"):
                begin += 1
                continue
            behind = begin + 1
            while behind < end and (not self.lines[behind].strip() or self.indent_of(behind) > indent):
                behind += 1
            self.read_one(begin, behind, added)
            begin = behind

    def indent_of(self, number):
        return len(self.lines[number]) - len(self.lines[number].lstrip())

    def read_one(self, begin, end, added):
        """Reads the declaration in these lines."""
        own = [number for number in range(begin, end) if self.lines[number].strip() and not self.lines[number].lstrip().startswith("--")]
        if MODULE.match(self.lines[begin].strip()):
            head = next(number for number in own if re.search(r"\bwhere$", self.lines[number]))
            binders = re.search(r"module\s+\S+(.*)\bwhere", " ".join(self.lines[begin:head + 1]))[1]
            inner = [number for number in own if number > head]
            self.own_lines += [number for number in own if number <= head]
            if inner:
                self.read(head + 1, end, self.indent_of(inner[0]), added + (names_in(binders) or 0))
            return
        text = re.sub(r"\s--\s.*", "", "\n".join(self.lines[number] for number in own), flags=re.MULTILINE)
        if NO_DEFINITION.match(text.strip()):
            return
        self.own_lines += own
        left = split_outside(text.strip(), "=")[0]
        found = SIGNED.match(text.strip())
        if found[1] or len(split_outside(left, ":")) > 1:
            above = self.lines[begin - 1].strip() if begin else ""
            is_worded = above.startswith("--") and not above.startswith("-- ----")
            place = Place(self.path, begin + 1, found[2])
            self.definitions.append(Definition(place, text.strip(), found[2], bool(found[1]), is_worded, added))
        elif self.definitions:
            self.definitions[-1].take(text.strip())


def is_written(path):
    """Whether somebody wrote a file, and no script."""
    with path.open() as file:
        return "made by scripts/" not in file.readline()


def files_of(folders, kind, pattern):
    """The files of some crates, file by file."""
    paths = [path for folder in folders for path in sorted((folder / kind).rglob(pattern))]
    return [path for path in paths if path.name != "tests.rt" and is_written(path)]


def proof_files(folders):
    """The files of proofs of some crates."""
    return (path for folder in folders for path in (folder / "proofs").rglob("*.antt"))


def over(paths, most):
    """The files that have more lines than this."""
    sizes = [(path, path.read_text().count("\n")) for path in paths]
    return [Place(path, most + 1, f"{size} lines") for path, size in sizes if size > most]


def given_twice(definitions):
    """The definitions whose name another one of the same crate has: a word with two senses. An operator is read by what it stands on."""
    firsts = {}
    for one in definitions:
        if "◌" not in one.name:
            crate = str(one.place.path).partition("/specs/")[0]
            firsts.setdefault((crate, one.name), []).append(one.place)
    return [place for places in firsts.values() for place in places[1:]]


def measures_of(folders):
    """All measures of some crates."""
    sources = [Source(path) for path in files_of(folders, "src", "*.rt")]
    specifications = [Specification(path) for path in files_of(folders, "specs", "*.antt")]
    code, specs = [source.path for source in sources], [one.path for one in specifications]
    functions = [function for source in sources for function in source.functions]
    items = [item for source in sources for item in source.items]
    clauses = [clause for source in sources for clause in source.clauses]
    ghosts = [ghost for source in sources for ghost in source.ghosts]
    definitions = [definition for one in specifications for definition in one.definitions]
    lines = [Place(one.path, number + 1, "line") for one in specifications for number in one.own_lines]
    wide = [Place(one.path, number + 1, "line") for one in specifications for number in one.own_lines if len(one.lines[number]) > WIDEST]
    longest = max(functions, key=lambda function: function[1], default=(None, 0, 0))
    foreign = [Place(*cite) for folder in folders for cite in foreign_cites(folder)]
    uncited = [uncited_lemmas(folder) for folder in folders]

    def is_long(function):
        return function[1] > LONGEST_FUNCTION
    return [
        Measure(f"functions over {LONGEST_FUNCTION} lines", [one[0] for one in functions if is_long(one)], len(functions), True),
        Measure("lines of the longest function", [longest[0]], 0, False, longest[1]),
        Measure("functions with more than one loop", [one[0] for one in functions if one[2] > 1], len(functions), True),
        Measure("files of code over 250 lines", over(code, 250), len(code), False),
        Measure("files of code over 400 lines", over(code, 400), len(code), True),
        Measure("files of definitions over 250 lines", over(specs, 250), len(specs), True),
        Measure("files of definitions over 400 lines", over(specs, 400), len(specs), True),
        Measure("public items without a comment", [place for place, worded in items if not worded], len(items), True),
        Measure("clauses with a line over 100 columns", [place for place, is_wide in clauses if is_wide], len(clauses), True),
        Measure("ghost views and invariants with such a line", [place for place, is_wide in ghosts if is_wide], len(ghosts), True),
        Measure("definitions without a comment", [one.place for one in definitions if not one.is_worded], len(definitions), True),
        Measure("names with two definitions in a crate", given_twice(definitions), len(definitions), True),
        Measure("definitions with more than five arguments by place",
                [one.place for one in definitions if one.all_arguments() > MOST_ARGUMENTS], len(definitions), True),
        Measure("lines of definitions over 100 columns", wide, len(lines), True),
        Measure("citations of another crate's proofs", foreign, len(list(proof_files(folders))), True),
        Measure("lemmas that nothing cites", [Place(*one) for dead, _ in uncited for one in dead], sum(count for _, count in uncited), True),
    ]


def share_of(measure):
    return f"{100 * len(measure.places) / measure.of:.1f} %" if measure.of else ""


def short_cell(measure):
    """A measure in one cell."""
    if measure.most or not measure.of:
        return f"{measure.most:,}" if measure.most else ""
    return f"{len(measure.places):,} of {measure.of:,}"


def row(cells):
    return "".join(f"| {cell} " if cell else "| " for cell in cells) + "|"


def table_of(house, apart, beside):
    """The table: what the house has, what stands apart, and the cells beside them by their titles."""
    lines = [row(TITLES), "|---|" + "---:|" * (len(TITLES) - 1)]
    for one, other in zip(house, apart):
        counts = [f"{one.most:,}", "", ""] if one.most else [f"{len(one.places):,}", f"{one.of:,}", share_of(one)]
        lines.append(row([one.title, *counts, short_cell(other), beside.get(one.title, "")]))
    return lines


def kept_beside(lines):
    """The last cells of the rows that stand in a page, by their titles."""
    cells = [[cell.strip() for cell in line.split("|")[1:-1]] for line in lines if line.startswith("|")]
    return {row[0]: row[-1] for row in cells if len(row) == len(TITLES)}


def tell(measure, why):
    """Tells each place that a measure counts."""
    for place in measure.places:
        print(f"{place.path.relative_to(ROOT)}:{place.line}: {place.what}: {why}")


def failures_of(measures):
    """Tells what isn't 0 and has to be, and how many measures that are."""
    failed = [measure for measure in measures if measure.is_zero and measure.places]
    for measure in failed:
        tell(measure, f"there have to be no {measure.title}")
    return len(failed)


def main():
    words = argparse.ArgumentParser(add_help=False)
    words.add_argument("--check", action="store_true")
    words.add_argument("--page", type=pathlib.Path)
    words.add_argument("--of", type=pathlib.Path)
    words.add_argument("--places")
    given = words.parse_args()
    if given.of and not given.page:
        for measure in measures_of([given.of]):
            print(f"{short_cell(measure):>14}  {measure.title}")
        return
    folders = sorted(path.parent for path in CRATES.glob("*/src"))
    is_apart = {folder: folder.name in APART or folder.name.endswith("_tests") for folder in folders}
    house = measures_of([folder for folder in folders if not is_apart[folder]])
    apart = measures_of([folder for folder in folders if is_apart[folder]])
    if given.places:
        for measure in house:
            if given.places in measure.title:
                tell(measure, measure.title)
        return
    has_failed = checks = 0
    if given.check:
        has_failed = failures_of(house)
        checks = sum(measure.is_zero for measure in house)
    if given.page:
        lines = given.page.read_text().split("\n")
        begin, end = lines.index(BEGIN) + 1, lines.index(END, lines.index(BEGIN))
        beside = kept_beside(lines[begin:end])
        if given.of:
            beside = {measure.title: short_cell(measure) for measure in measures_of([given.of])}
        made = table_of(house, apart, beside)
        if not given.check:
            given.page.write_text("\n".join(lines[:begin] + made + lines[end:]))
        elif lines[begin:end] != made:
            print(f"{given.page}:{begin + 1}: the table is stale: run scripts/house.py --page {given.page}")
            has_failed += 1
        checks += 1
    elif not given.check:
        print("\n".join(table_of(house, apart, {})))
    if given.check:
        print(f"{checks - has_failed} passed, {has_failed} failed")
        sys.exit(has_failed > 0)


if __name__ == "__main__":
    main()
