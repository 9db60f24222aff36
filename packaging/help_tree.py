"""The tree of the command's words, as its own help tells it. What the help has and this doesn't understand ends the program."""

import dataclasses
import re
import subprocess
import sys

# a value of an option or an argument: one of some words, a table's name or path, a path, or something else
CHOICES, TABLE, FILE, OTHER = "choices", "table", "file", "other"


@dataclasses.dataclass
class Value:
    """What stands at the place of a value: its name in the help, its kind, and the words where only some are allowed."""

    name: str
    kind: str
    choices: tuple[str, ...] = ()
    optional: bool = False
    many: bool = False


@dataclasses.dataclass
class Option:
    """An option: its spellings, short first, its value if it takes one, and what the help says of it."""

    names: list[str]
    value: Value | None
    help: str


@dataclasses.dataclass
class Argument:
    """A word by its place, and what the help says of it."""

    value: Value
    help: str


@dataclasses.dataclass
class Page:
    """The help of one command: the words that lead to it, and what it says."""

    words: tuple[str, ...]
    about: str
    usage: str
    commands: list["Page"] = dataclasses.field(default_factory=list)
    arguments: list[Argument] = dataclasses.field(default_factory=list)
    options: list[Option] = dataclasses.field(default_factory=list)
    notes: list[str] = dataclasses.field(default_factory=list)
    examples: list[str] = dataclasses.field(default_factory=list)
    statuses: str = ""

    @property
    def name(self):
        """The word that names the command."""
        return self.words[-1]

    def walk(self):
        """This page, and all below it."""
        yield self
        for page in self.commands:
            yield from page.walk()


def told(program, *words):
    """What the program writes."""
    run = subprocess.run([program, *words], stdin=subprocess.DEVNULL, capture_output=True, check=False)
    if run.returncode != 0 or run.stderr:
        sys.exit(f"{program} {' '.join(words)}: status {run.returncode}: {run.stderr.decode(errors='replace').strip()}")
    return run.stdout.decode()


def kind_of(name, text, before):
    """The kind of a value by its name and its help; `before` is the kind of the argument before it."""
    if text.startswith(("The other one", "The same")) and before:
        return before
    if name == "TABLE" or re.search(r"\btables?\b", text) and name not in ("FILE", "INPUT"):
        return TABLE
    return FILE if name in ("FILE", "INPUT") or re.search(r"\bpath\b", text) else OTHER


def option_of(line):
    """The option that a line tells of."""
    found = re.fullmatch(r" {2,6}((?:-\w, )?--[a-z-]+)(?: <([^>]+)>)?(?:  +(.*))?", line)
    if not found:
        sys.exit(f"no option is understood here: {line}")
    names, value, text = found[1].split(", "), found[2], found[3] or ""
    if value is None:
        return Option(names, None, text)
    choices = re.search(r"\[possible values: ([^\]]*)\]", text)
    if choices:
        return Option(names, Value(value, CHOICES, tuple(choices[1].split(", "))), text)
    return Option(names, Value(value, {"TABLE": TABLE, "FILE": FILE}.get(value, OTHER)), text)


def argument_of(line, before):
    """The argument that a line tells of."""
    found = re.fullmatch(r"  (?:<([^>]+)>|\[([^\]]+)\])(\.\.\.)?(?:  +(.*))?", line)
    if not found:
        sys.exit(f"no argument is understood here: {line}")
    name, text = found[1] or found[2], found[4] or ""
    return Argument(Value(name, kind_of(name, text, before), optional=found[1] is None, many=bool(found[3])), text)


def sections_of(text):
    """The paragraphs of a help: a list of lists of lines."""
    return [block.split("\n") for block in re.split(r"\n\n+", text.strip("\n"))]


def page_of(program, words):
    """The page of a command, with all below it."""
    blocks = sections_of(told(program, *words[1:], "--help"))
    page = Page(words, " ".join(blocks[0]), "")
    for first, *rest in blocks[1:]:
        if first.startswith("Usage: "):
            page.usage = " ".join([first.removeprefix("Usage: "), *(line.strip() for line in rest)])
        elif first == "Commands:":
            names = [line.split()[0] for line in rest]
            page.commands = [page_of(program, (*words, name)) for name in names if name != "help"]
        elif first == "Arguments:":
            for line in rest:
                page.arguments.append(argument_of(line, page.arguments[-1].value.kind if page.arguments else ""))
        elif first == "Options:":
            page.options = [option_of(line) for line in rest]
        elif first in ("Example:", "Examples:"):
            page.examples = rest
        elif first.startswith("Ends with status"):
            page.statuses = " ".join([first, *rest])
        else:
            page.notes.append("\n".join([first, *rest]))
    if not page.usage or not page.options:
        sys.exit(f"{' '.join(words)}: its help has no usage or no options")
    return page


def tree_of(program):
    """The pages of all commands of the program."""
    return page_of(program, ("rumpadol",))


def built_in_tables(program):
    """The names of the built-in tables."""
    return [line.split()[0] for line in told(program, "table", "list").splitlines()]


def version_of(program):
    """The version of the program."""
    return told(program, "--version").split()[-1]
