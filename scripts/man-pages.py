#!/usr/bin/env python3
"""Writes the man pages of the command and of each of its jobs, from its own help: man-pages.py PROGRAM FOLDER"""

import pathlib
import re
import sys

sys.path.insert(0, str(pathlib.Path(__file__).resolve().parent.parent / "packaging"))
import help_tree  # noqa: E402  (it lies in another folder)


def escaped(text):
    """The text as roff shows it."""
    text = text.replace("\\", "\\e").replace("-", "\\-").replace("'", "\\(aq").replace("`", "\\(ga").replace("^", "\\(ha")
    text = text.replace("~", "\\(ti").replace('"', "\\(dq")
    # the name of a page isn't broken at the end of a line
    text = re.sub(r"\b(rumpadol\\-\w+\(1\))", r"\\%\1", text)
    return "\n".join("\\&" + line if line.startswith(".") else line for line in text.split("\n"))


def bold(text):
    """The text in bold."""
    return f"\\fB{escaped(text)}\\fR"


def slanted(text):
    """The name of a value."""
    return f"\\fI{escaped(text)}\\fR"


def list_of(heading, entries):
    """A section of terms and texts, if there are any."""
    if not entries:
        return []
    lines = [heading]
    for term, text in entries:
        lines += [".TP", term, escaped(text) or "\\&"]
    return lines


def options_of(page):
    """The terms and texts of the options."""
    return [
        (", ".join(map(bold, option.names)) + (f" {slanted(option.value.name)}" if option.value else ""), option.help)
        for option in page.options
    ]


def arguments_of(page):
    """The terms and texts of the arguments."""
    return [(slanted(argument.value.name), argument.help) for argument in page.arguments]


def usage_of(page):
    """The usage: the words of the command in bold."""
    words = " ".join(page.words)
    return bold(words) + escaped(page.usage.removeprefix(words))


def examples_of(page):
    """The examples as they stand in the help."""
    return [".PP", ".nf", *map(escaped, page.examples), ".fi"] if page.examples else []


def notes_of(page):
    """The paragraphs of a page: one for each sentence that stands on lines of its own."""
    lines = []
    for note in page.notes:
        lines += [".PP", escaped(note)]
    return lines


def nested_of(page):
    """A section for each command below a job."""
    if not page.commands:
        return []
    lines = [".SH COMMANDS"]
    for inner in page.commands:
        lines += [f".SS {escaped(' '.join(inner.words[1:]))}", escaped(inner.about) + ".", ".PP", usage_of(inner)]
        lines += list_of(".PP", arguments_of(inner)) + list_of(".PP", options_of(inner))
        lines += notes_of(inner) + examples_of(inner)
    return lines


def page_text(page, root, version):
    """The man page of the command, or of one of its jobs."""
    name = "-".join(page.words)
    about = page.about.rstrip(".")
    lines = [
        f'.\\" Written by scripts/man-pages.py from what {" ".join(page.words)} \\-\\-help says.',
        f'.TH {escaped(name.upper())} 1 "" "rumpadol {escaped(version)}" "Rumpadol"',
        ".SH NAME",
        f"{escaped(name)} \\- {escaped(about[0].lower() + about[1:])}",
        ".SH SYNOPSIS",
        usage_of(page),
        ".SH DESCRIPTION",
        escaped(about) + ".",
        *notes_of(page),
    ]
    if page is root:
        lines += list_of(".SH COMMANDS", [(bold(job.name), f"{job.about}: see rumpadol-{job.name}(1)") for job in page.commands])
    lines += list_of(".SH ARGUMENTS", arguments_of(page)) + list_of(".SH OPTIONS", options_of(page))
    if page is not root:
        lines += nested_of(page)
    if page.examples:
        lines += [".SH EXAMPLES", *examples_of(page)[1:]]
    lines += [".SH EXIT STATUS", escaped(page.statuses or root.statuses)]
    others = [job for job in root.commands if job is not page]
    names = ([] if page is root else ["rumpadol"]) + [f"rumpadol-{job.name}" for job in others]
    lines += [".SH SEE ALSO", ",\n".join(f"{bold(other)}(1)" for other in names)]
    return "\n".join(lines) + "\n"


def main():
    """Writes the pages, and their names to the output."""
    if len(sys.argv) != 3:
        sys.exit("man-pages.py: wanted are the program and a folder")
    program, folder = sys.argv[1], pathlib.Path(sys.argv[2])
    root = help_tree.tree_of(program)
    version = help_tree.version_of(program)
    folder.mkdir(parents=True, exist_ok=True)
    for page in [root, *root.commands]:
        path = folder / ("-".join(page.words) + ".1")
        path.write_text(page_text(page, root, version))
        print(path.name)


if __name__ == "__main__":
    main()
