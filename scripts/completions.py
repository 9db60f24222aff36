#!/usr/bin/env python3
"""Writes what bash, zsh and fish complete of the command's words, from its own help: completions.py PROGRAM FOLDER"""

import pathlib
import shlex
import sys

sys.path.insert(0, str(pathlib.Path(__file__).resolve().parent.parent / "packaging"))
import help_tree  # noqa: E402  (it lies in another folder)
from help_tree import CHOICES, FILE, TABLE  # noqa: E402

MADE = "# Written by scripts/completions.py from what rumpadol --help says."

BASH = r"""
# what the word before the cursor belongs to: the command, the option whose value it is, and which argument
_rumpadol() {
    local word=${COMP_WORDS[COMP_CWORD]} at=rumpadol place=0 option="" kind="" names="" said i
    for ((i = 1; i < COMP_CWORD; i++)); do
        said=${COMP_WORDS[i]}
        if [[ $said == '=' ]]; then
            continue
        elif [[ -n $option ]]; then
            option=""
        elif [[ $said == -?* ]]; then
            kind=$(_rumpadol_kind "$at $said")
            [[ -z $kind ]] || option=$said
        elif [[ -n $(_rumpadol_names "$at $said") ]]; then
            at="$at $said"
        else
            place=$((place + 1))
        fi
    done
    [[ $word != '=' ]] || word=""
    if [[ -n $option ]]; then
        kind=$(_rumpadol_kind "$at $option")
    elif [[ $word == -* ]]; then
        kind=words names=$(_rumpadol_names "$at")
    else
        kind=$(_rumpadol_kind "$at $place")
    fi
    COMPREPLY=()
    case $kind in
        words) mapfile -t COMPREPLY < <(compgen -W "$names" -- "$word") ;;
        choices' '*) mapfile -t COMPREPLY < <(compgen -W "${kind#choices }" -- "$word") ;;
        file | table)
            compopt -o filenames 2> /dev/null
            mapfile -t COMPREPLY < <(
                [[ $kind != table ]] || compgen -W "@TABLES@" -- "$word"
                compgen -f -- "$word"
            )
            ;;
    esac
}
complete -F _rumpadol rumpadol
"""

FISH = r"""
# whether the commands before the cursor are these; of a command with others below it, whether none of them follows
function __rumpadol_at
    set -l said (commandline -opc)
    set -e said[1]
    set -l names
    for word in $said
        string match -q -- '-*' $word; or set -a names $word
    end
    set -l wanted $argv
    if test "$wanted[-1]" = --alone
        set -e wanted[-1]
        test (count $names) -eq (count $wanted); or return 1
    end
    test (count $wanted) -eq 0; and return 0
    test (count $names) -ge (count $wanted); or return 1
    test "$names[1..$(count $wanted)]" = "$wanted"
end
"""


def help_words(page):
    """What may stand behind `help` on a page: the commands below it."""
    return [inner.name for inner in page.commands]


def kind_words(value):
    """A value's kind as the completion of bash has it."""
    if value.kind == CHOICES:
        return "choices " + " ".join(value.choices)
    return value.kind


def bash_cases(lines):
    """The cases of a function, one a line."""
    return "\n".join(f"        {shlex.quote(pattern)}) echo {shlex.quote(text)} ;;" for pattern, text in lines)


def bash_of(root, tables):
    """The completion for bash."""
    names, kinds = [], []
    for page in root.walk():
        at = " ".join(page.words)
        names.append((at, " ".join(name for option in page.options for name in option.names)))
        kinds += [(f"{at} {name}", kind_words(option.value)) for option in page.options if option.value for name in option.names]
        if page.commands:
            kinds.append((f"{at} 0", "choices " + " ".join([*help_words(page), "help"])))
            names.append((f"{at} help", "--help"))
            kinds.append((f"{at} help 0", "choices " + " ".join(help_words(page))))
            for inner in filter(help_words, page.commands):
                names.append((f"{at} help {inner.name}", "--help"))
                kinds.append((f"{at} help {inner.name} 0", "choices " + " ".join(help_words(inner))))
        kinds += [(f"{at} {place}", kind_words(argument.value)) for place, argument in enumerate(page.arguments)]
    return "\n".join([
        MADE,
        "# shellcheck shell=bash",
        "",
        "# COMMAND: the spellings of its options",
        "_rumpadol_names() {",
        '    case "$1" in',
        bash_cases(names),
        "    esac",
        "}",
        "",
        "# COMMAND OPTION or COMMAND PLACE: what stands there",
        "_rumpadol_kind() {",
        '    case "$1" in',
        bash_cases(kinds),
        "    esac",
        "}",
    ]) + "\n" + BASH.replace("@TABLES@", " ".join(tables))


def zsh_text(text):
    """The text inside the brackets of a specification of zsh."""
    return text.replace("\\", "\\\\").replace("[", "\\[").replace("]", "\\]").replace(":", "\\:")


def zsh_action(value):
    """What zsh completes as a value."""
    if value.kind == CHOICES:
        return f"({' '.join(value.choices)})"
    return {TABLE: "_rumpadol_tables", FILE: "_files"}.get(value.kind, " ")


def zsh_options(page):
    """The specifications of a page's options."""
    words = []
    for option in page.options:
        value = f":{zsh_text(option.value.name)}:{zsh_action(option.value)}" if option.value else ""
        for name in option.names:
            once = "(- *)" if name in ("-h", "--help", "-V", "--version") else "*" if option.value else ""
            words.append(shlex.quote(f"{once}{name}[{zsh_text(option.help)}]{value}"))
    return words


def zsh_function(page):
    """The function of a page, and those of all below it."""
    name = "_" + "_".join(page.words)
    words = zsh_options(page)
    if not page.commands:
        for place, argument in enumerate(page.arguments):
            kind = "::" if argument.value.optional else ":"
            words.append(shlex.quote(f"{place + 1}{kind}{zsh_text(argument.value.name)}:{zsh_action(argument.value)}"))
        return [f"{name}() {{", "    _arguments -s \\", " \\\n".join(f"        {word}" for word in words), "}", ""]
    commands = [shlex.quote(f"{inner.name}:{inner.about}") for inner in page.commands] + ["'help:Print help'"]
    lines = [
        f"{name}() {{",
        "    local context state state_descr line",
        "    typeset -A opt_args",
        "    _arguments -C \\",
        " \\\n".join(f"        {word}" for word in [*words, "'1: :->command'", "'*:: :->words'"]),
        "    case $state in",
        "        command)",
        "            local -a commands=(",
        *(f"                {command}" for command in commands),
        "            )",
        "            _describe -t commands command commands",
        "            ;;",
        "        words)",
        "            case $line[1] in",
        *(f"                {inner.name}) _{'_'.join(inner.words)} ;;" for inner in page.commands),
        f"                help) _arguments '1:command:({' '.join(help_words(page))})' ;;",
        "            esac",
        "            ;;",
        "    esac",
        "}",
        "",
    ]
    for inner in page.commands:
        lines += zsh_function(inner)
    return lines


def zsh_of(root, tables):
    """The completion for zsh."""
    return "\n".join([
        "#compdef rumpadol",
        MADE,
        "",
        "_rumpadol_tables() {",
        f"    _alternative 'tables:built-in table:({' '.join(tables)})' 'files:document:_files'",
        "}",
        "",
        *zsh_function(root),
        'if [ "$funcstack[1]" = "_rumpadol" ]; then',
        '    _rumpadol "$@"',
        "else",
        "    compdef _rumpadol rumpadol",
        "fi",
        "",
    ])


def fish_value(value, tables):
    """The words of fish for a value."""
    if value.kind == CHOICES:
        return f"-x -a {shlex.quote(' '.join(value.choices))}"
    return {TABLE: f"-r -F -a {shlex.quote(' '.join(tables))}", FILE: "-r -F"}.get(value.kind, "-x")


def fish_text(text):
    """A text in quotes, as fish reads it."""
    return "'" + text.replace("\\", "\\\\").replace("'", "\\'") + "'"


def fish_test(words):
    """The test by which fish knows whether it is behind these commands."""
    return shlex.quote(" ".join(["__rumpadol_at", *words]))


def fish_of(root, tables):
    """The completion for fish."""
    lines = [MADE, FISH, "complete -c rumpadol -f"]
    for page in root.walk():
        begin = f"complete -c rumpadol -n {fish_test([*page.words[1:], *(['--alone'] if page.commands else [])])}"
        for inner in page.commands:
            lines.append(f"{begin} -a {inner.name} -d {fish_text(inner.about)}")
        if page.commands:
            lines.append(f"{begin} -a help -d 'Print help'")
            helps = fish_test([*page.words[1:], "help", "--alone"])
            lines.append(f"complete -c rumpadol -n {helps} -a {shlex.quote(' '.join(help_words(page)))}")
        for option in page.options:
            spelled = " ".join(f"-l {name[2:]}" if name.startswith("--") else f"-s {name[1:]}" for name in option.names)
            value = f" {fish_value(option.value, tables)}" if option.value else ""
            lines.append(f"{begin} {spelled}{value} -d {fish_text(option.help)}")
        kinds = {argument.value.kind for argument in page.arguments}
        if TABLE in kinds:
            lines.append(f"{begin} -F -a {shlex.quote(' '.join(tables))}")
        elif FILE in kinds:
            lines.append(f"{begin} -F")
    return "\n".join(lines) + "\n"


FILES = {"bash": bash_of, "zsh": zsh_of, "fish": fish_of}


def main():
    """Writes a file for each shell, by its name."""
    if len(sys.argv) != 3:
        sys.exit("completions.py: wanted are the program and a folder")
    program, folder = sys.argv[1], pathlib.Path(sys.argv[2])
    root, tables = help_tree.tree_of(program), help_tree.built_in_tables(program)
    folder.mkdir(parents=True, exist_ok=True)
    for shell, text_of in FILES.items():
        (folder / shell).write_text(text_of(root, tables))


if __name__ == "__main__":
    main()
