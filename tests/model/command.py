"""The command: what it writes and tells for its words, the files that they name, and an input."""
from dataclasses import dataclass

from .accounts import read_accounts
from .frames import SIZES
from .host import Host
from .host_rows import judge_host_rows
from .issuer import Issuer
from .order import Order
from .packing import pack
from .reading import read
from .refused import Refused
from .response import Answer, respond
from .showing import lines
from .table_document import built_in, read_table
from .verdict import SILENT, verdict

BUILT_IN = ("ascii87", "bcd87")
LONGEST_INPUT = 1_048_576


class WordsRefused(Exception):
    """The words are no command."""


class Failed(Exception):
    """A device failed."""


@dataclass(frozen=True)
class End:
    """What is written and told, and the status."""
    status: int
    output: bytes = b""
    told: bytes = b""


def act(words, files, text):
    """What comes of the command for the words behind its name, the files by their paths, and the input."""
    try:
        return command_of(words)(files, text)
    except WordsRefused:
        return End(2, told=b"command line refused\n")
    except Failed as fault:
        return End(3, told=f"failed: {fault}\n".encode())
    except Refused as refused:
        return End(1, told=f"refused: {refused}\n".encode())


def command_of(words):
    """The command that the words ask for. They are judged whole before anything is read. No word begins with a dash but
    `--clear`, which stands once, before the table of `show` or behind it."""
    clear = words[:1] == ["show"] and words.count("--clear") == 1
    plain = [word for word in words if word != "--clear"] if clear else words
    if any(word.startswith("-") or not is_utf8(word) for word in plain):
        raise WordsRefused
    match plain:
        case []:
            return echo
        case ["check", table]:
            return lambda files, text: check(table, files)
        case ["show", table]:
            return lambda files, text: show(table, clear, files, text)
        case ["convert", source, target]:
            return lambda files, text: convert(source, target, files, text)
        case ["run", table, accounts, header] if header in SIZES:
            return lambda files, text: run(table, accounts, header, files, text)
    raise WordsRefused


def is_utf8(word):
    """Whether a word is UTF-8. The bytes of one that isn't come as surrogates."""
    return not any(0xD800 <= ord(character) <= 0xDFFF for character in word)


# ---- the commands

def echo(files, text):
    """The lines of the message that the input begins with, and its response, where no issuer decides it."""
    table = built_in("ascii87")
    message, used = read(table, limited(text))
    asked = verdict(message)
    answer = b"none" if asked is SILENT or isinstance(asked, Order) else pack(table, respond(message, Answer(asked)))
    return End(0, lines(table, message, clear=False) + used_line(used, text) + b"ANSWER=%s\n" % answer)


def check(name, files):
    """Whether a table is good."""
    table = table_of(name, files)
    return End(0, f"OK version={table.version} rows={len(table.rows)} max={table.longest()}\n".encode())


def show(name, clear, files, text):
    """The lines of the message that the input begins with."""
    table = table_of(name, files)
    message, used = read(table, limited(text))
    return End(0, lines(table, message, clear) + used_line(used, text))


def convert(source, target, files, text):
    """The message that the whole input is, written under another table."""
    source, target = table_of(source, files), table_of(target, files)
    message, used = read(source, limited(text))
    if used < len(text):
        raise Refused("TrailingBytes")
    return End(0, pack(target, message))


def run(name, accounts, header, files, text):
    """An issuer host: the frames of the input in, those of the responses out."""
    table = table_of(name, files)
    judge_host_rows(table)
    host = Host(table, header, Issuer(read_accounts(file(accounts, files))))
    try:
        host.serve(text)
    except Refused as refused:
        return End(1, host.output, f"refused: {refused}\n".encode())
    return End(0, host.output, f"{host.report()}\n".encode())


# ---- what they read and write

def table_of(name, files):
    """A built-in table, or that of a document."""
    return built_in(name) if name in BUILT_IN else read_table(file(name, files))


def file(path, files):
    """The bytes of a file."""
    if path not in files:
        raise Failed("File")
    return limited(files[path])


def limited(text):
    """An input or a file, which has a limit."""
    if len(text) > LONGEST_INPUT:
        raise Refused("InputTooLong")
    return text


def used_line(used, text):
    """How many bytes of the input the message takes."""
    return b"USED=%d/%d\n" % (used, len(text))
