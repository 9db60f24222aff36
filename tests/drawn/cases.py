"""The cases: words, files and an input. Each is a function of its seed."""
import json
import random
from dataclasses import dataclass, field, replace

from model.command import LONGEST_INPUT
from model.frames import SIZES, frame
from model.host_rows import GIVEN_BACK, NEEDED_FIXED, NEEDED_TO
from model.json_text import NotJson, value_of
from model.packing import pack
from model.refused import Refused
from model.showing import ACCOUNT_NUMBER, HIDDEN
from model.streams import message_in
from model.table_document import built_in, read_table

from .days import draw_accounts, draw_frames
from .messages import draw_message, spell
from .spoiling import damage, spoil_accounts, spoil_document, spoil_table, spoil_value
from .tables import document, draw_row, draw_table, draw_variant

BUILT_IN = ["ascii87", "bcd87"]


@dataclass
class Case:
    """What a program is given. The input is in parts, which are left out one by one where a failing case is made smaller. `then` is
    the words of a second run of it, on what the first one wrote."""
    words: list
    files: dict = field(default_factory=dict)
    parts: list = field(default_factory=list)
    program: str = "iso_cli"
    then: list = field(default_factory=list)

    @property
    def text(self):
        """The whole input."""
        return b"".join(self.parts)


def draw_case(seed):
    """The case of a seed."""
    draw = random.Random(seed)
    kinds = [draw_run, draw_show, draw_convert, draw_check, draw_echo, draw_accounts_refused, draw_words, draw_limit, draw_stream]
    return draw.choices(kinds, [40, 20, 16, 14, 5, 5, 2, 1, 40])[0](draw)


def draw_known_table(draw):
    """The name of a table, the file of its document if it has one, and the document."""
    if draw.random() < 0.4:
        name = draw.choice(BUILT_IN)
        return name, {}, document_of(name)
    table = draw_table(draw) if draw.random() < 0.9 else draw_variant(draw, document_of(draw.choice(BUILT_IN)))
    return "table.json", {"table.json": document(draw, table)}, table


def document_of(name):
    """The document of a built-in table."""
    rows = [{"number": row.number, "class": row.char_class, "coding": row.coding, "length": row.length, "max": row.max,
             "pad": f"{row.pad[0]}:{row.pad[1]:02X}" if row.pad else "none", **({"prefix": row.prefix} if row.prefix else {})}
            for row in built_in(name).rows.values()]
    return {"profile": 2, "version": 0, "mti": built_in(name).mti, "bitmap": built_in(name).bitmap, "rows": rows}


def as_table(table):
    """The table that a document stands for."""
    return read_table(json.dumps(table).encode())


def draw_spelled(draw, table):
    """A message of a table, and often something wrong with its bytes."""
    text = spell(draw, table, draw_message(draw, table))
    for _ in range(draw.choice([0, 0, 1, 1, 2])):
        text = damage(draw, text)
    return text


# ---- one drawing for each command

def draw_show(draw):
    """A message as lines."""
    name, files, table = draw_known_table(draw)
    words = draw.choice([["show", name], ["show", name, "--clear"], ["show", "--clear", name]])
    return Case(words, files, [draw_spelled(draw, as_table(table))])


def draw_convert(draw):
    """A message under another table."""
    name, files, table = draw_known_table(draw)
    other = draw.choice([*BUILT_IN, "other.json", "other.json"])
    if other == "other.json":
        files[other] = document(draw, draw_variant(draw, table))
    return Case(["convert", name, other], files, [draw_spelled(draw, as_table(table))])


def draw_check(draw):
    """A document of a table, good or not."""
    table = draw_table(draw)
    for _ in range(draw.choice([0, 0, 1, 1, 2])):
        table = spoil_table(draw, table)
    if draw.random() < 0.25:
        table = spoil_value(draw, table)
    text = document(draw, table) if is_whole(table) else json.dumps(table).encode()
    if draw.random() < 0.2:
        text = spoil_document(draw, text)
    return Case(["check", "table.json"], {"table.json": text})


def is_whole(table):
    """Whether a document has rows that can be put into another order."""
    return (isinstance(table, dict) and isinstance(table.get("rows"), list)
            and all(isinstance(row, dict) and "length" in row for row in table["rows"]))


def draw_echo(draw):
    """A message that is shown and answered."""
    return Case([], {}, [draw_spelled(draw, built_in("ascii87"))])


def draw_words(draw):
    """Words, most of which are no command."""
    known = ["check", "show", "convert", "run", "ascii87", "bcd87", "table.json", "--clear", "ascii4", "binary2", "bcd2"]
    others = ["", "-", "--", "--help", "-h", "help", "version", "Check", "\udcff", "\u00e9", "a b", "none.json", "--clear=1", "."]
    words = [draw.choice(known if draw.random() < 0.8 else others) for _ in range(draw.randint(0, 5))]
    return Case(words, {"table.json": document(draw, draw_table(draw))}, [damage(draw, b"08000000000000000000")])


def draw_accounts_refused(draw):
    """A document of accounts, good or not."""
    value = {"accounts": spoil_accounts(draw, draw_accounts(draw))}
    for _ in range(draw.choice([0, 0, 1, 2])):
        value = spoil_value(draw, value)
    text = json.dumps(value).encode()
    if draw.random() < 0.3:
        text = spoil_document(draw, text)
    return Case(["run", draw.choice(BUILT_IN), "accounts.json", draw.choice(list(SIZES))], {"accounts.json": text})


def draw_limit(draw):
    """An input or a file about as long as one may be, or a stream for a host, which has no limit."""
    behind = b" " * (LONGEST_INPUT + draw.choice([-1, 0, 1, 2]))
    kind = draw.choice(["input", "table", "accounts", "stream"])
    if kind == "input":
        words = draw.choice([[], ["show", "ascii87"], ["convert", "ascii87", "bcd87"]])
        return Case(words, {}, [(draw_spelled(draw, built_in("ascii87")) + behind)[:len(behind)]])
    if kind == "table":
        return Case(["check", "table.json"], {"table.json": (document(draw, draw_table(draw)) + behind)[:len(behind)]})
    accounts, words = json.dumps({"accounts": draw_accounts(draw)}).encode(), ["run", "ascii87", "accounts.json", "binary2"]
    if kind == "accounts":
        return Case(words, {"accounts.json": (accounts + behind)[:len(behind)]})
    return Case(words, {"accounts.json": accounts}, [frame("binary2", draw.randbytes(65_535))] * draw.choice([16, 17]))


def draw_run(draw):
    """A host's day."""
    header, accounts = draw.choice(list(SIZES)), draw_accounts(draw)
    files = {"accounts.json": json.dumps({"accounts": accounts}).encode()}
    name, table = draw.choice(BUILT_IN), None
    if draw.random() < 0.4:
        name, table = "table.json", draw_host_table(draw)
        files["table.json"] = document(draw, table)
    frames = draw_frames(draw, as_table(table) if table else built_in(name), header, accounts)
    return Case(["run", name, "accounts.json", header], files, frames)


def draw_stream(draw):
    """Frames for rumpadol, in any spelling of their messages: as JSON, from there back to bytes, or as plain bytes."""
    name, files, table = draw_known_table(draw)
    table, header = as_table(table), draw.choice(list(SIZES))
    bodies = [spell(draw, table, draw_message(draw, table)) for _ in range(draw.choice([0, 1, 2, 5, 20]))]
    frames = [frame(header, body) for body in bodies if is_framed(table, header, body)]
    decode, encode = ["decode", name, "--json", "--clear", "--frames", header], ["encode", name, "--frames", header]
    words, then = draw.choice([(decode, encode), (decode, encode), (decode, []), (["decode", name, "--json", "--frames", header], []),
                               (["convert", name, name, "--frames", header], [])])
    return Case(words, files, frames, "rumpadol", then)


def is_framed(table, header, body):
    """Whether a body is a message that comes back: a frame can count it and the plain one, and no value has a star where one masks."""
    most = 65_535 if header == "binary2" else 9_999
    try:
        message = message_in(table, body)
        size = max(len(body), len(pack(table, message)))
    except Refused:
        return False
    return size <= most and not any(has_star(table.rows[number], value) for number, value in message.elements.items())


def has_star(row, value):
    """Whether a value has a star as text, in an element that is shown with stars. It is taken for masked."""
    return row.number in (ACCOUNT_NUMBER, *HIDDEN) and row.char_class != "B" and b"*" in value


def draw_host_table(draw):
    """A table under which a host can serve, or nearly: codings, lengths and rows that aren't needed differ."""
    base, rows, others = document_of(draw.choice(BUILT_IN)), [], draw.choice([0.1, 0.1, 0.3, 0.9])
    for row in base["rows"]:
        number = row["number"]
        if number in NEEDED_FIXED or number in NEEDED_TO:
            rows.append(draw_needed(draw, row))
        elif draw.random() < others:
            rows.append(draw_row(draw, number) if draw.random() < 0.3 and number not in GIVEN_BACK else row)
    table = {**base, "mti": draw.choice(["ascii", "bcd"]), "bitmap": draw.choice(["hex", "raw"]), "rows": rows}
    return draw_variant(draw, table) if draw.random() < 0.1 else table


def draw_needed(draw, row):
    """The row of an element that a host needs, in another coding."""
    number = row["number"]
    if number in NEEDED_FIXED:
        return with_class(draw, row, NEEDED_FIXED[number][0])
    classes, sizes = NEEDED_TO[number]
    length = draw.choice(["LL", "LLL"])
    most = min(max(sizes), 99) if length == "LL" else max(sizes)
    return {**with_class(draw, row, classes), "length": length, "prefix": draw.choice(["ascii", "bcd"]),
            "max": draw.choice([most, most, max(min(sizes), most - 1)])}


def with_class(draw, row, classes):
    """A row with one of these classes, and a coding for it."""
    char_class = draw.choice(sorted(classes))
    return {**row, "class": char_class, "coding": draw.choice(["ascii", "bcd"]) if char_class == "N" else "ascii"}


def smaller(case):
    """The case with less: without some parts of its input, or without a row or an account of a document."""
    size = len(case.parts)
    step = size
    while step >= 1:
        for at in range(0, size, step):
            yield replace(case, parts=case.parts[:at] + case.parts[at + step:])
        step //= 2
    for name, text in case.files.items():
        for less in smaller_document(text):
            yield replace(case, files={**case.files, name: less})


def smaller_document(text):
    """A document without blanks, or with one list element less."""
    try:
        value = value_of(text)
    except NotJson:
        return
    if len(compact(value)) < len(text):
        yield compact(value)
    for name, items in value.items() if isinstance(value, dict) else ():
        for at in range(len(items) if isinstance(items, list) else 0):
            yield compact({**value, name: items[:at] + items[at + 1:]})


def compact(value):
    """The JSON of a value, without blanks."""
    return json.dumps(value, separators=(",", ":")).encode()
