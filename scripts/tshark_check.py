#!/usr/bin/env python3
"""Compares what rumpadol writes with what Wireshark's dissector of ISO 8583 reads: tshark_check.py RUMPADOL FOLDER

Messages are drawn by a fixed seed, written by `rumpadol encode`, put into a capture by text2pcap, and read by tshark, which knows
nothing of the tables here. Each element that was written has to be read with its value, and no other one. Behind them stands the
purchase of tests/tables/, whose bytes no program of ours wrote. The dissector has no list of 2003. Files are kept in FOLDER.
Prints each difference, how many values were compared in each form, and as its last line how many messages passed and failed.

Where the dissector of Wireshark 4.0 reads an element in another way than our tables, this check has its row in place of ours
(LENGTHS and DIGITS_IN_NIBBLES below) or draws the characters that it takes (NARROW), so each element is compared all the same;
where it shows a value in a form of its own, `shown` says in which.
"""
import collections
import json
import os
import pathlib
import random
import string
import subprocess
import sys

TOP = pathlib.Path(__file__).resolve().parent.parent
SEED = 8583
MESSAGES = 100

DIGITS = string.digits
TEXT = "".join(chr(code) for code in range(0x20, 0x7F))
NO_LETTERS = "".join(character for character in TEXT if not character.isalpha())
TRACK = DIGITS + "="

# the dissector's preferences
ASCII, NIBBLES = "Digits represented as ASCII Characters", "Digits represented in nibbles"
HEX, RAW = "Bin data represented as Hex Ascii characters", "Bin data not encoded"

Form = collections.namedtuple("Form", "name table version charset binary")
FORMS = (
    Form("ascii87", "ascii87.json", 0, ASCII, HEX),
    Form("ascii87raw", "ascii87raw.json", 0, ASCII, RAW),
    Form("bcd87", "bcd87.json", 0, NIBBLES, RAW),
    Form("bcd87hex", "bcd87.json", 0, NIBBLES, HEX),
    Form("ascii93", "ascii93.json", 1, ASCII, HEX),
    Form("ascii93raw", "ascii93raw.json", 1, ASCII, RAW),
    Form("bcd93", "bcd93.json", 1, NIBBLES, RAW),
)

# The dissector takes fewer characters of these than our rows have: of 1987 eight digits of 53, and fifteen of 86 to 89; of 1993
# four of 15 and six of 71. Element 53 of 1993 is 48 bytes without a length there, which it reads wrongly where they are raw.
LENGTHS = {
    0: {53: {"max": 8}, **{element: {"max": 15} for element in range(86, 90)}},
    1: {15: {"max": 4}, 71: {"max": 6}, 53: {"length": "fixed", "prefix": None}},
}
LEFT_OUT = {(1, RAW): (53,)}
# In nibbles it reads these as digits, two in a byte: the C or D of an amount has no byte of its own, nor have 92 and 93 of 1987.
DIGITS_IN_NIBBLES = {0: (28, 29, 30, 31, 92, 93, 97), 1: (97,)}

LETTERS = string.ascii_letters
# It calls a value malformed that has other characters than these, and reads no further. Our classes are wider there, so no = in
# track 3 and no blank in 37 is compared.
NARROW = {
    0: {34: NO_LETTERS, 36: DIGITS, 37: LETTERS + DIGITS, 38: LETTERS + DIGITS, 54: LETTERS + DIGITS, 92: DIGITS, 93: DIGITS},
    1: {34: NO_LETTERS, 37: LETTERS + DIGITS, 38: LETTERS + DIGITS},
}

# elements that make each message long enough: the dissector looks at no body of fewer than twenty bytes
ALWAYS = (4, 7, 11)
TYPES = ("100", "110", "200", "210", "220", "230", "400", "420", "430", "800", "810")


def document(form):
    """The form's table: one of tables/ with the rows that the dissector has in another way."""
    table = json.loads((TOP / "tables" / form.table).read_text())
    left_out = LEFT_OUT.get((form.version, form.binary), ())
    table["rows"] = [row for row in table["rows"] if row["number"] not in left_out]
    for row in table["rows"]:
        row.update(LENGTHS[form.version].get(row["number"], {}))
        if form.charset == NIBBLES and row["number"] in DIGITS_IN_NIBBLES[form.version]:
            row.update({"class": "N", "coding": "bcd"})
        if form.name == "bcd87hex" and row["class"] == "B" and row["number"] != 55:
            row["coding"] = "hex"
        for member in [member for member, value in row.items() if value is None]:
            del row[member]
    if form.name == "bcd87hex":
        table["bitmap"] = "hex"
    return table


def length_of(form, row, chance, is_long):
    """How many characters a value has."""
    if row["length"] == "fixed" and row["pad"] == "none":
        return row["max"]
    if form.binary == RAW and row["length"] != "fixed" and is_bytes(form, row):
        return chance.choice((*range(1, 9), 16))  # it reads blocks of eight bytes there, or one that is shorter
    # it calls an empty value malformed; in nibbles it looks ahead, so it misses one character behind a length at a message's end
    least = 2 if form.charset == NIBBLES and row["length"] != "fixed" else 1
    return row["max"] if is_long else chance.randint(least, min(row["max"], 18))


def value_of(form, row, chance, is_long):
    """A value of the row, as `encode` takes it, of characters that the dissector takes in the element."""
    count, number, kind = length_of(form, row, chance, is_long), row["number"], row["class"]
    if kind == "B" and not is_text(form, number):
        return "".join(chance.choice("0123456789ABCDEF") for _ in range(2 * count))
    if kind == "B":
        return "".join(chance.choice(TEXT) for _ in range(count)).encode().hex().upper()
    if kind == "XN":
        return chance.choice("CD") + "".join(chance.choice(DIGITS) for _ in range(count - 1))
    characters = NARROW[form.version].get(number, {"N": DIGITS, "AN": LETTERS + DIGITS, "ANS": TEXT, "ZD": TRACK}[kind])
    if number == 35 and form.charset == NIBBLES and form.binary == HEX:
        characters = DIGITS + "D"  # it takes track 2 for hexadecimal digits there
    if number in (34, 45):
        characters = characters.replace("*", "")  # `encode` takes a star there for a digit that was hidden
    value = "".join(chance.choice(characters) for _ in range(count))
    return value if row["pad"] == "none" else value.rstrip() or "X"


def is_text(form, number):
    """Whether the dissector reads the bytes of an element as text: 55 of 1987, where it has no chip data."""
    return form.version == 0 and number == 55


def is_bytes(form, row):
    """Whether the dissector reads the element as bytes: track 2, of 1993 track 3, too, and class B where that isn't text there."""
    tracks = (35, 36) if form.version == 1 else (35,)
    return row["number"] in tracks or row["class"] == "B" and not is_text(form, row["number"])


def shown(form, row, value):
    """A value in the form in which the dissector shows it."""
    if is_text(form, row["number"]):
        value = bytes.fromhex(value).decode()
    if form.binary == RAW and row["class"] != "B" and is_bytes(form, row):
        value = value.encode().hex().upper()  # it takes a track for bytes
    if row["pad"] != "none":
        value = value.ljust(row["max"])  # it shows the padding
    return value


def is_shown(form, row, value, got):
    """Whether what the dissector shows is the value."""
    wanted = shown(form, row, value)
    # whole blocks of eight bytes are shown by a text that isn't ended: what follows them is none of the message's
    is_block = form.binary == RAW and is_bytes(form, row) and len(wanted) % 16 == 0
    return got[: len(wanted)] == wanted if is_block else got == wanted


def drawn(form, rows):
    """Messages in which each element of the table stands several times."""
    chance = random.Random(f"{SEED} {form.name}")
    waiting = []
    for _ in range(MESSAGES):
        elements = set(ALWAYS)
        for _ in range(chance.randint(1, 16)):
            if not waiting:
                waiting = chance.sample(sorted(rows), len(rows))
            elements.add(waiting.pop())
        longest = chance.choice(sorted(elements))
        values = {element: value_of(form, rows[element], chance, element == longest) for element in sorted(elements)}
        mti = f"{form.version}{chance.choice(TYPES)}"
        yield {"mti": mti, "elements": {str(element): value for element, value in values.items()}}


def run(words, data=None, **more):
    """What a program writes; the check ends where the program doesn't end well."""
    done = subprocess.run(words, input=data, stdout=subprocess.PIPE, stderr=subprocess.PIPE, **more)
    if done.returncode != 0:
        sys.exit(f"tshark_check.py: {words[0]} ended with status {done.returncode}:\n{done.stderr.decode()}")
    return done.stdout


def purchase(form):
    """The values and the bytes of the form's purchase in tests/tables/, where it has one."""
    path = TOP / "tests" / "tables" / f"{form.name}.hex"
    if not path.exists():
        return
    body = bytes.fromhex(path.read_text())
    yield json.loads(path.with_name(f"purchase{form.name.removesuffix('raw')[-2:]}.json").read_text()), body


def capture(rumpadol, form, messages, bodies, folder):
    """A capture with a packet for each message, and each body, behind the header of two bytes that the dissector wants."""
    table, packets, path = (folder / f"{form.name}.{end}" for end in ("json", "packets", "pcap"))
    table.write_text(json.dumps(document(form)))
    text = "".join(json.dumps(message) + "\n" for message in messages)
    frames = run([rumpadol, "encode", str(table), "--frames", "binary2"], text.encode())
    frames += b"".join(len(body).to_bytes(2, "big") + body for body in bodies)
    with packets.open("w") as file:
        at = 0
        while at < len(frames):
            end = at + 2 + int.from_bytes(frames[at : at + 2], "big")
            file.write(f"000000 {frames[at:end].hex(' ')}\n")
            at = end
    run(["text2pcap", "-q", "-T", "40000,8583", str(packets), str(path)])
    return path


def read(form, path, elements, folder):
    """What tshark reads of each packet: the type, the elements' values, and what it complains of."""
    names = ["iso8583.mti", *(f"iso8583.bit{element}" for element in elements), "iso8583.MALFORMED", "_ws.expert.message"]
    preferences = {"len_endian": "Big endian", "charset": form.charset, "binencode": form.binary}
    words = ["tshark", "-n", "-r", str(path), "-d", "tcp.port==8583,iso8583", "-T", "fields", "-E", "separator=/t"]
    words += [word for name, value in preferences.items() for word in ("-o", f"iso8583.{name}:{value}")]
    words += [word for name in names for word in ("-e", name)]
    # no preferences of the user's own
    told = run(words, env={**os.environ, "WIRESHARK_CONFIG_DIR": str(folder)}).decode(errors="replace")
    for line in told.rstrip("\n").split("\n"):
        fields = line.split("\t")
        yield fields[0], dict(zip(elements, fields[1:-2])), fields[-2:]


def differences(form, rows, message, packet):
    """What tshark read in another way than it was written, a line each."""
    mti, values, complaints = packet
    if mti != message["mti"]:
        yield f"type {message['mti']} is read as {mti!r}"
    for element, got in values.items():
        value = message["elements"].get(str(element))
        if value is None and got:
            yield f"element {element} isn't there, and is read as {got!r}"
        if value is not None and not is_shown(form, rows[element], value, got):
            yield f"element {element}: {value!r} is read as {got!r}"
    if any(complaints):
        yield f"it complains: {' '.join(complaints)}"


def check(rumpadol, form, folder):
    """Compares the messages of a form: how many passed and failed."""
    rows = {row["number"]: row for row in document(form)["rows"]}
    messages, given = list(drawn(form, rows)), list(purchase(form))
    path = capture(rumpadol, form, messages, [body for _, body in given], folder)
    messages += [message for message, _ in given]
    packets = list(read(form, path, sorted(rows), folder))
    if len(packets) != len(messages):
        sys.exit(f"tshark_check.py: {form.name}: of {len(messages)} messages tshark read {len(packets)}")
    failed = 0
    for number, (message, packet) in enumerate(zip(messages, packets), 1):
        told = list(differences(form, rows, message, packet))
        failed += bool(told)
        for line in told:
            print(f"FAILED {form.name}, message {number}: {line}")
    elements = {element for message in messages for element in message["elements"]}
    values = sum(len(message["elements"]) for message in messages)
    print(f"{form.name}: {len(messages)} messages with {values} values of {len(elements)} elements, {failed} differ")
    return len(messages) - failed, failed


def main(rumpadol, folder):
    print(run(["tshark", "--version"]).decode().splitlines()[0])
    results = [check(rumpadol, form, pathlib.Path(folder)) for form in FORMS]
    passed, failed = map(sum, zip(*results))
    print(f"tshark-check: {passed} passed, {failed} failed")
    sys.exit(failed > 0)


if __name__ == "__main__":
    main(*sys.argv[1:])
