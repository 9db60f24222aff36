#!/usr/bin/env python3
"""Makes a table (docs/TABLES.md) of a packager of jPOS: jpos-table.py [--version N] [--bytes hex|raw] FILE.xml > TABLE.json

FILE is the XML of a GenericPackager: an isopackager with isofields. N is the first digit of the message types, 0 where it isn't
given. --bytes says how the bytes of IFA_LLBINARY and IFA_LLLBINARY stand there: as hexadecimal digits, or raw. A field becomes a
row only where its bytes are those of our row: each other one is named on the error stream with its id, its class and why, and has
no row. The status is 0 where all became rows, 1 where one didn't or the file is no packager, 2 where the words are wrong, 3 where
the file can't be read. docs/JAVA.md says what each class becomes.
"""
import json
import re
import sys
import xml.etree.ElementTree
import xml.parsers.expat

MOST_BYTES = 1 << 20
PACKAGE = "org.jpos.iso."

# ---- the classes: what a field of each is in a row

ASCII_NUMBER, ASCII_TEXT = {"class": "N", "coding": "ascii"}, {"class": "ANS", "coding": "ascii"}
BCD_NUMBER = {"class": "N", "coding": "bcd"}
HEX_BYTES, RAW_BYTES = {"class": "B", "coding": "hex"}, {"class": "B", "coding": "raw"}
FIXED = {"length": "fixed", "pad": "none"}


def behind(length, prefix):
    """The members of a row whose value stands behind a length."""
    return {"length": length, "prefix": prefix, "pad": "none"}


CLASSES = {
    "IF_CHAR": ASCII_TEXT | FIXED | {"pad": "right:20"},
    "IFA_NUMERIC": ASCII_NUMBER | FIXED,
    "IFA_LLNUM": ASCII_NUMBER | behind("LL", "ascii"),
    "IFA_LLLNUM": ASCII_NUMBER | behind("LLL", "ascii"),
    "IFA_LLCHAR": ASCII_TEXT | behind("LL", "ascii"),
    "IFA_LLLCHAR": ASCII_TEXT | behind("LLL", "ascii"),
    "IFA_LLLLCHAR": ASCII_TEXT | behind("LLLL", "ascii"),
    "IFA_AMOUNT": {"class": "XN", "coding": "ascii"} | FIXED,
    "IFA_BINARY": HEX_BYTES | FIXED,
    "IFB_NUMERIC": BCD_NUMBER | FIXED,
    "IFB_LLNUM": BCD_NUMBER | behind("LL", "bcd"),
    "IFB_LLLNUM": BCD_NUMBER | behind("LLL", "bcd"),
    "IFB_LLCHAR": ASCII_TEXT | behind("LL", "bcd"),
    "IFB_LLLCHAR": ASCII_TEXT | behind("LLL", "bcd"),
    "IFB_BINARY": RAW_BYTES | FIXED,
    "IFB_LLBINARY": RAW_BYTES | behind("LL", "bcd"),
    "IFB_LLLBINARY": RAW_BYTES | behind("LLL", "bcd"),
}

# classes whose bytes stand as --bytes says: a length counts the bytes either way
BYTES = {"IFA_LLBINARY": behind("LL", "ascii"), "IFA_LLLBINARY": behind("LLL", "ascii")}

# classes that no row has the bytes of, by the beginning of their names: the first that fits counts
NO_ROW = (
    ("IFE_", "it is written in EBCDIC, and no row is"),
    ("IF_ECHAR", "it is written in EBCDIC, and no row is"),
    ("IFB_LLH", "its length is a binary number, and a row's is digits"),
    ("IFB_LLLH", "its length is a binary number, and a row's is digits"),
    ("IFB_AMOUNT", "its C or D is a character before digits in BCD, and a row has one coding"),
    ("IFB_F", "its length is told, and its bytes are as many as the longest value has all the same"),
    ("IFA_F", "its length is told, and its bytes are as many as the longest value has all the same"),
    ("IF_NOP", "it has no bytes, and each row has some"),
    ("IFA_BITMAP", "it is a bitmap within the message, and rows have values"),
    ("IFB_BITMAP", "it is a bitmap within the message, and rows have values"),
)

MOST = {"fixed": 999, "LL": 99, "LLL": 999, "LLLL": 9999}
TYPES = {"IFA_NUMERIC": "ascii", "IFB_NUMERIC": "bcd"}
BITMAPS = {"IFA_BITMAP": "hex", "IFB_BITMAP": "raw"}
TRACKS = (35, 36)


class Refused(Exception):
    """Why a field becomes no row, or a file no table."""


# ---- the file


def refuse_entities(text):
    """Refuses a file that declares anything of its own. The name of a DTD is passed over: nothing is read but the file."""
    parser = xml.parsers.expat.ParserCreate()

    def doctype(name, system, public, has_declarations):
        if has_declarations:
            raise Refused("its DOCTYPE declares something, and isn't read")

    def entity(*_):
        raise Refused("it has entities, which aren't read")

    parser.StartDoctypeDeclHandler = doctype
    parser.EntityDeclHandler = parser.UnparsedEntityDeclHandler = parser.ExternalEntityRefHandler = entity
    parser.Parse(text, True)
    # one that a DTD would declare is dropped from an attribute without a word
    if b"\0" in text or re.search(rb"&(?!(amp|lt|gt|quot|apos|#[0-9xA-Fa-f]+);)", re.sub(rb"(?s)<!--.*?-->", b"", text)):
        entity()


def read(text):
    """The packager of a file."""
    try:
        refuse_entities(text)
        packager = xml.etree.ElementTree.fromstring(text)
    except (xml.parsers.expat.ExpatError, xml.etree.ElementTree.ParseError, ValueError, LookupError) as fault:
        raise Refused(f"it is no XML: {fault}") from None
    if packager.tag != "isopackager":
        raise Refused("it is no isopackager")
    return packager


def number(field, name):
    """A whole number of an attribute."""
    text = field.get(name, "").strip()
    if not re.fullmatch("[0-9]{1,6}", text):
        raise Refused(f"its {name} {text!r} is no number")
    return int(text)


# ---- fields


def class_of(field):
    """The name of a field's class, without its package."""
    name = field.get("class", "").strip()
    return name.removeprefix(PACKAGE) if name.startswith(PACKAGE) or "." not in name else name


def right_filled(field, row, most):
    """Whether an odd count of digits would have its filler behind them: `pad` says that it stands in front."""
    can_be_odd = row["length"] != "fixed" or most % 2 == 1
    return row["coding"] == "bcd" and can_be_odd and field.get("pad", "false").strip().lower() != "true"


def row_of(field, element, classes):
    """The row of a field."""
    name, most = class_of(field), number(field, "length")
    if field.tag != "isofield":
        raise Refused("it has fields of its own, and a row has one value")
    if element == 65 or not 2 <= element <= 128:
        raise Refused("no table has a row of this number")
    if name in BYTES and name not in classes:
        raise Refused("say by --bytes whether its bytes stand as hexadecimal digits (hex) or raw")
    if name not in classes:
        raise Refused(next((why for begin, why in NO_ROW if name.startswith(begin)), "the class isn't known here"))
    row = {"number": element, **classes[name], "max": most}
    if not 1 <= most <= MOST[row["length"]]:
        raise Refused(f"its length {most} isn't one of 1 to {MOST[row['length']]}")
    if right_filled(field, row, most):
        raise Refused('an odd count of digits has its filler behind them (pad isn\'t "true"), and a row\'s stands in front')
    if row["class"] == "XN" and most < 2:
        raise Refused("an amount has a letter and a digit at least")
    if element in TRACKS and row["class"] == "N":
        row["class"] = "Z" if row["coding"] == "bcd" else "ZD"  # a packager lets the separator pass, and so does this class
    return row


def part_of(field, kinds, length, what):
    """How the type, or the bitmap, is written."""
    name = class_of(field)
    if field.tag != "isofield" or name not in kinds:
        raise Refused(f"{what} isn't written so")
    if number(field, "length") != length:
        raise Refused(f"{what} has a length of {length}")
    return kinds[name]


def settings(packager):
    """What a packager says of all its fields, and a table can't."""
    for name, usual in (("bitmapField", "1"), ("emitBitmap", "true"), ("thirdBitmapField", "-999"), ("headerLength", "0")):
        value = packager.get(name, usual).strip()
        if value != usual:
            hint = f"; pass over the header by --skip {value}" if name == "headerLength" else ""
            yield f"the packager: {name} is {value}, and a table has none{hint}"


def table_of(packager, version, classes):
    """The table of a packager, and what isn't in it."""
    table = {"profile": 2, "version": version, "mti": "ascii", "bitmap": "hex", "rows": []}
    told, seen = list(settings(packager)), set()
    for field in packager:
        name = f"field {field.get('id', '?').strip()} ({field.get('class', 'no class').strip()})"
        try:
            element = number(field, "id")
            if element in seen:
                raise Refused("an earlier field has this id")
            seen.add(element)
            if element == 0:
                table["mti"] = part_of(field, TYPES, 4, "a message type")
            elif element == 1:
                table["bitmap"] = part_of(field, BITMAPS, 16, "a bitmap with a second one")
            else:
                table["rows"].append(row_of(field, element, classes))
        except Refused as why:
            told.append(f"{name}: {why}")
    told += [f"field {element}: it is missing" for element in (0, 1) if element not in seen]
    table["rows"].sort(key=lambda row: row["number"])
    return table, told


def write(table):
    """Writes a table, a row on a line."""
    head = {name: value for name, value in table.items() if name != "rows"}
    rows = ",\n".join(json.dumps(row, separators=(",", ":"), sort_keys=True) for row in table["rows"])
    print(json.dumps(head, separators=(",", ":"))[:-1] + ',"rows":[\n' + rows + "\n]}")


def asked(words):
    """What the command line asks: the version, the classes and the path."""
    version, coding = "0", None
    while len(words) > 2 and words[0] in ("--version", "--bytes"):
        if words[0] == "--version":
            version = words[1]
        else:
            coding = words[1]
        words = words[2:]
    if len(words) != 1 or words[0].startswith("--") or version not in ("0", "1", "2", "9") or coding not in (None, "hex", "raw"):
        return None
    more = {} if coding is None else {name: {"class": "B", "coding": coding} | row for name, row in BYTES.items()}
    return int(version), CLASSES | more, words[0]


def main(words):
    known = asked(words)
    if known is None:
        print("jpos-table.py: write jpos-table.py [--version 0|1|2|9] [--bytes hex|raw] FILE.xml", file=sys.stderr)
        return 2
    version, classes, path = known
    try:
        with open(path, "rb") as file:
            text = file.read(MOST_BYTES + 1)
    except OSError as fault:
        print(f"jpos-table.py: {path}: {fault.strerror}", file=sys.stderr)
        return 3
    try:
        if len(text) > MOST_BYTES:
            raise Refused(f"it has more than {MOST_BYTES:,} bytes")
        table, told = table_of(read(text), version, classes)
    except Refused as why:
        print(f"jpos-table.py: {path}: {why}", file=sys.stderr)
        return 1
    write(table)
    for line in told:
        print(f"jpos-table.py: {path}: {line}", file=sys.stderr)
    return 1 if told else 0


if __name__ == "__main__":
    sys.exit(main(sys.argv[1:]))
