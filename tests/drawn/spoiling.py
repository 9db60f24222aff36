"""What is wrong with a document, and with bytes."""
import copy
import re

JUNK = [
    None, True, False, -1, 0, 1, 3, 65, 100, 128, 129, 255, 256, 999, 1000, 9999, 10000, 65535, 65536, 1.0, 1.5, 10 ** 20,
    "", "1", "ascii", "ASCII", "bcd", "raw", "hex", "fixed", "LL", "LLL", "LLLL", "N", "n", "ANS", "B", "XN", "\u00e9",
    "none", "left:20", "right:7F", "right:30", "left:3a", "both:20", "left:2", "left:200", "left:2g", [], {}, [[]], {"pan": "1"},
]
NUMBERS = [
    "-0", "1.0", "1e0", "01", "+1", "1e400", "-1", "1" * 400, "NaN", "Infinity", "nul", "18446744073709551615",
    "18446744073709551616", "9223372036854775807", "9223372036854775808", "-9223372036854775808", "-9223372036854775809",
    "'1'", '"1"', '"\\u0031"', '"\\u00e9"', '"\\x"', '"\t"', "[1,]", "{,}",
    *("[" * deep + "]" * deep for deep in (124, 125, 126, 127)),
]
PADS = ["none", "left:1F", "left:20", "right:2f", "right:30", "left:3F", "left:40", "right:7E", "right:7F"]


def spoil_value(draw, value):
    """A value with one change somewhere in it: another value, one member less or one more, an element twice or gone."""
    value = copy.deepcopy(value)
    places = list(places_of(value))
    if not places:
        return value
    holder, place = draw.choice(places)
    kind = draw.choice(["junk", "junk", "junk", "gone", "more", "twice", "lent"])
    if kind == "junk":
        holder[place] = draw.choice(JUNK)
    if kind == "gone":
        del holder[place]
    if kind == "more" and isinstance(holder[place], dict):
        holder[place][draw.choice(["name", "", "prefix"])] = draw.choice(JUNK)
    if kind == "twice" and isinstance(holder, list):
        holder.insert(draw.randint(0, len(holder)), copy.deepcopy(holder[place]))
    if kind == "lent":
        other, at = draw.choice(places)
        holder[place] = copy.deepcopy(other[at])
    return value


def spoil_table(draw, table):
    """A document of a table in which a number is at or over a limit, or what goes together doesn't."""
    rows = [dict(row) for row in table["rows"]]
    if not rows or draw.random() < 0.3:
        member, values = draw.choice([("version", [0, 1, 2, 3, 8, 9, 10, 255]), ("profile", [0, 1, 1, 2, 3])])
        return {**table, member: draw.choice(values)}
    row, other = draw.choice(rows), draw.choice(rows)
    member = draw.choice(["number", "max", "max", "coding", "class", "pad", "length"])
    row[member] = draw.choice({"number": [0, 1, 2, 64, 65, 66, 128, 129, 65535, other["number"]],
                               "max": [0, 1, 99, 100, 999, 1000, 9999, 10000], "coding": ["ascii", "bcd", "raw", "hex"],
                               "class": [other["class"], "N", "Z", "XN", "B"], "pad": PADS,
                               "length": ["fixed"] if row["length"] == "fixed" else ["LL", "LLL", "LLLL"]}[member])
    return {**table, "rows": rows}


def spoil_accounts(draw, accounts):
    """Accounts of which one stands twice, or opens with an amount at or over a limit."""
    accounts = [dict(account) for account in accounts]
    if accounts and draw.random() < 0.7:
        twice = {**draw.choice(accounts), **draw.choice([{"currency": "978"}, {"pan": "1"}, {}])}
        accounts.insert(draw.randint(0, len(accounts)), twice)
    for account in draw.sample(accounts, min(len(accounts), draw.choice([0, 1, 2]))):
        account["opening"] = draw.choice([1, -1]) * (9 * 10 ** 15 + draw.choice([0, 1]))
    return accounts


def places_of(value):
    """Each place in a value: the list or object, and the index or name."""
    for place in value if isinstance(value, dict) else range(len(value)):
        yield value, place
        if isinstance(value[place], (dict, list)):
            yield from places_of(value[place])


def spoil_document(draw, text):
    """The text of a document with one change in its bytes."""
    kind = draw.choice(["number", "number", "number", "member", "bytes", "ends"])
    if kind == "number":
        numbers = list(re.finditer(rb"(?<=[:, ])\d+", text))
        if numbers:
            found = draw.choice(numbers)
            return text[:found.start()] + draw.choice(NUMBERS).encode() + text[found.end():]
    if kind == "member":
        member = draw.choice(re.findall(rb'"\w+": "?\w+"?', text) or [b'"profile": 2'])
        at = draw.choice([found.end() for found in re.finditer(rb"\{", text)] or [0])
        return text[:at] + member + b"," + text[at:]
    if kind == "ends":
        before = draw.choice([b"", b" ", b"\xef\xbb\xbf", b"\n\t\r ", b"0"])
        return before + text + draw.choice([b"", b"\n", b"0", b"\xff", b"\x00"])
    return damage(draw, text)


def damage(draw, text):
    """Bytes with a change: cut, longer, or another byte somewhere."""
    at = draw.randint(0, len(text))
    kind = draw.choice(["cut", "flip", "other", "other", "gone", "more", "behind"])
    if kind == "cut":
        return text[:at]
    if kind == "behind":
        return text + draw.choice([b"\n", b"0", b"\x00", draw.randbytes(3)])
    if kind == "more":
        return text[:at] + draw_byte(draw) + text[at:]
    if kind == "flip" and text[at:]:
        return text[:at] + bytes([text[at] ^ 1 << draw.randint(0, 7)]) + text[at + 1:]
    return text[:at] + (draw_byte(draw) if kind == "other" else b"") + text[at + 1:]


def draw_byte(draw):
    """One byte: one that is often a limit, or any."""
    return draw.choice([b"0", b"9", b":", b"/", b"F", b"f", b"A", b"G", b" ", b"~", b"\x7f", b"\x00", b"\xff", draw.randbytes(1)])
