"""Values and messages of a table, in any of their spellings."""
from model.bitmap import written_bitmap
from model.characters import CLASSES, DIGITS
from model.message import Message
from model.part import packed, value_fault, written_body, written_prefix
from model.showing import ACCOUNT_NUMBER, HIDDEN

CHARACTERS = {name: sorted(characters) for name, characters in CLASSES.items() if characters} | {"XN": sorted(DIGITS)}


def draw_message(draw, table):
    """A message that a table can write."""
    mti = f"{table.version}{draw.choice('124888')}{draw.choice('0123')}{draw.choice('000123456789')}"
    if draw.random() < 0.1:
        mti = f"{table.version}{draw.randint(0, 999):03d}"
    numbers = sorted(table.rows)
    count = len(numbers) if draw.random() < 0.03 else draw.choice([0, 1, 2, 4, 8, 16])
    some = set(draw.sample(numbers, min(len(numbers), count)))
    if draw.random() < 0.3:
        some |= {number for number in (ACCOUNT_NUMBER, *HIDDEN) if number in numbers}
    return Message(mti, {number: draw_value(draw, table.rows[number]) for number in sorted(some)})


def draw_value(draw, row):
    """A value that fits a row."""
    least = row.max if row.is_fixed() and not row.pad else 0
    short = draw.choice([1, 12, 13, draw.randint(0, 20)])
    size = draw.choice([least, row.max, draw.randint(least, row.max), min(row.max, max(least, short))])
    if size > 50 and draw.random() < 0.8:
        size = max(least, size % 50)
    value = draw_characters(draw, row.char_class, size)
    return value if value_fault(row, value) is None else draw_value(draw, row)


def draw_characters(draw, char_class, size):
    """So many characters of a class. Long values repeat themselves."""
    value = (bytes(draw.choices(CHARACTERS[char_class], k=min(size, 50))) * (size // 50 + 1))[:size]
    return draw.choice([b"C", b"D"]) + value[1:] if char_class == "XN" and value else value


def spell(draw, table, message):
    """One of the spellings of a message: any filler, either case, and a second bitmap that may be empty."""
    digits = message.mti.encode()
    numbers = message.elements.keys()
    above = {number - 64 for number in numbers if number > 64}
    second = above or draw.random() < 0.2
    below = {number for number in numbers if number <= 64} | ({1} if second else set())
    bitmaps = [written_bitmap(table.bitmap, bits) for bits in ([below, above] if second else [below])]
    if table.bitmap == "hex":
        bitmaps = [any_case(draw, bitmap) for bitmap in bitmaps]
    parts = [spell_part(draw, table.rows[number], message.elements[number]) for number in sorted(numbers)]
    return b"".join([digits if table.mti == "ascii" else packed(digits), *bitmaps, *parts])


def spell_part(draw, row, value):
    """One of the spellings of an element; rarely with a filler before three digits of length, where none is read."""
    body = written_body(row, value)
    if row.coding == "hex":
        body = any_case(draw, body)
    count = row.max if row.pad else len(value)
    if row.coding == "bcd" and count % 2 and draw.random() < 0.5:
        body = bytes([body[0] | 0xF0]) + body[1:]
    prefix = written_prefix(row, len(value))
    if row.length == "LLL" and row.prefix == "bcd" and draw.random() < 0.01:
        prefix = bytes([prefix[0] | 0xF0]) + prefix[1:]
    return prefix + body


def any_case(draw, text):
    """Hexadecimal digits in upper or in lower case."""
    return text if draw.random() < 0.5 else text.lower()
