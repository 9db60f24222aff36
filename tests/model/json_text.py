"""A JSON text, as the documents of tables and of accounts are written."""
import json
import math
import re

DEEPEST = 127
TEXTS = re.compile(r'"(?:[^"\\]|\\.)*"', re.DOTALL)
BRACKETS = re.compile(r"[][{}]")
U64 = 2 ** 64
I64 = 2 ** 63


class NotJson(Exception):
    """The text is no JSON: other text, bad UTF-8, or lists nested too deep."""


def value_of(text):
    """The value that a text of bytes stands for. Of a member that is given twice the last one counts."""
    try:
        characters = text.decode("utf-8")
        value = json.loads(characters, parse_int=number, parse_float=fraction, parse_constant=refuse)
    except (ValueError, RecursionError) as fault:
        raise NotJson from fault
    if depth(characters) > DEEPEST:
        raise NotJson
    return value


def number(digits):
    """A whole number, where 64 bits can hold it. `-0` is none."""
    if digits != "-0" and len(digits) <= 20 and -I64 <= int(digits) < U64:
        return int(digits)
    return fraction(digits)


def fraction(digits):
    """A number that is no whole one, `1.0` and `1e0` among them. One that is out of range is no JSON."""
    if math.isinf(float(digits)):
        raise ValueError(digits)
    return float(digits)


def refuse(name):
    """`NaN` and `Infinity` are no JSON."""
    raise ValueError(name)


def depth(characters):
    """How deep lists and objects are nested in a text."""
    deepest = open_ones = 0
    for bracket in BRACKETS.findall(TEXTS.sub("", characters)):
        open_ones += 1 if bracket in "[{" else -1
        deepest = max(deepest, open_ones)
    return deepest


def is_whole(value, least, most):
    """Whether a value is a whole number of that range."""
    return type(value) is int and least <= value <= most


def is_one_of(value, texts):
    """Whether a value is one of these texts, in these very letters."""
    return isinstance(value, str) and value in texts


def has_members(value, names):
    """Whether a value is an object with exactly these members."""
    return isinstance(value, dict) and value.keys() == set(names)
