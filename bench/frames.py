#!/usr/bin/env python3
"""Streams of frames to measure a host by: frames.py KIND COUNT FOLDER

Writes so many frames to FOLDER/stream and the accounts that they are about to FOLDER/accounts.json, and prints how each frame
counts its body. The same words give the same bytes. KIND is one of

  echo           an echo test, again and again: each is answered, and none is an order
  silent         a response, again and again: none is answered
  one-account    purchases on one account, each with a trace number and a time of its own
  many-accounts  the same over 1,000 accounts
  mix            of ten frames six new purchases over 1,000 accounts, two repeats, a reversal and an echo test
  garbage        82 random bytes that are no message
  full           an echo test with all 126 elements, each as long as its row in tables/ascii87.json allows
"""
import json
import pathlib
import random
import sys

ECHO = b"0800" b"8220000000000000" b"0400000000000000" b"0102030405" b"000001" b"301"
RESPONSE = b"0810" b"8220000002000000" b"0400000000000000" b"0102030405" b"000001" b"00" b"301"
ACQUIRER = b"05" b"12345"
CARD = b"4111111111111111"
TABLE = pathlib.Path(__file__).resolve().parent.parent / "tables" / "ascii87.json"
RANDOM = random.Random(8583)


def card(number):
    """The account of a purchase over 1,000 accounts."""
    return b"400000000000%04d" % (number % 1000)


def stamp(number):
    """A time and a trace number: no two of the first million are the same."""
    second = number // 100
    return b"0102%02d%02d%02d%06d" % (second // 3600 % 24, second // 60 % 60, second % 60, number % 1_000_000)


def purchase(mti, number, pan):
    return mti + b"7220000100008000" b"16" + pan + b"000000" b"000000001000" + stamp(number) + ACQUIRER + b"840"


def reversal(number, original):
    named = stamp(original)
    return (b"0420" b"8220000100000000" b"0000004000000000" + stamp(number) + ACQUIRER
            + b"0200" + named[10:] + named[:10] + b"00000012345" b"00000000000")


def mixed(number):
    place = number % 10
    first = number - place
    if place < 6:
        return purchase(b"0200", number, card(number))
    if place < 8:
        again = first + place - 6
        return purchase(b"0201", again, card(again))
    return reversal(number, first + 2) if place == 8 else ECHO


def longest(row):
    """The longest value of a row, as it is written in ASCII."""
    size, kind = row["max"], row["class"]
    if row["number"] == 70:
        return b"301"
    if kind == "B":
        return b"A" * (2 * size if row["coding"] == "hex" else size)
    return b"C" + b"1" * (size - 1) if kind == "XN" else (b"1" if kind in ("N", "ZD") else b"A") * size


def length(row):
    """The digits that tell how long the value of a row is."""
    digits = len(row["length"]) if row["length"] != "fixed" else 0
    return b"%0*d" % (digits, row["max"]) if digits else b""


def full():
    rows = json.loads(TABLE.read_text())["rows"]
    return b"0800" b"FFFFFFFFFFFFFFFF" b"7FFFFFFFFFFFFFFF" + b"".join(length(row) + longest(row) for row in rows)


def bodies(kind, count):
    """The bodies of a stream, one after the other."""
    whole = full()
    body = {
        "echo": lambda number: ECHO,
        "silent": lambda number: RESPONSE,
        "one-account": lambda number: purchase(b"0200", number, CARD),
        "many-accounts": lambda number: purchase(b"0200", number, card(number)),
        "mix": mixed,
        "garbage": lambda number: RANDOM.randbytes(82),
        "full": lambda number: whole,
    }[kind]
    return map(body, range(count))


def accounts(kind):
    """The document of the accounts of a stream, on each of which is enough."""
    pans = [card(number) for number in range(1000)] if kind in ("many-accounts", "mix") else [CARD]
    rows = [{"currency": "840", "opening": 9_000_000_000_000, "pan": pan.decode()} for pan in pans]
    return json.dumps({"accounts": rows}, separators=(",", ":")) + "\n"


def main(kind, count, folder):
    place = pathlib.Path(folder)
    place.joinpath("accounts.json").write_text(accounts(kind))
    header = "binary2" if kind == "full" else "ascii4"
    counted = (lambda body: len(body).to_bytes(2, "big")) if header == "binary2" else (lambda body: b"%04d" % len(body))
    with place.joinpath("stream").open("wb") as stream:
        stream.writelines(counted(body) + body for body in bodies(kind, int(count)))
    print(header)


if __name__ == "__main__":
    main(*sys.argv[1:])
