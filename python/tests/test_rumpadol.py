"""What the package gives on messages that were worked by hand, and on what is no message. RUMPADOL_LIBRARY names the library.

The expected bytes are those of the pages and of the rows of the programs: examples/, docs/FAULTS.md, docs/TABLES.md,
scripts/c-calls.c and crates/iso_cli/rows/; none was taken from the library.
"""

import copy
import ctypes
import ctypes.util
import gc
import io
import json
import os
import pathlib
import pickle
import random
import socket
import subprocess
import sys
import threading
import unittest
import weakref

import rumpadol
from rumpadol import Explanation, Fault, Header, Message, Piece, Table
from rumpadol import convert, describe, explain, frame, frames, pack, unpack, view
from rumpadol import _library

ROOT = pathlib.Path(__file__).resolve().parent.parent.parent
ECHO = b"0800822000000000000004000000000000000102030405000001301"
ECHO_BCD = bytes.fromhex("08008220000000000000040000000000000001020304050000010301")
ECHO_VALUES = {7: "0102030405", 11: "000001", 70: "301"}
ECHO_LINES = (
    "MTI=0800 1987 NetworkManagement Request Acquirer\nDE007=0102030405\nDE011=000001\nDE070=301\nUSED=55/55\n"
)
PAYMENT = (ROOT / "examples" / "payment.txt").read_bytes().strip()
PAYMENT_VALUES = {
    2: "4111111111111111", 3: "000000", 4: "000000001000", 7: "0102030405", 11: "000007", 32: "12345", 49: "840",
}
SECRETS = b"020000000000000010010123456789abcdefFEDCBA9876543210"
SECRETS_PIN, SECRETS_CODE = bytes.fromhex("0123456789ABCDEF"), bytes.fromhex("FEDCBA9876543210")
CLASSES = b"0210200000100A100001000000D00000150AB 456-78901Z9000123456789ABCDEF"


def fault_of(call, *words):
    """The fault that a call raises."""
    try:
        call(*words)
    except Fault as fault:
        return fault
    raise AssertionError("no fault was raised")


def long_table():
    """A table with an element of up to 9,999 characters, and its document."""
    row = {"number": 48, "class": "ANS", "coding": "ascii", "length": "LLLL", "prefix": "ascii", "max": 9999, "pad": "none"}
    more = [{**row, "number": number} for number in range(49, 60)]
    return json.dumps({"profile": 2, "version": 0, "mti": "ascii", "bitmap": "raw", "rows": [row, *more]})


class Library(unittest.TestCase):
    """The library is found, or it is said that it isn't."""

    def test_no_library(self):
        libc = ctypes.util.find_library("c") or "libc.so.6"
        for named, told in (("/nowhere/librumpadol.so.1", "can't be loaded: install the library"), (libc, "isn't the library")):
            run = subprocess.run(
                [sys.executable, "-c", "import rumpadol"], cwd=ROOT / "python", env={**os.environ, "RUMPADOL_LIBRARY": named},
                capture_output=True, text=True, check=False,
            )
            self.assertEqual(run.returncode, 1)
            self.assertIn("ImportError: rumpadol: " + named, run.stderr)
            self.assertIn(told, run.stderr)

    def test_layout(self):
        """The structures are as C lays them out on this machine."""
        sizes = [ctypes.sizeof(kind) for kind in (_library.FaultRoom, _library.Part, _library.MessageRoom, _library.Slot)]
        word = ctypes.sizeof(ctypes.c_size_t)
        self.assertEqual(sizes, [8 + word, 3 * word, 3 * word, 64 + max(word, 8)])


class Tables(unittest.TestCase):
    """Tables are made, closed and copied."""

    def test_documents_are_the_built_in_tables(self):
        for name, built_in in (("ascii87", Table.ascii87()), ("bcd87", Table.bcd87())):
            text = (ROOT / "tables" / f"{name}.json").read_text()
            table = Table.from_json(text)
            self.assertEqual(table.binary, built_in.binary)
            self.assertEqual(table.binary, {row["number"] for row in json.loads(text)["rows"] if row["class"] == "B"})
            message = Message("0800", ECHO_VALUES)
            self.assertEqual(pack(table, message), pack(built_in, message))

    def test_documents_of_bytes(self):
        text = (ROOT / "tables" / "ascii87.json").read_bytes()
        for document in (text, bytearray(text), memoryview(text)):
            self.assertEqual(unpack(Table.from_json(document), ECHO)[0], Message("0800", ECHO_VALUES))

    def test_bad_documents(self):
        rows = '{"profile":2,"version":0,"mti":"ascii","bitmap":"hex","rows":['
        row = '{"number":%d,"class":"N","coding":"ascii","length":"fixed","max":%d,"pad":"none"}'
        for text, name, number, element in (
            ("", "NotJson", 401, 0),
            ("[]", "Shape", 402, 0),
            ('{"profile":7}', "Profile", 409, 0),
            (rows.replace('"version":0', '"version":3') + "]}", "BadVersion", 403, 0),
            (rows + row % (65, 3) + "]}", "BadNumber", 404, 65),
            (rows + row % (3, 3) + "," + row % (3, 3) + "]}", "Twice", 405, 3),
            (rows + row % (3, 0) + "]}", "BadMax", 406, 3),
        ):
            fault = fault_of(Table.from_json, text)
            self.assertEqual((fault.name, fault.number, fault.element), (name, number, element), text)

    def test_no_document(self):
        for wrong in (None, 7, 1.5, [], ["a"]):
            with self.assertRaises(TypeError):
                Table.from_json(wrong)

    def test_closed(self):
        with Table.ascii87() as table:
            self.assertEqual(unpack(table, ECHO)[1], len(ECHO))
            self.assertEqual(convert(table, table, ECHO), ECHO)
        table.close()
        message = Message("0800", ECHO_VALUES)
        for call, words in ((unpack, (ECHO,)), (pack, (message,)), (view, (ECHO, 7)), (describe, (ECHO,)), (explain, (ECHO,))):
            self.assertEqual(fault_of(call, table, *words).name, "EmptySlot")
        self.assertEqual(fault_of(convert, table, table, ECHO).name, "EmptySlot")
        self.assertEqual(fault_of(convert, Table.bcd87(), table, ECHO_BCD).name, "EmptySlot")

    def test_freed(self):
        table = Table.ascii87()
        gone = weakref.ref(table)
        close = table._close
        del table
        gc.collect()
        self.assertIsNone(gone())
        self.assertFalse(close.alive)

    def test_copies(self):
        document = (ROOT / "tables" / "ascii87.json").read_text()
        for table in (Table.ascii87(), Table.from_json(document)):
            for other in (copy.copy(table), copy.deepcopy(table), pickle.loads(pickle.dumps(table))):
                self.assertIsNot(other, table)
                self.assertEqual(unpack(other, ECHO)[0], Message("0800", ECHO_VALUES))

    def test_no_such_table(self):
        self.assertEqual(fault_of(Table, 2).name, "NoSuchTable")
        for wrong, error in ((-1, ValueError), (2**32, ValueError), (None, TypeError), ("ascii87", TypeError)):
            with self.assertRaises(error):
                Table(wrong)


class Messages(unittest.TestCase):
    """A message is a mapping of elements."""

    def test_mapping(self):
        message = Message("0200", {11: "000007", 4: "000000001000"})
        message[3] = "000000"
        message[52] = bytearray(8)
        self.assertEqual(list(message), [3, 4, 11, 52])
        self.assertEqual(list(message.items())[0], (3, "000000"))
        self.assertEqual((len(message), 3 in message, 5 in message, message.get(5)), (4, True, False, None))
        self.assertIsInstance(message[52], bytes)
        del message[3]
        self.assertEqual(message.pop(4), "000000001000")
        with self.assertRaises(KeyError):
            message[3]
        with self.assertRaises(KeyError):
            del message[3]

    def test_equal(self):
        self.assertEqual(Message("0800", ECHO_VALUES), Message("0800", reversed(list(ECHO_VALUES.items()))))
        self.assertNotEqual(Message("0800", ECHO_VALUES), Message("0810", ECHO_VALUES))
        self.assertNotEqual(Message("0800", ECHO_VALUES), Message("0800"))
        self.assertNotEqual(Message("0800", ECHO_VALUES), ECHO_VALUES)

    def test_text_shows_no_values(self):
        self.assertEqual(repr(Message("0200", PAYMENT_VALUES)), "<Message 0200: 2 3 4 7 11 32 49>")
        self.assertEqual(str(Message("0800")), "<Message 0800: no elements>")

    def test_refused(self):
        for mti in ("", "800", "08000", "08O0", "\uff10\uff18\uff10\uff10"):
            with self.assertRaises(ValueError):
                Message(mti)
        for mti in (800, None, b"0800"):
            with self.assertRaises(TypeError):
                Message(mti)
        message = Message("0800")
        for number, value, error in (
            (4, None, TypeError), (4, 1000, TypeError), (4, "é", ValueError), (-1, "1", ValueError), (2**32, "1", ValueError),
            ("4", "1", TypeError), (4.0, "1", TypeError), (None, "1", TypeError),
        ):
            with self.assertRaises(error):
                message[number] = value
        self.assertEqual(len(message), 0)

    def test_pickled(self):
        message = Message("0800", ECHO_VALUES)
        self.assertEqual(pickle.loads(pickle.dumps(message)), message)


class Worked(unittest.TestCase):
    """Calls give what was worked by hand."""

    def setUp(self):
        self.ascii87, self.bcd87 = Table.ascii87(), Table.bcd87()

    def test_unpack(self):
        self.assertEqual(unpack(self.ascii87, PAYMENT), (Message("0200", PAYMENT_VALUES), 82))
        self.assertEqual(unpack(self.ascii87, ECHO + b"XYZ"), (Message("0800", ECHO_VALUES), 55))
        self.assertEqual(unpack(self.bcd87, ECHO_BCD), (Message("0800", ECHO_VALUES), 28))
        self.assertEqual(unpack(self.ascii87, b"08000000000000000000"), (Message("0800"), 20))

    def test_unpack_of_each_class(self):
        values = {3: "000000", 28: "D00000150", 37: "AB 456-78901", 39: "Z9", 44: "", 64: bytes.fromhex("0123456789ABCDEF")}
        self.assertEqual(unpack(self.ascii87, CLASSES), (Message("0210", values), 67))
        self.assertEqual(pack(self.ascii87, Message("0210", values)), CLASSES)

    def test_unpack_of_bytes(self):
        self.assertEqual(unpack(self.ascii87, SECRETS), (Message("0200", {52: SECRETS_PIN, 64: SECRETS_CODE}), 52))

    def test_other_buffers(self):
        for data in (bytearray(ECHO), memoryview(ECHO), memoryview(b"?" + ECHO)[1:]):
            self.assertEqual(unpack(self.ascii87, data), (Message("0800", ECHO_VALUES), 55))
            self.assertEqual(convert(self.ascii87, self.bcd87, data), ECHO_BCD)
            self.assertEqual(bytes(view(self.ascii87, data, 70)), b"301")

    def test_pack(self):
        self.assertEqual(pack(self.ascii87, Message("0200", PAYMENT_VALUES)), PAYMENT)
        self.assertEqual(pack(self.bcd87, Message("0800", ECHO_VALUES)), ECHO_BCD)
        self.assertEqual(pack(self.ascii87, Message("0800", {n: v.encode() for n, v in ECHO_VALUES.items()})), ECHO)
        self.assertEqual(pack(self.ascii87, Message("0800")), b"08000000000000000000")

    def test_pack_refuses_text_for_bytes(self):
        with self.assertRaisesRegex(TypeError, "element 52"):
            pack(self.ascii87, Message("0200", {52: "01234567"}))

    def test_pack_refused(self):
        for mti, number, value, told in (
            ("1200", 3, "000000", ("WrongVersion", 301, 0, 0)),
            ("0200", 3, "00000", ("WrongLength", 303, 3, 0)),
            ("0200", 3, "00000x", ("NotInClass", 304, 3, 0)),
            ("0200", 65, "1", ("BadNumber", 601, 65, 0)),
            ("0200", 1, "1", ("BadNumber", 601, 1, 0)),
            ("0200", 0, "1", ("BadNumber", 601, 0, 0)),
            ("0200", 129, "1", ("BadNumber", 601, 129, 0)),
            ("0200", 0xFFFFFFFF, "1", ("BadNumber", 601, 0xFFFFFFFF, 0)),
        ):
            fault = fault_of(pack, self.ascii87, Message(mti, {number: value}))
            self.assertEqual((fault.name, fault.number, fault.element, fault.offset), told)
        terminals = Table.from_json((ROOT / "tables" / "terminals.json").read_text())
        self.assertEqual(fault_of(pack, terminals, Message("0800", ECHO_VALUES)).args, ("NoRow", 302, 7, 0))

    def test_pack_of_too_many(self):
        many = Message("0200", {number: b"1" for number in range(400)})
        self.assertEqual(fault_of(pack, self.ascii87, many).name, "BadNumber")

    def test_view(self):
        body = view(self.ascii87, ECHO, 70)
        self.assertEqual((bytes(body), body.obj), (b"301", ECHO))
        self.assertEqual(bytes(view(self.ascii87, PAYMENT, 2)), b"4111111111111111")
        self.assertEqual(bytes(view(self.bcd87, ECHO_BCD, 70)), b"\x03\x01")
        for number in (0, 1, 2, 65, 128, 129, 0xFFFFFFFF):
            self.assertEqual(fault_of(view, self.ascii87, ECHO, number).args, ("NoElement", 6, number, 0))
        for number, error in ((-1, ValueError), (2**32 + 70, ValueError), ("70", TypeError), (None, TypeError)):
            with self.assertRaises(error):
                view(self.ascii87, ECHO, number)

    def test_view_is_of_the_data(self):
        data = bytearray(ECHO)
        view(self.ascii87, data, 70)[:] = b"001"
        self.assertEqual(unpack(self.ascii87, data)[0][70], "001")

    def test_convert(self):
        self.assertEqual(convert(self.ascii87, self.bcd87, ECHO), ECHO_BCD)
        self.assertEqual(convert(self.bcd87, self.ascii87, ECHO_BCD), ECHO)
        lower, upper = b"0800022a000000000000010203040500000101020103", b"0800022A000000000000010203040500000101020103"
        self.assertEqual(convert(self.ascii87, self.ascii87, lower), upper)
        self.assertEqual(fault_of(convert, self.ascii87, self.bcd87, ECHO + b"XYZ").args, ("TrailingBytes", 5, 0, 55))

    def test_describe(self):
        self.assertEqual("\n".join([*describe(self.ascii87, ECHO), ""]), ECHO_LINES)
        self.assertEqual(describe(self.ascii87, SECRETS), [
            "MTI=0200 1987 Financial Request Acquirer", "DE052=********", "DE064=FEDCBA9876543210", "USED=52/52",
        ])
        self.assertEqual(describe(self.ascii87, PAYMENT)[1], "DE002=411111******1111")

    def test_faults(self):
        for table, data, told in (
            (self.ascii87, b"", ("Short", 101, 0, 0)),
            (self.bcd87, ECHO, ("WrongVersion", 103, 0, 0)),
            (self.ascii87, ECHO_BCD, ("BadMti", 102, 0, 0)),
            (self.ascii87, PAYMENT.replace(b"00000010000102", b"0000O010000102"), ("NotInClass", 202, 4, 44)),
            (self.ascii87, PAYMENT[:81], ("Short", 101, 49, 79)),
        ):
            for call in (unpack, describe):
                self.assertEqual(fault_of(call, table, data).args, told)
            self.assertEqual(fault_of(view, table, data, 3).args, told)
        self.assertEqual(str(fault_of(unpack, self.bcd87, ECHO)), "WrongVersion (103) element 0 at 0")

    def test_fault_is_pickled(self):
        fault = fault_of(unpack, self.ascii87, b"")
        self.assertEqual(pickle.loads(pickle.dumps(fault)).args, fault.args)

    def test_rooms_grow(self):
        small = rumpadol._Room(1)
        table = Table.from_json(long_table())
        message = Message("0800", {number: "x" * 9000 for number in range(48, 60)})
        written = b"0800" + bytes.fromhex("000000000001FFE0") + (b"9000" + b"x" * 9000) * 12
        for call in (lambda: pack(table, message), lambda: convert(table, table, written)):
            rumpadol._room = small
            self.assertEqual(call(), written)
        rumpadol._room = small
        self.assertEqual(unpack(table, written), (message, len(written)))
        rumpadol._room = small
        self.assertEqual(describe(table, written)[2], "DE049=" + "x" * 9000)
        rumpadol._room = small
        self.assertEqual(frame(Header.BINARY2, bytes(60000)), b"\xea\x60" + bytes(60000))


# the pieces of the payment, as README.md shows them
PAYMENT_PIECES = [
    (0, b"0200", None, "0200"), (4, b"7220000100008000", None, "2 3 4 7 11 32 49"),
    (20, b"164111111111111111", 2, "4111111111111111"), (38, b"000000", 3, "000000"), (44, b"000000001000", 4, "000000001000"),
    (56, b"0102030405", 7, "0102030405"), (66, b"000007", 11, "000007"), (72, b"0512345", 32, "12345"), (79, b"840", 49, "840"),
]
PAYMENT_TEXT = """\
0000  30323030                                          0200 1987 Financial Request Acquirer
0004  37323230303030313030303038303030                  2 3 4 7 11 32 49
0020  3136**************************** .. 2 more     2  411111******1111
0038  303030303030                                   3  000000
0044  303030303030303031303030                       4  000000001000
0056  30313032303330343035                           7  0102030405
0066  303030303037                                  11  000007
0072  30353132333435                                32  12345
0079  383430                                        49  840"""
ECHO_PIECES = [
    (0, b"0800", None, "0800"), (4, b"8220000000000000", None, "1 7 11"), (20, b"0400000000000000", 1, "70"),
    (36, b"0102030405", 7, "0102030405"), (46, b"000001", 11, "000001"), (52, b"301", 70, "301"),
]
ECHO_BCD_PIECES = [
    (0, b"\x08\0", None, "0800"), (2, b"\x82\x20\0\0\0\0\0\0", None, "1 7 11"), (10, b"\x04\0\0\0\0\0\0\0", 1, "70"),
    (18, b"\x01\x02\x03\x04\x05", 7, "0102030405"), (23, b"\0\0\x01", 11, "000001"), (26, b"\x03\x01", 70, "301"),
]


class Explained(unittest.TestCase):
    """Messages are taken apart, up to the first fault."""

    def setUp(self):
        self.ascii87, self.bcd87 = Table.ascii87(), Table.bcd87()

    def gives(self, table, data, pieces, used, fault):
        """Whether these pieces, this size and this fault are told, and a line of each piece and of the fault."""
        found = explain(table, data)
        self.assertIsInstance(found, Explanation)
        self.assertEqual((found.pieces, found.used), (pieces, used))
        self.assertEqual(found.fault and found.fault.args, fault)
        lines = str(found).split("\n")
        self.assertEqual([line[:4] for line in lines[: len(pieces)]], [f"{piece[0]:04}" for piece in pieces])
        self.assertEqual(len(lines), len(pieces) + (fault is not None))
        return lines[-1]

    def test_payment(self):
        self.gives(self.ascii87, PAYMENT, PAYMENT_PIECES, 82, None)
        self.gives(self.ascii87, bytearray(PAYMENT + b"XYZ"), PAYMENT_PIECES, 82, None)
        found = explain(self.ascii87, PAYMENT)
        self.assertEqual(str(found), PAYMENT_TEXT)
        self.assertEqual(found.pieces[2], Piece(20, b"164111111111111111", 2, "4111111111111111"))
        self.assertEqual((found.pieces[2].offset, found.pieces[2].element), (20, 2))

    def test_letter(self):
        typed = PAYMENT[:42] + b"O" + PAYMENT[43:]
        told = ("NotInClass", 202, 3, 38)
        last = self.gives(self.ascii87, typed, PAYMENT_PIECES[:3], None, told)
        self.assertEqual(last, "NotInClass (202) element 3 at 38: the piece there begins with the byte 30")
        self.assertEqual(str(explain(self.ascii87, typed)).split("\n")[:3], PAYMENT_TEXT.split("\n")[:3])
        self.assertIsNone(explain(self.ascii87, typed).fault.__traceback__)

    def test_two_bitmaps(self):
        self.gives(self.ascii87, ECHO, ECHO_PIECES, 55, None)
        self.gives(self.bcd87, ECHO_BCD, ECHO_BCD_PIECES, 28, None)
        for name, data, pieces in (("ascii87", ECHO, ECHO_PIECES), ("bcd87", ECHO_BCD, ECHO_BCD_PIECES)):
            table = Table.from_json((ROOT / "tables" / f"{name}.json").read_text())
            self.gives(table, data, pieces, len(data), None)

    def test_faults_behind_two_bitmaps(self):
        """The secondary bitmap stays, though nothing of it is read."""
        for table, data, pieces, told in (
            (self.ascii87, b"%b?%b" % (ECHO[:36], ECHO[37:]), ECHO_PIECES[:3], ("NotInClass", 202, 7, 36)),
            (self.ascii87, b"%bO%b" % (ECHO[:50], ECHO[51:]), ECHO_PIECES[:4], ("NotInClass", 202, 11, 46)),
            (self.ascii87, ECHO[:54], ECHO_PIECES[:5], ("Short", 101, 70, 52)),
            (self.bcd87, b"%b\x0a%b" % (ECHO_BCD[:20], ECHO_BCD[21:]), ECHO_BCD_PIECES[:3], ("NotInClass", 202, 7, 18)),
            (self.bcd87, ECHO_BCD[:26] + b"\x13\x01", ECHO_BCD_PIECES[:5], ("BadFiller", 206, 70, 26)),
            (self.bcd87, ECHO_BCD[:27], ECHO_BCD_PIECES[:5], ("Short", 101, 70, 26)),
        ):
            self.gives(table, data, pieces, None, told)

    def test_faults_in_front(self):
        """Of the type nothing is told, of a bitmap what is before it."""
        raw = Table.from_json((ROOT / "tables" / "ascii87raw.json").read_text())
        for table, data, pieces, told in (
            (self.ascii87, b"", [], ("Short", 101, 0, 0)),
            (self.ascii87, b"08O0" + ECHO[4:], [], ("BadMti", 102, 0, 0)),
            (self.bcd87, ECHO, [], ("WrongVersion", 103, 0, 0)),
            (self.ascii87, PAYMENT[:4], PAYMENT_PIECES[:1], ("Short", 101, 0, 4)),
            (self.ascii87, PAYMENT[:19], PAYMENT_PIECES[:1], ("Short", 101, 0, 4)),
            (self.ascii87, b"0200722000010000800G" + PAYMENT[20:], PAYMENT_PIECES[:1], ("BadHex", 104, 0, 4)),
            (self.ascii87, ECHO[:20], ECHO_PIECES[:2], ("Short", 101, 1, 20)),
            (self.ascii87, ECHO[:35], ECHO_PIECES[:2], ("Short", 101, 1, 20)),
            (self.ascii87, ECHO[:20] + b"8" + ECHO[21:], ECHO_PIECES[:2], ("ThirdBitmap", 105, 1, 20)),
            (self.bcd87, ECHO_BCD[:9], ECHO_BCD_PIECES[:1], ("Short", 101, 0, 2)),
            (self.bcd87, ECHO_BCD[:17], ECHO_BCD_PIECES[:2], ("Short", 101, 1, 10)),
            (raw, b"0800" + ECHO_BCD[2:16], [(0, b"0800", None, "0800"), (4, ECHO_BCD[2:10], None, "1 7 11")], ("Short", 101, 1, 12)),
        ):
            self.gives(table, data, pieces, None, told)
        self.assertEqual(str(explain(self.ascii87, b"")), "Short (101) element 0 at 0: the bytes end there")

    def test_no_elements(self):
        self.gives(self.ascii87, b"0800" + b"0" * 16, [(0, b"0800", None, "0800"), (4, b"0" * 16, None, "")], 20, None)

    def test_bitmaps_in_lower_case(self):
        data = b"0800022a000000000000010203040500000101020103"
        pieces = explain(self.ascii87, data[:43]).pieces
        self.assertEqual(pieces[1], (4, b"022a000000000000", None, "7 11 13 15"))
        self.assertEqual([piece.element for piece in pieces[2:]], [7, 11, 13])

    def test_hidden(self):
        """Stars stand for what describe() hides, in the bytes too; a length and any other element is shown."""
        self.assertEqual(str(explain(self.ascii87, SECRETS)).split("\n")[2:], [
            "0020  ********************************              52  ********",
            "0036  46454443424139383736353433323130              64  FEDCBA9876543210",
        ])
        self.assertEqual([piece.value for piece in explain(self.ascii87, SECRETS).pieces[2:]], [SECRETS_PIN, SECRETS_CODE])
        for data, last in (
            (PAYMENT[:25], "Short (101) element 2 at 22: the piece there begins with the byte **"),
            (PAYMENT[:25] + b"?" + PAYMENT[26:], "NotInClass (202) element 2 at 22: the piece there begins with the byte **"),
            (PAYMENT[:20] + b"1X" + PAYMENT[22:], "BadLengthDigits (204) element 2 at 20: the piece there begins with the byte 31"),
        ):
            self.assertEqual(self.gives(self.ascii87, data, PAYMENT_PIECES[:2], None, explain(self.ascii87, data).fault.args), last)
        self.assertEqual(repr(explain(self.ascii87, PAYMENT)), "<Explanation: 9 pieces, 82 bytes>")
        self.assertEqual(repr(explain(self.ascii87, PAYMENT).pieces[1:3]), "[<Piece at 4: 16 bytes>, <Piece at 20: 18 bytes of element 2>]")

    def test_hidden_as_described(self):
        """The bytes of an element are hidden where describe() hides some of its value."""
        rows = json.loads((ROOT / "tables" / "ascii87.json").read_text())["rows"]
        self.assertEqual(len(rows), 126)
        for row in rows:
            size = row["max"] if row["length"] == "fixed" else 1
            value = {"A": "A" * size, "B": b"1" * size, "XN": "C" + "0" * (size - 1)}.get(row["class"], "1" * size)
            data = pack(self.ascii87, Message("0200", {row["number"]: value}))
            told, line = describe(self.ascii87, data)[1], str(explain(self.ascii87, data)).split("\n")[-1]
            self.assertEqual("*" in told, "*" in line[6:51], row["number"])
            self.assertTrue(line.endswith("  " + told[6:]), row["number"])


class Frames(unittest.TestCase):
    """Bodies are framed, and taken from streams."""

    def test_frame(self):
        self.assertEqual(frame(Header.BINARY2, b"0800"), b"\0\x040800")
        self.assertEqual(frame(Header.ASCII4, b"0800"), b"00040800")
        self.assertEqual(frame(Header.BCD2, b"0800"), b"\0\x040800")
        self.assertEqual(fault_of(frame, Header.ASCII4, bytes(10000)).name, "TooLong")
        for wrong in (3, -1, 2**32, None, "ascii4"):
            with self.assertRaises(ValueError):
                frame(wrong, b"0800")

    def test_day(self):
        day = (ROOT / "examples" / "day.txt").read_bytes()
        with open(ROOT / "examples" / "day.txt", "rb") as stream:
            bodies = list(frames(stream, Header.ASCII4))
        self.assertEqual(len(bodies), 8)
        self.assertEqual(b"".join(f"{len(body):04}".encode() + body for body in bodies), day)

    def test_pieces(self):
        for header in Header:
            stream = b"".join(frame(header, body) for body in (b"", b"0800", ECHO * 20, b"")) * 50
            for size in (1, 2, 3, 7, 64, 1000, len(stream)):
                source = io.BytesIO(stream)
                source.read1 = lambda _, source=source, size=size: source.read(size)
                self.assertEqual(list(frames(source, header)), [b"", b"0800", ECHO * 20, b""] * 50)

    def test_longest(self):
        body = bytes(range(256)) * 255
        self.assertEqual(list(frames(io.BytesIO(frame(Header.BINARY2, body) * 5), Header.BINARY2)), [body] * 5)

    def test_ends_inside(self):
        for cut in (1, 3, 5, 7):
            bodies = frames(io.BytesIO(b"00040800" + b"00040800"[:cut]), Header.ASCII4)
            self.assertEqual(next(bodies), b"0800")
            with self.assertRaisesRegex(EOFError, f"{cut} bytes behind"):
                next(bodies)

    def test_bad_digits(self):
        fault = fault_of(list, frames(io.BytesIO(b"00O40800"), Header.ASCII4))
        self.assertEqual((fault.name, fault.number), ("BadDigits", 502))

    def test_socket(self):
        here, there = socket.socketpair()
        with here, there, there.makefile("rb") as stream:
            bodies = frames(stream, Header.BINARY2)
            for body in (ECHO, PAYMENT):
                here.sendall(frame(Header.BINARY2, body))
                self.assertEqual(next(bodies), body)

    def test_no_bytes_now(self):
        class Never:
            """A stream that doesn't wait."""

            def read(self, _):
                return None

        with self.assertRaises(BlockingIOError):
            next(frames(Never(), Header.ASCII4))


class Strange(unittest.TestCase):
    """What is no message is refused by a fault or an error, and no call does anything else."""

    def test_nothing(self):
        table = Table.ascii87()
        for wrong in (None, 7, 1.5, "0800", [], object()):
            for call in (
                lambda: unpack(table, wrong), lambda: view(table, wrong, 3), lambda: describe(table, wrong),
                lambda: explain(table, wrong), lambda: convert(table, table, wrong), lambda: frame(Header.ASCII4, wrong),
            ):
                with self.assertRaises(TypeError):
                    call()
        for call in (lambda: unpack(None, ECHO), lambda: pack(table, None), lambda: convert(table, None, ECHO)):
            with self.assertRaises((AttributeError, TypeError)):
                call()

    def check_pieces(self, table, data):
        """Looks whether the pieces are the first bytes, one behind the other, and what unpack() gives is what they tell."""
        found = explain(table, data)
        end = 0
        for piece in found.pieces:
            self.assertEqual((piece.offset, piece.data), (end, data[end : end + len(piece.data)]))
            end += len(piece.data)
        self.assertEqual([piece.element or 0 for piece in found.pieces], sorted(piece.element or 0 for piece in found.pieces))
        try:
            message, used = unpack(table, data)
        except Fault as fault:
            self.assertEqual((found.fault.args, found.used), (fault.args, None))
            # a length may stand between the pieces and the body with the fault
            self.assertIn(fault.offset - end, range(5))
            return
        self.assertEqual((found.fault, found.used, end), (None, used, used))
        self.assertEqual({piece.element: piece.value for piece in found.pieces if (piece.element or 0) > 1}, dict(message))

    def check(self, tables, data):
        """Makes each call, and looks whether what is read is written and read again."""
        for table in tables:
            self.check_pieces(table, data)
            for call in (lambda: view(table, data, 3), lambda: describe(table, data), lambda: convert(table, tables[0], data)):
                try:
                    call()
                except Fault as fault:
                    self.assertTrue(fault.name and fault.number)
            try:
                message, used = unpack(table, data)
            except Fault as fault:
                self.assertTrue(fault.name and fault.number)
                continue
            self.assertLessEqual(used, len(data))
            self.assertEqual(unpack(table, pack(table, message))[0], message)

    def test_random_bytes(self):
        chance = random.Random(8583)
        tables = (Table.ascii87(), Table.bcd87(), Table.from_json((ROOT / "tables" / "chip.json").read_text()))
        for _ in range(1500):
            self.check(tables, chance.randbytes(chance.randrange(200)))

    def test_changed_messages(self):
        chance = random.Random(1987)
        tables = (Table.ascii87(), Table.bcd87())
        for _ in range(1500):
            data = bytearray(chance.choice((ECHO, ECHO_BCD, PAYMENT, SECRETS, CLASSES)))
            for _ in range(chance.randrange(1, 4)):
                data[chance.randrange(len(data))] = chance.choice((0, 0x30, 0x39, 0x46, 0xFF, chance.randrange(256)))
            self.check(tables, bytes(data[: chance.choice((len(data), chance.randrange(len(data))))]))

    def test_each_cut(self):
        tables = (Table.ascii87(), Table.bcd87())
        for data in (ECHO, ECHO_BCD, PAYMENT, SECRETS, CLASSES):
            for end in range(len(data)):
                self.check(tables, data[:end])

    def test_random_documents(self):
        chance = random.Random(2)
        text = (ROOT / "tables" / "terminals.json").read_bytes()
        for _ in range(500):
            document = bytearray(text)
            for _ in range(chance.randrange(1, 3)):
                document[chance.randrange(len(document))] = chance.randrange(256)
            try:
                self.check((Table.from_json(document),), ECHO)
            except Fault as fault:
                self.assertIn(fault.number // 100, (4,))

    def test_short_rooms(self):
        """Each room that is too short gets nothing, and what is wanted is told; behind a room nothing is written."""
        table, library = Table.ascii87(), _library.library
        fault = _library.FaultRoom()
        message, parts = _library.MessageRoom(), (_library.Part * 126)()
        words = (ctypes.byref(message), ctypes.byref(parts))

        def refused(call, wanted, number=4):
            for size in range(wanted):
                room = (ctypes.c_uint8 * (wanted + 1))(*b"?" * (wanted + 1))
                self.assertEqual((call(room, size), fault.number, fault.offset), (-1, number, wanted))
                self.assertEqual(bytes(room), b"?" * (wanted + 1))
            room = (ctypes.c_uint8 * (wanted + 1))(*b"?" * (wanted + 1))
            self.assertGreaterEqual(call(room, wanted), 0)
            self.assertEqual(room[wanted], ord("?"))

        at = ctypes.byref(fault)
        refused(lambda room, size: library.rumpadol_unpack(table._at, ECHO, 55, *words, 126, room, size, at), 19)
        refused(lambda room, size: library.rumpadol_describe(table._at, ECHO, 55, room, size, at), len(ECHO_LINES))
        refused(lambda room, size: library.rumpadol_frame(1, ECHO, 55, room, size, at), 59)
        for places in range(3):
            room = (ctypes.c_uint8 * 100)()
            answer = library.rumpadol_unpack(table._at, ECHO, 55, *words[:1], (_library.Part * 3)(), places, room, 100, at)
            self.assertEqual((answer, fault.number, fault.offset), (-1, 10, 3))

    def test_threads(self):
        """One table in many threads: each reads its own message."""
        table, wrong = Table.ascii87(), []

        def read(number):
            message = Message("0800", {7: "0102030405", 11: f"{number:06}", 70: "301"})
            for _ in range(400):
                data = pack(table, message)
                if unpack(table, data) != (message, 55) or bytes(view(table, data, 11)) != f"{number:06}".encode():
                    wrong.append(number)

        threads = [threading.Thread(target=read, args=(number,)) for number in range(8)]
        for thread in threads:
            thread.start()
        for thread in threads:
            thread.join()
        self.assertEqual(wrong, [])


if __name__ == "__main__":
    unittest.main()
