"""ISO 8583 messages by the library of Rumpadol: read, written, viewed, explained, converted and described under tables, and taken from
frames.

Calls may come from any thread; one runs at a time. A fault of the library is raised as Fault. What isn't of the kind that a call
takes is refused by a TypeError or ValueError, before the library sees it.
"""

from __future__ import annotations

import ctypes
import enum
import json
import operator
import os
import struct
import threading
import weakref
from collections.abc import Iterable, Iterator, Mapping, MutableMapping
from typing import Any, NamedTuple, Protocol, Union

from ._library import MOST_PARTS, Address, FaultRoom, MessageRoom, Part, Slot, library

__all__ = [
    "Explanation", "Fault", "Header", "Message", "Piece", "Table",
    "convert", "describe", "explain", "frame", "frames", "pack", "unpack", "view",
]

Data = Union[bytes, bytearray, memoryview]
Value = Union[str, bytes]

_MOST_NUMBER = 0xFFFFFFFF
_SHORT_ROOM = 4
_FIRST_OF_MESSAGES = 101
_BLOCK = 65536

# the elements of class B of both built-in tables
_BINARY_87 = frozenset((52, 55, 64, 96, 128))

# account numbers, tracks, PIN and chip data: the elements of which describe() hides something
_CARD = frozenset((2, 34, 35, 36, 45, 52, 55))

# the faults of a length; their bytes are no card data
_LENGTH_FAULTS = ("BadLengthDigits", "LengthOver")

# how many bytes a line of an explanation shows at most
_WINDOW = 16


class _Stream(Protocol):
    """What bytes are read from: a file that is open in binary mode, or what a socket's makefile gives."""

    def read(self, size: int, /) -> bytes | None:
        """At most so many bytes; none at the end."""


class Fault(Exception):
    """Why the library refused. It names the fault, its number, the element or 0, and the offset or 0; it holds no value."""

    def __init__(self, name: str, number: int, element: int, offset: int) -> None:
        super().__init__(name, number, element, offset)
        self.name = name
        self.number = number
        self.element = element
        self.offset = offset

    def __str__(self) -> str:
        return f"{self.name} ({self.number}) element {self.element} at {self.offset}"


class Header(enum.IntEnum):
    """How a frame counts its body: two bytes, four ASCII digits, four BCD digits."""

    BINARY2 = 0
    ASCII4 = 1
    BCD2 = 2


class _Front(NamedTuple):
    """How a table writes what stands before the elements: how many bytes a type has, and whether bitmaps are hexadecimal digits."""

    type_size: int
    is_hex: bool

    @property
    def map_size(self) -> int:
        """How many bytes a bitmap has."""
        return 16 if self.is_hex else 8

    def bits(self, maps: bytes) -> int:
        """The bits of bitmaps that the library took."""
        return int.from_bytes(bytes.fromhex(maps.decode("ascii")) if self.is_hex else maps, "big")

    def maps(self, bits: int, size: int) -> bytes:
        """The bitmaps, of so many bytes, with these bits."""
        raw = bits.to_bytes(size // 2 if self.is_hex else size, "big")
        return raw.hex().upper().encode() if self.is_hex else raw


# the fronts of the built-in tables, by their numbers
_FRONTS_87 = (_Front(4, True), _Front(2, False))


class _Room:
    """Memory that calls write to, and each call again; it grows where one wants more."""

    __slots__ = ("at", "size", "view", "_bytes")

    def __init__(self, size: int) -> None:
        self._bytes = (ctypes.c_uint8 * size)()
        self.at = Address(ctypes.addressof(self._bytes))
        self.size = size
        self.view = memoryview(self._bytes).cast("B")


_fault = FaultRoom()
_fault_at = Address(ctypes.addressof(_fault))
_message = MessageRoom()
_message_at = Address(ctypes.addressof(_message))
_message_words = struct.Struct("@INN").unpack_from
_parts = (Part * MOST_PARTS)()
_parts_at = Address(ctypes.addressof(_parts))
_body = Part()
_body_at = Address(ctypes.addressof(_body))
_room = _Room(_BLOCK)
_lock = threading.Lock()
_unpack = library.rumpadol_unpack
_pack = library.rumpadol_pack
_names: dict[int, str] = {}

# the parts of so many elements, as numbers one behind the other
_words_of = [struct.Struct("@" + "INN" * count) for count in range(MOST_PARTS + 1)]


def _renew_lock() -> None:
    """A lock that nobody holds, for a process that was forked while another thread held it."""
    global _lock
    _lock = threading.Lock()


os.register_at_fork(after_in_child=_renew_lock)


def _name_of(number: int) -> str:
    """The name of a fault's number. The lock is held."""
    if number not in _names:
        name = (ctypes.c_uint8 * 64)()
        size = library.rumpadol_fault_name(number, ctypes.addressof(name), 64, ctypes.addressof(FaultRoom()))
        _names[number] = bytes(name[: max(size, 0)]).decode("ascii")
    return _names[number]


def _told() -> Fault:
    """The fault of the call that has just answered -1. The lock is held."""
    return Fault(_name_of(_fault.number), _fault.number, _fault.element, _fault.offset)


def _grow_or_raise() -> None:
    """Makes the room as large as the call wants it that has just answered -1, or raises its fault. The lock is held."""
    global _room
    if _fault.number != _SHORT_ROOM or _fault.offset <= _room.size:
        raise _told()
    _room = _Room(_fault.offset)


def _bytes_of(data: Data) -> bytes:
    """The bytes as the library is lent them; what isn't bytes already is copied."""
    return data if isinstance(data, bytes) else bytes(memoryview(data))


def _number_of(element: int) -> int:
    """An element's number that fits what the library takes; the library says whether there is such an element."""
    number = operator.index(element)
    if not 0 <= number <= _MOST_NUMBER:
        raise ValueError(f"{number} is no element")
    return number


def _slot() -> Slot:
    """An empty slot. It isn't copied or moved: Python keeps it where it is."""
    slot = Slot()
    slot.at = ctypes.addressof(slot.memory)
    library.rumpadol_slot_init(slot.at)
    return slot


def _clear(slot: Slot) -> None:
    """Empties a slot, and frees its table."""
    library.rumpadol_slot_clear(ctypes.addressof(slot))


class Table:
    """How the elements of a message are written. Table.ascii87(), Table.bcd87() and Table.from_json() make one.

    Its memory is freed with the object, or before that by close() or at the end of a `with`. A table that is closed is refused by
    the library: EmptySlot. `binary` has the elements of class B: their values are bytes, and those of all others are text.
    """

    __slots__ = ("_at", "_close", "_front", "_made", "_slot", "_twin", "binary", "__weakref__")

    def __init__(self, made: int | bytes) -> None:
        """The table of a built-in one's number or of a document; use the class methods."""
        made = _number_of(made) if isinstance(made, int) else _bytes_of(made)
        self._slot = _slot()
        self._at = Address(ctypes.addressof(self._slot))
        self._close = weakref.finalize(self, _clear, self._slot)
        self._made = made
        self._twin: Table | None = None
        with _lock:
            if isinstance(made, int):
                answer = library.rumpadol_slot_built_in(made, self._at, _fault_at)
            else:
                answer = library.rumpadol_slot_from_json(made, len(made), self._at, _fault_at)
            if answer < 0:
                raise _told()
        if isinstance(made, int):
            self.binary, self._front = _BINARY_87, _FRONTS_87[made]
        else:
            document = json.loads(made)
            self.binary, self._front = _binary_of(document), _front_of(document)

    @classmethod
    def ascii87(cls) -> Table:
        """The built-in table of 1987 in ASCII."""
        return cls(0)

    @classmethod
    def bcd87(cls) -> Table:
        """The built-in table of 1987 in BCD."""
        return cls(1)

    @classmethod
    def from_json(cls, text: str | Data) -> Table:
        """The table of a document, or the first fault of the document."""
        return cls(text.encode() if isinstance(text, str) else _bytes_of(text))

    def close(self) -> None:
        """Frees the table. It may be called again."""
        with _lock:
            self._close()
            twin, self._twin = self._twin, None
        if twin is not None:
            twin.close()

    def _other(self) -> Table:
        """The same table in a slot of its own: no call may have one slot twice."""
        twin = self._twin
        if twin is None:
            twin = self._twin = Table(self._made)
        return twin

    def __enter__(self) -> Table:
        return self

    def __exit__(self, *_: object) -> None:
        self.close()

    def __reduce__(self) -> tuple[type[Table], tuple[int | bytes]]:
        """A copy is made as the table was; a slot can't be copied."""
        return type(self), (self._made,)


def _binary_of(document: dict[str, Any]) -> frozenset[int]:
    """The elements of class B of a document that the library took."""
    return frozenset(row["number"] for row in document["rows"] if row["class"] == "B")


def _front_of(document: dict[str, Any]) -> _Front:
    """The front of a document that the library took."""
    return _Front(4 if document["mti"] == "ascii" else 2, document["bitmap"] == "hex")


class Message(MutableMapping[int, Value]):
    """A message: its type as four digits, and the values of its elements, in ascending order.

    A value that was read is text, or bytes where the table's row is of class B. A value that is set may be either; bytes are
    written as they are. Whether a value fits is said by pack(). The text of a message shows no values, since logs keep it.
    """

    __slots__ = ("_elements", "_mti")

    def __init__(self, mti: str, elements: Mapping[int, Value] | Iterable[tuple[int, Value]] = ()) -> None:
        self._elements: dict[int, Value] = {}
        self.mti = mti
        self.update(elements)

    @property
    def mti(self) -> str:
        """The type: four digits."""
        return self._mti

    @mti.setter
    def mti(self, mti: str) -> None:
        if not isinstance(mti, str):
            raise TypeError("a message's type is a text of four digits")
        if len(mti) != 4 or not (mti.isascii() and mti.isdigit()):
            raise ValueError(f"{mti!r} is no message type: it has four digits")
        self._mti = mti

    def __getitem__(self, element: int) -> Value:
        return self._elements[element]

    def __setitem__(self, element: int, value: Value) -> None:
        number = _number_of(element)
        if isinstance(value, str):
            if not value.isascii():
                raise ValueError(f"the value of element {number} isn't in ASCII")
        elif isinstance(value, (bytes, bytearray, memoryview)):
            value = bytes(value)
        else:
            raise TypeError(f"the value of element {number} is {type(value).__name__}; wanted is str or bytes")
        self._elements[number] = value

    def __delitem__(self, element: int) -> None:
        del self._elements[element]

    def __iter__(self) -> Iterator[int]:
        return iter(sorted(self._elements))

    def __len__(self) -> int:
        return len(self._elements)

    def __contains__(self, element: object) -> bool:
        return element in self._elements

    def __eq__(self, other: object) -> bool:
        if not isinstance(other, Message):
            return NotImplemented
        return self._mti == other._mti and self._elements == other._elements

    __hash__ = None  # type: ignore[assignment]

    def __repr__(self) -> str:
        return f"<Message {self._mti}: {' '.join(map(str, self)) or 'no elements'}>"


def _message_of(mti: int, elements: dict[int, Value]) -> Message:
    """A message that the library has read."""
    message = Message.__new__(Message)
    message._mti = f"{mti:04}"
    message._elements = elements
    return message


def unpack(table: Table, data: Data) -> tuple[Message, int]:
    """The message that the bytes begin with, and how many of them it takes."""
    data = _bytes_of(data)
    with _lock:
        while True:
            room = _room
            used = _unpack(table._at, data, len(data), _message_at, _parts_at, MOST_PARTS, room.at, room.size, _fault_at)
            if used >= 0:
                break
            _grow_or_raise()
        mti, count, size = _message_words(_message)
        words = iter(_words_of[count].unpack_from(_parts))
        text = str(room.view[:size], "latin-1")
    elements: dict[int, Value] = {number: text[start : start + length] for number, start, length in zip(words, words, words)}
    if not table.binary.isdisjoint(elements):
        for number in table.binary & elements.keys():
            elements[number] = str(elements[number]).encode("latin-1")
    return _message_of(mti, elements), used


def _values_of(table: Table, message: Message) -> tuple[list[int], bytes]:
    """The parts and the values of a message, as pack() lends them to the library."""
    words: list[int] = []
    values: list[bytes] = []
    at = 0
    for number, value in message._elements.items():
        if isinstance(value, str):
            if number in table.binary:
                raise TypeError(f"the value of element {number} is text; wanted is bytes, since its row is of class B")
            value = value.encode("ascii")
        words += (number, at, len(value))
        at += len(value)
        values.append(value)
    return words, b"".join(values)


def pack(table: Table, message: Message) -> bytes:
    """The bytes of the message."""
    words, values = _values_of(table, message)
    count = len(words) // 3
    mti = int(message._mti)
    with _lock:
        if count <= MOST_PARTS:
            parts, parts_at = _parts, _parts_at
            _words_of[count].pack_into(parts, 0, *words)
        else:
            parts = (Part * count)()
            parts_at = Address(ctypes.addressof(parts))
            struct.pack_into("@" + "INN" * count, parts, 0, *words)
        while True:
            room = _room
            size = _pack(table._at, mti, parts_at, count, values, len(values), room.at, room.size, _fault_at)
            if size >= 0:
                return bytes(room.view[:size])
            _grow_or_raise()


def _place(table: Table, lent: bytes, number: int) -> tuple[int, int]:
    """Where the body of an element begins in the bytes, and how many it has."""
    with _lock:
        if library.rumpadol_view(table._at, lent, len(lent), number, _body_at, _fault_at) < 0:
            raise _told()
        return _body.start, _body.length


def view(table: Table, data: Data, element: int) -> memoryview:
    """Where the body of an element lies in the bytes: behind its length, and with its padding. It is a part of `data`."""
    number = _number_of(element)
    start, length = _place(table, _bytes_of(data), number)
    whole = memoryview(data)
    if whole.format != "B" or whole.ndim != 1:
        whole = whole.cast("B")
    return whole[start : start + length]


def convert(source: Table, target: Table, data: Data) -> bytes:
    """The message that all the bytes spell under one table, written under another one."""
    data = _bytes_of(data)
    if source is target:
        target = source._other()
    with _lock:
        while True:
            size = library.rumpadol_convert(source._at, target._at, data, len(data), _room.at, _room.size, _fault_at)
            if size >= 0:
                return bytes(_room.view[:size])
            _grow_or_raise()


def describe(table: Table, data: Data) -> list[str]:
    """The lines of the message that the bytes begin with; account numbers, tracks, PIN and chip data are hidden by stars."""
    data = _bytes_of(data)
    with _lock:
        while True:
            size = library.rumpadol_describe(table._at, data, len(data), _room.at, _room.size, _fault_at)
            if size >= 0:
                return str(_room.view[:size], "ascii").split("\n")[:-1]
            _grow_or_raise()


class Piece(NamedTuple):
    """A piece of a message: where it begins, its bytes, its element, and its value.

    The element is None for the message type, whose value has four digits, and for the primary bitmap; it is 1 for the secondary one.
    The value of a bitmap tells its numbers, as "2 3 4". The bytes of an element have its length before them, and its padding. Its
    value is that of unpack(), in clear; the piece's `repr` shows neither.
    """

    offset: int
    data: bytes
    element: int | None
    value: Value

    def __repr__(self) -> str:
        return f"<Piece at {self.offset}: {len(self.data)} bytes{'' if self.element is None else f' of element {self.element}'}>"


class Explanation:
    """The pieces of a message up to the first fault, how many bytes it takes or None, and the fault or None.

    Its `str` has a line for each piece, with its offset, bytes, element and value, and one for the fault. What describe() hides is
    hidden by stars there, in the bytes too.
    """

    __slots__ = ("_lines", "fault", "pieces", "used")

    def __init__(self, pieces: list[Piece], used: int | None, fault: Fault | None, lines: list[str]) -> None:
        self.pieces = pieces
        self.used = used
        self.fault = fault
        self._lines = lines

    def __str__(self) -> str:
        return "\n".join(self._lines)

    def __repr__(self) -> str:
        return f"<Explanation: {len(self.pieces)} pieces, {self.fault or f'{self.used} bytes'}>"


def _line(piece: Piece, clear: int, shown: str) -> str:
    """The line of a piece, of which so many bytes at its front may be shown, and this of its value."""
    texts = [piece.data[:clear].hex().upper(), "**" * (len(piece.data) - clear)]
    digits = "".join(texts)[: 2 * _WINDOW]
    more = f" .. {len(piece.data) - _WINDOW} more" if len(piece.data) > _WINDOW else ""
    element = "" if piece.element is None else piece.element
    return f"{piece.offset:04}  {digits + more:<44} {element:>3}  {shown}".rstrip()


def _fault_line(fault: Fault, data: bytes) -> str:
    """The line of a fault, with the first byte of its piece; that of a body with card data is hidden."""
    if fault.offset >= len(data):
        return f"{fault}: the bytes end there"
    is_hidden = fault.element in _CARD and fault.name not in _LENGTH_FAULTS
    return f"{fault}: the piece there begins with the byte {'**' if is_hidden else f'{data[fault.offset]:02X}'}"


def _map_places(front: _Front, data: bytes, fault: Fault | None) -> list[int]:
    """Where the good bitmaps begin."""
    primary, secondary = front.type_size, front.type_size + front.map_size
    if fault is not None and fault.element < 2:
        return [primary] * fault.element
    is_alone = front.bits(data[primary:secondary]) < 1 << 63
    return [primary] if is_alone else [primary, secondary]


def _before(front: _Front, data: bytes, fault: Fault) -> bytes:
    """A message of the good pieces before a fault: its bitmaps have no bits from the fault's element on."""
    if fault.element < 2:
        return data[: front.type_size] + front.maps(0, front.map_size)
    begun = front.type_size
    end = _map_places(front, data, fault)[-1] + front.map_size
    bits = front.bits(data[begun:end])
    dropped = 64 * (end - begun) // front.map_size - (fault.element - 1)
    return data[:begun] + front.maps(bits >> dropped << dropped, end - begun) + data[end:]


def _numbers_in(bits: int, first: int) -> str:
    """The numbers of a bitmap whose first bit is that of a number."""
    return " ".join(str(first + i) for i in range(64) if bits >> (63 - i) & 1)


def explain(table: Table, data: Data) -> Explanation:
    """The pieces of the message that the bytes begin with, up to the first fault. A fault of the bytes is told, not raised."""
    data = _bytes_of(data)
    front = table._front
    fault: Fault | None = None
    used: int | None = None
    good = data
    try:
        message, used = unpack(table, data)
    except Fault as found:
        if found.number < _FIRST_OF_MESSAGES:
            raise
        fault = found.with_traceback(None)
        if (fault.element, fault.offset) == (0, 0):
            return Explanation([], None, fault, [_fault_line(fault, data)])
        good = _before(front, data, fault)
        message = unpack(table, good)[0]
    described = describe(table, good)

    pieces = [Piece(0, data[: front.type_size], None, message.mti)]
    lines = [_line(pieces[0], front.type_size, described[0][len("MTI=") :])]
    end = front.type_size
    for i, start in enumerate(_map_places(front, data, fault)):
        end = start + front.map_size
        numbers = _numbers_in(front.bits(data[start:end]), 1 + 64 * i)
        pieces.append(Piece(start, data[start:end], 1 if i else None, numbers))
        lines.append(_line(pieces[-1], front.map_size, numbers))
    for (number, value), told in zip(message.items(), described[1:]):
        start, (body, length) = end, _place(table, good, number)
        end = body + length
        pieces.append(Piece(start, data[start:end], number, value))
        lines.append(_line(pieces[-1], body - start if number in _CARD else end - start, told[len("DE002=") :]))
    if fault is not None:
        lines.append(_fault_line(fault, data))
    return Explanation(pieces, used, fault, lines)


def frame(header: Header, body: Data) -> bytes:
    """The frame of a body."""
    number = Header(header).value
    body = _bytes_of(body)
    with _lock:
        while True:
            size = library.rumpadol_frame(number, body, len(body), _room.at, _room.size, _fault_at)
            if size >= 0:
                return bytes(_room.view[:size])
            _grow_or_raise()


def _framed(number: int, pending: bytes) -> tuple[list[bytes], bytes]:
    """The bodies of the whole frames that the bytes begin with, and the bytes behind them."""
    at = ctypes.cast(ctypes.c_char_p(pending), ctypes.c_void_p).value or 0
    bodies = []
    begun = 0
    while begun < len(pending):
        with _lock:
            taken = library.rumpadol_unframe(number, at + begun, len(pending) - begun, _body_at, _fault_at)
            if taken < 0:
                raise _told()
            start, length = _body.start, _body.length
        if taken == 0:
            break
        bodies.append(pending[begun + start : begun + start + length])
        begun += taken
    return bodies, pending[begun:]


def frames(stream: _Stream, header: Header) -> Iterator[bytes]:
    """The bodies of a stream of frames, as they come. EOFError is raised where the stream ends inside a frame."""
    number = Header(header).value
    read = getattr(stream, "read1", stream.read)
    pending = b""
    while True:
        block = read(_BLOCK)
        if block is None:
            raise BlockingIOError("the stream has no bytes now, and doesn't wait")
        if not block:
            break
        bodies, pending = _framed(number, pending + block)
        yield from bodies
    if pending:
        raise EOFError(f"the stream ends inside a frame, {len(pending)} bytes behind the one before")
