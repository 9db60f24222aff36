"""The shared library: where it is, and how its calls are declared. The header rumpadol.h says what each of them does."""

from __future__ import annotations

import ctypes
import ctypes.util
import os
import shutil
import sys
from collections.abc import Iterator
from pathlib import Path

NAME = "librumpadol.so.1"
SLOT_BYTES = 64
MOST_PARTS = 126

Size = ctypes.c_size_t
Number = ctypes.c_uint32
Address = ctypes.c_void_p


class FaultRoom(ctypes.Structure):
    """A rumpadol_fault."""

    _fields_ = [("number", Number), ("element", Number), ("offset", Size)]


class Slot(ctypes.Structure):
    """A rumpadol_slot."""

    _fields_ = [("at", Address), ("memory", ctypes.c_uint64 * (SLOT_BYTES // 8))]


class Part(ctypes.Structure):
    """A rumpadol_part."""

    _fields_ = [("element", Number), ("start", Size), ("length", Size)]


class MessageRoom(ctypes.Structure):
    """A rumpadol_message."""

    _fields_ = [("mti", Number), ("parts", Size), ("values", Size)]


# the calls that answer a length or a fault, and what they take
CALLS = {
    "fault_name": (Number, Address, Size, Address),
    "slot_built_in": (Number, Address, Address),
    "slot_from_json": (Address, Size, Address, Address),
    "unpack": (Address, Address, Size, Address, Address, Size, Address, Size, Address),
    "pack": (Address, Number, Address, Size, Address, Size, Address, Size, Address),
    "view": (Address, Address, Size, Number, Address, Address),
    "convert": (Address, Address, Address, Size, Address, Size, Address),
    "describe": (Address, Address, Size, Address, Size, Address),
    "frame": (Number, Address, Size, Address, Size, Address),
    "unframe": (Number, Address, Size, Address, Address),
}


def _beside() -> Iterator[Path]:
    """Where a library lies whose prefix this package, this Python or the command is in."""
    machine = getattr(sys.implementation, "_multiarch", "")
    folders = [parent for parent in Path(__file__).resolve().parents if parent.name == "lib"]
    folders.append(Path(sys.prefix, "lib"))
    command = shutil.which("rumpadol")
    if command is not None:
        folders.append(Path(command).resolve().parent.parent / "lib")
    for folder in folders:
        yield folder / NAME
        yield folder / machine / NAME


def _found() -> str:
    """The path or name of the library: RUMPADOL_LIBRARY, then beside an installed prefix, then where the system looks."""
    named = os.environ.get("RUMPADOL_LIBRARY")
    if named:
        return named
    for path in _beside():
        if path.is_file():
            return str(path)
    return ctypes.util.find_library("rumpadol") or NAME


def _declare(library: ctypes.PyDLL) -> None:
    """Says what each call takes and answers."""
    for name, taken in CALLS.items():
        call = getattr(library, "rumpadol_" + name)
        call.restype, call.argtypes = ctypes.c_int64, taken
    library.rumpadol_slot_size.restype, library.rumpadol_slot_size.argtypes = Size, ()
    library.rumpadol_slot_init.restype, library.rumpadol_slot_init.argtypes = None, (Address,)
    library.rumpadol_slot_clear.restype, library.rumpadol_slot_clear.argtypes = None, (Address,)


def _loaded() -> ctypes.PyDLL:
    """The library, with its calls declared. They are short, so a thread keeps the interpreter while one runs."""
    found = _found()
    try:
        library = ctypes.PyDLL(found)
    except OSError as error:
        raise ImportError(f"rumpadol: {found} can't be loaded: install the library, or set RUMPADOL_LIBRARY to its path") from error
    try:
        _declare(library)
    except AttributeError as error:
        raise ImportError(f"rumpadol: {found} isn't the library: {error}") from error
    if library.rumpadol_slot_size() > SLOT_BYTES:
        raise ImportError(f"rumpadol: {found} isn't the library that this package was made for: its tables are too large")
    return library


library = _loaded()
