#!/usr/bin/env python3
"""Calls the library by ctypes: convert.py LIBRARY. Converts an echo test, reads its elements, and tells a fault."""
import ctypes as c
import sys

lib = c.CDLL(sys.argv[1])


class Fault(c.Structure):
    _fields_ = [("number", c.c_uint32), ("element", c.c_uint32), ("offset", c.c_size_t)]


class Slot(c.Structure):
    _fields_ = [("at", c.c_void_p), ("memory", c.c_uint64 * 8)]


class Part(c.Structure):
    _fields_ = [("element", c.c_uint32), ("start", c.c_size_t), ("length", c.c_size_t)]


class Message(c.Structure):
    _fields_ = [("mti", c.c_uint32), ("parts", c.c_size_t), ("values", c.c_size_t)]


SLOT, FAULT = c.POINTER(Slot), c.POINTER(Fault)
BYTES, SIZE = c.c_char_p, c.c_size_t


def declare(name, *words):
    call = getattr(lib, "rumpadol_" + name)
    call.restype, call.argtypes = c.c_int64, words
    return call


built_in = declare("slot_built_in", c.c_uint32, SLOT, FAULT)
convert = declare("convert", SLOT, SLOT, BYTES, SIZE, BYTES, SIZE, FAULT)
unpack = declare("unpack", SLOT, BYTES, SIZE, c.POINTER(Message), c.POINTER(Part), SIZE, BYTES, SIZE, FAULT)
fault_name = declare("fault_name", c.c_uint32, BYTES, SIZE, FAULT)
lib.rumpadol_slot_init.restype, lib.rumpadol_slot_init.argtypes = None, [c.c_void_p]
lib.rumpadol_slot_clear.restype, lib.rumpadol_slot_clear.argtypes = None, [SLOT]
lib.rumpadol_slot_size.restype, lib.rumpadol_slot_size.argtypes = SIZE, []

fault = Fault()
out = c.create_string_buffer(2048)


def opened(name):
    """A slot with a built-in table. Python must not copy it, so it is lent by reference alone."""
    slot = Slot()
    slot.at = c.addressof(slot.memory)
    lib.rumpadol_slot_init(slot.at)
    if built_in(name, c.byref(slot), c.byref(fault)) < 0:
        raise SystemExit(told())
    return slot


def told():
    """The fault as a line."""
    n = fault_name(fault.number, out, len(out), c.byref(Fault()))
    return f"{out.raw[:n].decode()} ({fault.number}) element {fault.element} at {fault.offset}"


assert lib.rumpadol_slot_size() <= c.sizeof(Slot().memory)
ascii87, bcd87 = opened(0), opened(1)
echo = b"0800822000000000000004000000000000000102030405000001301"

n = convert(c.byref(ascii87), c.byref(bcd87), echo, len(echo), out, len(out), c.byref(fault))
print(n, out.raw[:n].hex())

message, parts, values = Message(), (Part * 126)(), c.create_string_buffer(2048)
n = unpack(c.byref(ascii87), echo, len(echo), c.byref(message), parts, len(parts), values, len(values), c.byref(fault))
print(n, f"{message.mti:04}")
for part in parts[: message.parts]:
    print(part.element, values.raw[part.start : part.start + part.length].decode())

n = convert(c.byref(ascii87), c.byref(bcd87), echo, len(echo) - 1, out, len(out), c.byref(fault))
print(n, told())

for slot in (ascii87, bcd87):
    lib.rumpadol_slot_clear(c.byref(slot))
