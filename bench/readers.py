#!/usr/bin/env python3
"""How fast rumpadol reads streams of frames, beside tshark on the same frames: readers.py [TURNS]

Needs rumpadol to be built (RUMPADOL names another program than crates/rumpadol/out/rumpadol) and tshark. FRAMES is how many frames
the stream has, 200,000 where it isn't set; the memory is told of a tenth of them, too. The frames are the mix of frames.py. rumpadol
reads them from a file of frames, and tshark from a capture in which each is a packet to a TCP port, behind the header of two bytes
that its dissector wants. Each program writes to a file. The seconds are of the whole process, from its start to its end.
"""
import os
import pathlib
import shutil
import struct
import subprocess
import sys
import tempfile
import time

import frames

TOP = pathlib.Path(__file__).resolve().parent.parent
RUMPADOL = os.environ.get("RUMPADOL", str(TOP / "crates/rumpadol/out/rumpadol"))
FRAMES = int(os.environ.get("FRAMES", "200000"))
KIND = "mix"

# the elements that the frames have
ELEMENTS = (2, 3, 4, 7, 11, 32, 49, 70, 90)

# how tshark reads the packets: no look-up of names, the port's dissector, and the header with its high byte first
TSHARK = ["tshark", "-n", "-d", "tcp.port==8583,iso8583", "-o", "iso8583.len_endian:Big endian"]
FIELDS = [word for name in ("mti", *(f"bit{element}" for element in ELEMENTS)) for word in ("-e", f"iso8583.{name}")]

# each job: the words of rumpadol, and those of tshark that tell as much
JOBS = {
    "lines": (["decode", "ascii87", "--frames", "ascii4", "--clear"], ["-T", "fields", *FIELDS]),
    "json": (["decode", "ascii87", "--frames", "ascii4", "--clear", "--json"], ["-T", "json", "-j", "iso8583"]),
    "explain": (["explain", "ascii87", "--frames", "ascii4", "--clear"], ["-V", "-O", "iso8583"]),
}


def packet(number, at, body):
    """A record of a capture: Ethernet, IP and TCP, with one body behind its header of two bytes."""
    data = struct.pack(">H", len(body)) + body
    internet = struct.pack(">BBHHHBBH4s4s", 0x45, 0, 40 + len(data), number & 0xFFFF, 0, 64, 6, 0, b"\x0a\1\1\1", b"\x0a\2\2\2")
    transport = struct.pack(">HHIIBBHHH", 40000, 8583, at & 0xFFFFFFFF, 0, 0x50, 0x18, 0x2000, 0, 0)
    whole = bytes(12) + b"\x08\0" + internet + transport + data
    return struct.pack("<IIII", number // 1000, number % 1000 * 1000, len(whole), len(whole)) + whole, at + len(data)


def write_streams(folder, count):
    """The frames as a stream, and as a capture."""
    stream, capture = folder / f"stream{count}", folder / f"capture{count}"
    at = 1
    with stream.open("wb") as plain, capture.open("wb") as packets:
        packets.write(struct.pack("<IHHiIII", 0xA1B2C3D4, 2, 4, 0, 0, 262144, 1))
        for number, body in enumerate(frames.bodies(KIND, count)):
            plain.write(b"%04d" % len(body) + body)
            record, at = packet(number, at, body)
            packets.write(record)
    return stream, capture


def peak_of(process):
    """The most memory that a process has had, in kilobytes; 0 once it has ended."""
    try:
        told = pathlib.Path(f"/proc/{process.pid}/status").read_text()
    except OSError:
        return 0
    return next((int(line.split()[1]) for line in told.splitlines() if line.startswith("VmHWM")), 0)


def run(words, output):
    """Runs a program to its end: the seconds, and the most memory that was seen."""
    peak = 0
    begun = time.monotonic()
    with output.open("wb") as target:
        process = subprocess.Popen(words, stdin=subprocess.DEVNULL, stdout=target, stderr=subprocess.PIPE)
        while process.poll() is None:
            peak = max(peak, peak_of(process))
            time.sleep(0.005)
    seconds = time.monotonic() - begun
    told = process.stderr.read().decode()
    if process.returncode != 0:
        sys.exit(f"readers.py: {words[0]} ended with status {process.returncode}:\n{told}")
    return seconds, peak


def has_all(job, output, count):
    """Whether tshark told all frames as messages: each has a type."""
    begin = {"lines": b"0", "json": b'"iso8583.mti"', "explain": b"    MTI: "}[job]
    with output.open("rb") as told:
        return sum(line.lstrip().startswith(begin.strip()) for line in told) == count


def measure(name, words, output, count):
    seconds, peak = run(words, output)
    print(f"{name}: frames={count} seconds={seconds:.3f} frames_per_second={count / seconds:.0f} peak_kilobytes={peak}", flush=True)


def turn(folder, counts):
    """Each job by both programs, over the long stream; and by rumpadol over the short one, for its memory."""
    output = folder / "told"
    few, many = counts
    (short, _), (stream, capture) = (write_streams(folder, count) for count in counts)
    for job, (words, others) in JOBS.items():
        measure(f"{job} by rumpadol", [RUMPADOL, *words, str(stream)], output, many)
        measure(f"{job} by tshark", [*TSHARK, "-r", str(capture), *others], output, many)
        if not has_all(job, output, many):
            sys.exit(f"readers.py: tshark didn't read each frame as a message ({job})")
        measure(f"{job} of few by rumpadol", [RUMPADOL, *words, str(short)], output, few)


def main(turns="1"):
    for program in ("tshark", RUMPADOL):
        if shutil.which(program) is None:
            sys.exit(f"readers.py: there is no program {program}")
    with tempfile.TemporaryDirectory() as folder:
        for _ in range(int(turns)):
            turn(pathlib.Path(folder), (FRAMES // 10, FRAMES))


if __name__ == "__main__":
    main(*sys.argv[1:])
