"""rumpadol on a stream of frames, each of which is a message of its table: what it writes for its words and an input."""
from .command import End, table_of
from .frames import first_frame, frame
from .json_line import json_line, message_of
from .packing import pack
from .reading import read
from .refused import Refused


def act(words, files, text):
    """What comes of `decode` with `--json`, of `encode` and of `convert`. The header of frames is the last word."""
    job, name, header = words[0], words[1], words[-1]
    table = table_of(name, files)
    if job == "encode":
        return End(0, b"".join(frame(header, pack(table, message_of(table, line))) for line in text.splitlines()))
    messages = [message_in(table, body) for body in bodies(header, text)]
    if job == "decode":
        return End(0, b"".join(json_line(table, message, "--clear" in words) for message in messages))
    target = table_of(words[2], files)
    return End(0, b"".join(frame(header, pack(target, message)) for message in messages))


def bodies(header, text):
    """The bodies of the frames that the bytes are."""
    while text:
        body, text = first_frame(header, text)
        yield body


def message_in(table, body):
    """The message that a body is, and no byte more."""
    message, used = read(table, body)
    if used < len(body):
        raise Refused("TrailingBytes")
    return message
