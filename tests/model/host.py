"""A host: a stream of frames in, the frames of the responses out."""
from dataclasses import dataclass

from .frames import BadHeader, CutFrame, first_frame, frame
from .issuer import Issuer
from .order import Order
from .packing import pack
from .reading import read
from .refused import Refused
from .response import Answer, respond
from .table import Table
from .verdict import SILENT, verdict


@dataclass
class Host:
    """A host, what it has written, and its counts."""
    table: Table
    header: str            # binary2, ascii4 or bcd2
    issuer: Issuer
    output: bytes = b""
    frames: int = 0
    answered: int = 0
    silent: int = 0
    unreadable: int = 0

    def serve(self, text):
        """Handles each frame in turn. Where the stream ends badly, what was answered stays written."""
        while text:
            try:
                body, text = first_frame(self.header, text)
            except (BadHeader, CutFrame) as end:
                raise Refused(type(end).__name__) from None
            self.frames += 1
            self.handle(body)

    def handle(self, body):
        """Answers one body. It is readable where the whole of it is one message."""
        try:
            message, used = read(self.table, body)
        except Refused:
            used = None
        if used != len(body):
            self.unreadable += 1
            return
        asked = verdict(message)
        if asked is SILENT:
            self.silent += 1
            return
        answer = self.issuer.handle(asked) if isinstance(asked, Order) else Answer(asked)
        self.answered += 1
        self.output += frame(self.header, pack(self.table, respond(message, answer)))

    def report(self):
        """The line that tells how many frames came, and what came of them."""
        return f"frames={self.frames} answered={self.answered} silent={self.silent} unreadable={self.unreadable}"
