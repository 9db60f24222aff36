"""How many messages are unpacked and packed in a second of a core: python3 -m rumpadol.bench [SECONDS]"""

from __future__ import annotations

import sys
import time
from collections.abc import Callable

from . import Table, pack, unpack

PAYMENT = b"0200722000010000800016411111111111111100000000000000100001020304050000070512345840"
ROUND = 2000


def a_second(call: Callable[[], object], seconds: float) -> int:
    """How often a call is done in a second of a core: the best of five runs, which share the seconds."""
    best = 0.0
    for _ in range(5):
        done = 0
        taken = 0.0
        begun = time.process_time()
        while taken < seconds / 5:
            for _ in range(ROUND):
                call()
            done += ROUND
            taken = time.process_time() - begun
        best = max(best, done / taken)
    return int(best)


def main() -> None:
    """Prints both figures."""
    seconds = float(sys.argv[1]) if len(sys.argv) > 1 else 5.0
    with Table.ascii87() as table:
        message, used = unpack(table, PAYMENT)
        if used != len(PAYMENT) or pack(table, message) != PAYMENT:
            raise SystemExit("the payment isn't read as it was written")
        print(f"{a_second(lambda: unpack(table, PAYMENT), seconds):,} unpacks a second of a message of {used} bytes")
        print(f"{a_second(lambda: pack(table, message), seconds):,} packs a second")


if __name__ == "__main__":
    main()
