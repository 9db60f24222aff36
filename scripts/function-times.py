#!/usr/bin/env python3
"""How long the check of each function takes: rt check --jobs 1; scripts/function-times.py FOLDER [COUNT]

FOLDER is what a check keeps for the next one: the out/ of a crate, which was empty before it. The check writes a file there for each
module that it made or read, as soon as it has checked it. So the seconds since the file before are that module's own, and those of a
function are the sum over its modules. The first lines are the COUNT functions that took longest, 20 where no count is given, all others,
and what belongs to no function. The last ones tell what each kind of module took.
"""
import re
import sys
from collections import Counter
from pathlib import Path

# the modules that the toolchain makes of one function, by the first part of their names
KINDS = {
    "Lts": "states",
    "Tie": "ties of the states",
    "Carried": "ties of the states",
    "Proof": "proofs",
    "Answers": "proofs",
    "Invariants": "proofs",
    "Goals": "proofs",
    "Layout": "layouts and reads",
    "Kinds": "layouts and reads",
    "Named": "layouts and reads",
    "Reads": "layouts and reads",
    "Code": "code",
    "Symbol": "code",
    "Key": "contracts",
    "Statement": "contracts",
    "Met": "contracts",
    "TheLink": "links",
    "Pair": "links",
    "Paired": "links",
}
MODULE = re.compile(r"Rattle-(\w+)-(proofs|specs\.contracts)\.(.+)")


def kind_of(part):
    return KINDS.get(part.split("-")[0])


def function_and_kind(module):
    """The function whose module that is, and the module's kind. What belongs to no function has no name."""
    found = MODULE.fullmatch(module)
    if not found:
        return None, "definitions and lemmas"
    path = [it for it in found[3].split(".") if it != "decls"]
    made = next((at for at, it in enumerate(path) if kind_of(it)), len(path))
    if found[2] == "proofs" and made == len(path):
        return None, "definitions and lemmas"
    return "::".join([found[1], *path[:made]]), kind_of(path[made]) if made < len(path) else "contracts"


def main(folder, count=20):
    files = sorted((it.stat().st_mtime, it.name.removesuffix(".oantt")) for it in Path(folder).rglob("*.oantt"))
    if not files:
        sys.exit(f"function-times.py: {folder} holds no checked module: check a crate whose out/ is empty")
    functions, kinds, before = Counter(), Counter(), files[0][0]
    for at, module in files[1:]:
        function, kind = function_and_kind(module)
        functions[function] += at - before
        kinds[kind] += at - before
        before = at
    others = functions.pop(None, 0.0)
    for name, seconds in functions.most_common(count):
        print(f"{seconds:7.1f} {name}")
    rest = sorted(functions.values(), reverse=True)[count:]
    print(f"{sum(rest):7.1f} {len(rest)} other functions")
    print(f"{others:7.1f} no function")
    whole = sum(kinds.values()) or 1
    for kind, seconds in kinds.most_common():
        print(f"{seconds:7.1f} {100 * seconds / whole:3.0f} % {kind}")


if __name__ == "__main__":
    if not 2 <= len(sys.argv) <= 3 or sys.argv[1].startswith("-"):
        sys.exit(__doc__)
    main(sys.argv[1], *map(int, sys.argv[2:]))
