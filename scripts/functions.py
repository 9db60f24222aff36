"""The functions of a crate's sources, and copies of one under another name, for the script that tries wrong edits."""
import re
import shutil
from dataclasses import dataclass

FUNCTION = re.compile(r"( *)(?:pub(?:\([^)]*\))? )?(?:const )?(?:unsafe )?(?:extern \"C\" )?fn (\w+)")
BLOCK = re.compile(r"( *)(?:unsafe )?(impl|trait)\b")
CONSTANT = re.compile(r" *(?:pub(?:\([^)]*\))? )?(?:const|static) (\w+)")
# what stands above a function and belongs to it
ABOVE = re.compile(r" *(?://|#\[)")
# the files of a function's proof that can stand under another name too
OWN_FILES = {"Answers.antt", "Invariants.antt"}


@dataclass
class Block:
    """An `impl` or a `trait` of a file: its last line, its type with its trait, if any, and which of the three it is."""

    last: int
    owner: tuple
    is_trait: bool
    is_plain: bool


@dataclass
class Function:
    """A function of a file: its path, the line where its comments begin, its own first line, those of its body, its text without comments."""

    path: str
    file: str
    name: str
    head: int
    first: int
    body: int
    last: int
    text: str
    in_cycle: bool
    is_const: bool
    # whether another one can stand beside it, with the same text and another name
    can_be_copied: bool
    # whether it can stand without its body
    can_be_emptied: bool


def last_line_of(lines, first, indent):
    """The line that ends what begins at a line."""
    return next((at for at in range(first + 1, len(lines)) if lines[at] in (f"{indent}}}", f"{indent}}};")), len(lines) - 1)


def body_of(lines, first, last, indent):
    """The line with the brace that opens a function's body."""
    for at in range(first, last + 1):
        if lines[at] == f"{indent}{{":
            return at
    return next((at for at in range(first, last + 1) if lines[at].endswith("{")), last)


def head_of(lines, first):
    """The first line of the comments and attributes above a function."""
    return next((at + 1 for at in range(first - 1, -1, -1) if not ABOVE.match(lines[at])), 0)


def block_of(lines, at, begins):
    """The `impl` or the `trait` that begins at a line. A function of another trait's `impl`, or of a trait, can't have a copy."""
    header = " ".join(lines[at : at + 3])
    header = re.sub(r"<[^<>]*>", "", re.sub(r"<[^<>]*<[^<>]*>[^<>]*>", "", header))
    found = re.match(r" *(?:unsafe )?(?:impl|trait) *([\w:]+)(?: for &?(?:mut )?([\w:]+))?", header)
    last = last_line_of(lines, at, begins[1])
    if not found:
        return Block(last, None, True, False)
    name, kind, is_trait = found[1].split("::")[-1], found[2], begins[2] == "trait"
    return Block(last, (kind.split("::")[-1], name) if kind else (name, ""), is_trait, not is_trait and not kind)


def path_of(names, module, owner, name):
    """The name by which the check calls a function, where only one fits. A method goes by the module of its type."""
    fits = [it.split("::") for it in names if it.endswith(f"::{name}") and "::fn::" not in it]
    if owner:
        fits = [it for it in fits if len(it) > 2 and (it[-2] == owner[0] if not owner[1] else it[-2].startswith("".join(owner)))]
    here = [it for it in fits if it[: len(module)] == module and len(it) == len(module) + (2 if owner else 1)]
    fits = here or (fits if owner else [])
    return "::".join(fits[0]) if len(fits) == 1 else None


def function_at(lines, at, begins, file, path, block):
    """The function that begins at a line."""
    last, head = last_line_of(lines, at, begins[1]), head_of(lines, at)
    in_cycle = any("#[cycle(" in it for it in lines[head:at])
    is_const = "const fn" in lines[at]
    text = re.sub("//.*", "", "\n".join(lines[at : last + 1]))
    body = body_of(lines, at, last, begins[1])
    is_plain = path is not None and not in_cycle and not is_const
    # where it ends on its first line, what was taken for its last one is another's
    is_whole = body < last and not any(FUNCTION.match(it) for it in lines[at + 1 : last + 1])
    can_be_copied = is_plain and is_whole and (block is None or block.is_plain)
    can_be_emptied = is_plain and is_whole and (block is None or not block.is_trait)
    where = (head, at, body, last)
    return Function(path, file, begins[2], *where, text, in_cycle, is_const, can_be_copied, can_be_emptied)


def functions_of(crate, folder, names):
    """The functions of a crate's sources."""
    found = []
    for file in sorted((folder / "src").rglob("*.rt")):
        lines, within = file.read_text().split("\n"), []
        inside = file.relative_to(folder / "src").with_suffix("").parts
        module = [crate, *(() if inside in (("lib",), ("main",)) else inside)]
        for at, line in enumerate(lines):
            within = [it for it in within if it.last >= at]
            if begins := BLOCK.match(line):
                within.append(block_of(lines, at, begins))
            elif begins := FUNCTION.match(line):
                block = within[-1] if within else None
                path = path_of(names, module, block and block.owner, begins[2])
                found.append(function_at(lines, at, begins, str(file.relative_to(folder)), path, block))
    return found


def other_path(path, number):
    """The path of a function's copy: it stands in the same module, or in the same `impl`."""
    return f"{path}_again{number}"


def has_own_files(function, folder):
    """Whether the proof of a function is its own, in files that can stand under another name."""
    proof = folder.joinpath("proofs", *function.path.split("::")[1:])
    return not proof.is_dir() or all(it.is_file() and it.name in OWN_FILES for it in proof.iterdir())


def copied(lines, function, number, pairs):
    """The text of a function's copy, with the new texts where the old ones stand."""
    text = "\n".join(lines[function.head : function.last + 1])
    for old, new in pairs:
        if old not in text:
            raise ValueError(f"{function.path}: it has no {old!r}")
        text = text.replace(old, new, 1)
    return re.sub(rf"\bfn {function.name}\b", f"fn {function.name}_again{number}", text, count=1)


def without_body(lines, function):
    """What stands in place of a function's body, with the line break before it: what never returns, and needs no proof of its own."""
    indent = re.match(" *", lines[function.last])[0]
    return f"\n{indent}    loop {{}}"


def copy_proof(function, number, folder):
    """Puts a function's proof beside it, under the name of its copy."""
    crate, *inside = function.path.split("::")
    proof = folder.joinpath("proofs", *inside)
    if not proof.is_dir():
        return
    other = proof.with_name(f"{proof.name}_again{number}")
    shutil.copytree(proof, other)
    own = re.compile(rf"\b(Rattle\.{crate}\.(?:proofs|specs\.contracts)\.{re.escape('.'.join(inside))})(?![\w-])")
    for file in other.iterdir():
        file.write_text(own.sub(rf"\1_again{number}", file.read_text()))
