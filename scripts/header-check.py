#!/usr/bin/env python3
"""Compares include/rumpadol.h with what the library for C exports: names, kinds of arguments and answers, fields, and faults.

    header-check.py            tells each difference, and ends with status 1 where there is one
    header-check.py FILE       the same of another header
    header-check.py --names    the names that the header declares, a line each
    header-check.py --exports  the same as a version script for the linker: these names, and no others
"""

import pathlib
import re
import sys

ROOT = pathlib.Path(__file__).resolve().parent.parent
HEADER = ROOT / "include" / "rumpadol.h"
EXPORTS = ROOT / "crates" / "iso_c" / "src"
VERSION = "RUMPADOL_1"

# how C sees what Rattle takes and answers; the memory that calls want is malloc's, so `Global` takes no argument
KINDS = {
    "Global": [],
    "u32": ["uint32_t"],
    "u64": ["uint64_t"],
    "usize": ["size_t"],
    "i64": ["int64_t"],
    "*mut u8": ["void *"],
    "&[u8]": ["const uint8_t *", "size_t"],
    "&mut [u8]": ["uint8_t *", "size_t"],
    "": ["void"],
}


def name_in_c(name):
    """The name that C has for a type of Rattle: RumpadolPart is rumpadol_part."""
    return re.sub(r"(?<!^)([A-Z])", r"_\1", name).lower()


def kinds_of(kind):
    """The kinds in C of one kind of Rattle."""
    if kind in KINDS:
        return KINDS[kind]
    found = re.fullmatch(r"&(mut )?(\[)?(Rumpadol[A-Za-z]+)\]?", kind)
    if not found:
        return [f"nothing that C has ({kind})"]
    const = "" if found[1] else "const "
    return [f"{const}{name_in_c(found[3])} *"] + (["size_t"] if found[2] else [])


def without_comments(text, mark):
    """The text without its comments: of C, or to the end of the line behind a mark."""
    if mark == "//":
        return re.sub(r"//[^\n]*", "", text)
    return re.sub(r"/\*.*?\*/", "", text, flags=re.DOTALL)


def spaced(kind):
    """A kind of C in one spelling: 'const uint8_t *'."""
    return " ".join(kind.replace("*", " * ").split())


def declared_calls(text):
    """The calls that the header declares: of each name what it answers, and what it takes."""
    text = re.sub(r"\\\n", " ", without_comments(text, "/*"))
    text = re.sub(r"^\s*#.*$", "", text, flags=re.MULTILINE)
    text = re.sub(r"static inline[^{]*\{.*?\n\}", "", text, flags=re.DOTALL)
    calls = {}
    for answer, name, words in re.findall(r"^([a-z][\w ]*?\*?)\s*\b(rumpadol_\w+)\(([^)]*)\);", text, re.MULTILINE):
        taken = [] if words.strip() == "void" else [spaced(re.sub(r"\w+$", "", word.strip())) for word in words.split(",")]
        calls[name] = (spaced(answer), taken)
    return calls


def exported_calls(text):
    """The calls that a source exports, as C sees them."""
    text = without_comments(text, "//")
    calls = {}
    pattern = r'#\[unsafe\(no_mangle\)\]\s*pub (?:unsafe )?extern "C" fn (\w+)\(([^)]*)\)(?:\s*->\s*(\w+))?'
    for name, words, answer in re.findall(pattern, text):
        taken = []
        for word in filter(None, (word.strip() for word in words.split(","))):
            taken += kinds_of(word.split(":", 1)[1].strip())
        calls[name] = (kinds_of(answer)[0], taken)
    return calls


def declared_structs(text):
    """The structures of the header: of each name its fields, kind and name."""
    text = without_comments(text, "/*")
    structs = {}
    for body, name in re.findall(r"typedef struct \{(.*?)\}\s*(\w+);", text, re.DOTALL):
        fields = [re.fullmatch(r"(.*?)(\w+(?:\[.*\])?)", field.strip()) for field in body.split(";") if field.strip()]
        structs[name] = [(spaced(field[1]), field[2]) for field in fields]
    return structs


def exported_structs(text):
    """The structures that a source lays out as C does, without what is of the proofs alone."""
    text = without_comments(text, "//")
    structs = {}
    for name, body in re.findall(r"#\[repr\(C\)\]\s*(?:#\[[^\]]*\]\s*)*pub struct (\w+) \{(.*?)\n\}", text, re.DOTALL):
        fields = re.findall(r"^\s*(?:pub(?:\([a-z]+\))? )?(\w+): ([^,{]+),", body, re.MULTILINE)
        structs[name_in_c(name)] = [(kinds_of(kind.strip())[0], field) for field, kind in fields]
    return structs


def declared_faults(text):
    """The numbers of the header's own faults."""
    found = re.search(r"enum \{\s*(RUMPADOL_MEMORY\b.*?)\}", without_comments(text, "/*"), re.DOTALL)
    return {name: int(number) for name, number in re.findall(r"RUMPADOL_(\w+) = (\d+)", found[1] if found else "")}


def exported_faults(text):
    """The numbers of the library's own faults."""
    return {name: int(number) for name, number in re.findall(r"^pub\(crate\) const ([A-Z_]+): u32 = (\d+);", text, re.MULTILINE)}


def compare(what, declared, exported, tell):
    """Tells where both differ."""
    for name in sorted(declared.keys() | exported.keys()):
        if name not in exported:
            tell(f"the header declares {what} {name}, which the library doesn't have")
        elif name not in declared:
            tell(f"the library has {what} {name}, which the header doesn't declare")
        elif declared[name] != exported[name]:
            tell(f"{what} {name} is {declared[name]} in the header and {exported[name]} in the library")


def compare_structs(declared, exported, tell):
    """Tells where structures differ; behind the library's fields of a slot the header may have the slot's memory."""
    known = {name: fields[: len(exported[name])] if name == "rumpadol_slot" else fields for name, fields in declared.items()
             if name in exported}
    compare("the structure", {**declared, **known}, exported, tell)


def main(words):
    """Does what the words say."""
    file = pathlib.Path(words.pop()) if words and not words[-1].startswith("-") else HEADER
    header = file.read_text()
    names = sorted(declared_calls(header))
    if words == ["--names"]:
        print("\n".join(names))
        return 0
    if words == ["--exports"]:
        print(f"{VERSION} {{\n    global:\n" + "".join(f"        {name};\n" for name in names) + "    local:\n        *;\n};")
        return 0
    if words:
        print(__doc__, file=sys.stderr)
        return 2
    source = "\n".join(path.read_text() for path in sorted(EXPORTS.glob("*.rt")))
    differences = []
    compare("the call", declared_calls(header), exported_calls(source), differences.append)
    compare_structs(declared_structs(header), exported_structs(source), differences.append)
    compare("the fault", declared_faults(header), exported_faults(source), differences.append)
    for difference in differences:
        print(f"header-check.py: {difference}")
    if not names:
        print("header-check.py: the header declares no call")
    if not differences and names:
        print(f"header-check.py: {len(names)} calls, {len(exported_structs(source))} structures and "
              f"{len(declared_faults(header))} faults are in the header as in the library")
    return 1 if differences or not names else 0


if __name__ == "__main__":
    sys.exit(main(sys.argv[1:]))
