"""What the proofs of a crate cite, for house.py: what stands in another crate's proofs, and lemmas that nothing cites.

A crate may name the definitions of the crates below it, and nothing of their proofs. What the toolchain makes for a type (`TheLaws`)
stands in no contract, so it is no such citation.

A lemma is what has a signature in a file of lemmas, `proofs/**/Name.antt`, of the file's own or of a module in it. It is cited where its
name stands outside of itself: in its file, or in a file of its crate that names its file's module, but not in lines `use` of that file.
Examples of definitions (`Examples.antt`) are cited by nobody.
"""
import re
from collections import Counter

FOREIGN = re.compile(r"\bRattle\.(\w+)\.proofs\.([\w.+-]*)")
COMMENT = {".antt": re.compile(r"(?:^|\s)--.*"), ".rt": re.compile(r"(?:^|\s)//.*")}
# what one file hands on to others by `pub use` is cited
USE = re.compile(r"\s*(?:ghost )?use\s")
NAME = re.compile(r"[^\s(){}\[\],;.:]+")
LEMMA = re.compile(r"( {0,2})(?:(?:abbrev|unfoldable|pub|record|data) )*([^\s(){}:,.=]+)(?: [({].*)? :\s")
# what a function's own folder has, which the check asks for by name
ANSWERS = {"Answers.antt", "Invariants.antt", "Proof.antt", "Lib.antt", "Examples.antt"}


def texts_of(folder):
    """The lines of each file of a crate that can cite a lemma, without comments."""
    paths = [*(folder / "src").rglob("*.rt"), *(folder / "specs").rglob("*.antt"), *(folder / "proofs").rglob("*.antt")]
    return {path: [COMMENT[path.suffix].sub("", line) for line in path.read_text().split("\n")] for path in sorted(paths)}


def foreign_cites(folder):
    """Where a crate cites the proofs of another crate of this repository, and what."""
    ours = {it.name for it in folder.parent.iterdir()} - {folder.name, "std", "core"}
    return [
        (path, number, found[0])
        for path, lines in texts_of(folder).items()
        for number, line in enumerate(lines, 1)
        for found in FOREIGN.finditer(line)
        if found[1] in ours and ".TheLaws." not in found[0]
    ]


def end_of(lines, first, indent, name):
    """The line behind a lemma: its signature, and all that goes on with its name, stands further in, or closes a bracket."""
    end = behind = first + 1
    while behind < len(lines):
        line = lines[behind]
        is_its_own = line.strip().split(" ")[0] == name or len(line) - len(line.lstrip()) > indent or line.lstrip()[:1] in tuple(")]}")
        if line.strip() and not is_its_own:
            break
        behind += 1
        end = behind if line.strip() else end
    return end


def lemmas_of(texts, folder):
    """Each lemma of a crate: its file, its first line, the one behind it, and its name."""
    for path, lines in texts.items():
        if folder / "proofs" not in path.parents or path.name in ANSWERS:
            continue
        for first, line in enumerate(lines):
            found = LEMMA.match(line + " ")
            if found and len(found[1]) % 2 == 0 and found[2] not in ("module", "use", "let", "in"):
                yield path, first, end_of(lines, first, len(found[1]), found[2]), found[2]


def names_in(lines):
    """How often each name stands in lines, those of `use` left out."""
    return Counter(name for line in lines if not USE.match(line) for name in NAME.findall(line))


def readers_of(texts, folder, path):
    """The files that can cite the lemmas of a file: itself, and those that name its module."""
    inside = [*path.relative_to(folder / "proofs").with_suffix("").parts]
    module = re.compile(r"\bproofs(?:\.|::)" + r"(?:\.|::)".join(map(re.escape, inside)) + r"\b")
    return [path, *(it for it, lines in texts.items() if it != path and any(module.search(line) for line in lines))]


def uncited_lemmas(folder):
    """The lemmas of a crate that nothing cites, those that only such lemmas cite among them, and how many lemmas there are."""
    texts = texts_of(folder)
    lemmas = [*lemmas_of(texts, folder)]
    readers = {path: readers_of(texts, folder, path) for path in {it[0] for it in lemmas}}
    dead = []
    while True:
        cited = {path: names_in(lines) for path, lines in texts.items()}
        more = []
        for path, first, end, name in lemmas:
            own = names_in(texts[path][first:end])[name]
            if own and own == sum(cited[it][name] for it in readers[path]):
                more.append((path, first + 1, name))
                texts[path][first:end] = [""] * (end - first)
        if not more:
            return dead, len(lemmas)
        dead += more
