"""The documents of a program's rows, in the folder rows of its crate, and the bytes that their texts stand for.

A text is a string, in which each character is one byte, from U+0000 to U+00FF; or "@NAME", a text of that name; or an object,
which is its JSON without blanks; or [TEXT, TIMES]; or a list of texts, end to end. The files and the texts of shared.json are
those of all documents.
"""
import json
import pathlib

TOP = pathlib.Path(__file__).resolve().parent.parent
CRATE = TOP / "crates" / "iso_cli"
DOCUMENTS = CRATE / "rows"


def encoded(text):
    return text.encode("latin-1")


def text_of(value, texts):
    """The bytes of a text."""
    if isinstance(value, dict):
        return json.dumps(value, separators=(",", ":")).encode()
    if isinstance(value, str):
        return text_of(texts[value[1:]], texts) if value.startswith("@") else encoded(value)
    if len(value) == 2 and isinstance(value[1], int):
        return text_of(value[0], texts) * value[1]
    return b"".join(text_of(part, texts) for part in value)


def read(path):
    """A document, with the files and the texts that all of them share."""
    shared = json.loads((path.parent / "shared.json").read_text())
    document = json.loads(path.read_text())
    return {**document, **{name: {**shared[name], **document.get(name, {})} for name in ("files", "texts")}}
