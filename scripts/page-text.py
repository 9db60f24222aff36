#!/usr/bin/env python3
"""Makes the constants of the page that `rumpadol page` serves from the files of page/, or says whether they are those.

    page-text.py            writes crates/rumpadol_page/src/text.rt and text/*.rt
    page-text.py --check    ends with status 1 where these files aren't what this would write

A line `{{NAME}}` of page.html stands for all lines of the file NAME. The page is served in such parts, one behind the other.
"""

import base64
import hashlib
import pathlib
import re
import sys

ROOT = pathlib.Path(__file__).resolve().parent.parent
PAGE = ROOT / "page" / "page.html"
TEXT = ROOT / "crates" / "rumpadol_page" / "src" / "text.rt"
MOST_BYTES = 100_000
# a line that stands for a file of page/
NAMED = re.compile(r"^\{\{(\w+\.\w+)\}\}\n", re.M)


def hashed(page, element):
    """The source of the one such element, as a content policy names it."""
    found = re.findall(rf"<{element}>(.*?)</{element}>", page, re.DOTALL)
    if len(found) != 1:
        sys.exit(f"page-text.py: the page has {len(found)} elements {element}, and not one")
    sum_of = base64.b64encode(hashlib.sha256(found[0].encode()).digest()).decode()
    return f"'sha256-{sum_of}'"


def policy_of(page):
    """The content policy: nothing from outside, no frame, and only this style and this script."""
    return "; ".join([
        "default-src 'none'",
        f"style-src {hashed(page, 'style')}",
        f"script-src {hashed(page, 'script')}",
        "connect-src 'self'",
        "base-uri 'none'",
        "form-action 'none'",
        "frame-ancestors 'none'",
    ])


def quoted(text):
    """A literal of Rattle."""
    return '"' + text.replace("\\", "\\\\").replace('"', '\\"') + '"'


def made_from(name):
    """The first line of a file that is made."""
    return f"made by scripts/page-text.py from page/{name}."


def check_names(html):
    """Ends where a line looks like one that stands for a file and isn't, or where not each file stands there once."""
    names = NAMED.findall(html)
    parts = [name.split(".")[0] for name in names]
    if "{{" in NAMED.sub("", html):
        sys.exit(f"page-text.py: a line of {PAGE.name} has {{{{ and isn't {{{{NAME}}}} alone")
    if len({*parts}) != len(parts) or {*names} != {it.name for it in PAGE.parent.iterdir()} - {PAGE.name}:
        sys.exit(f"page-text.py: {PAGE.name} doesn't name each other file of page/ once, each by a word of its own")


def text_of(texts, page):
    """The file that joins the parts: each second text is the name of a file."""
    parts = [f"{text.split('.')[0]}::TEXT" if at % 2 else quoted(text) for at, text in enumerate(texts) if text]
    return "\n".join([
        f"//! The page and its content policy: {made_from(PAGE.name)}",
        "",
        *sorted(f"mod {name.split('.')[0]};" for name in texts[1::2]),
        "",
        "/// The content policy of each answer.",
        "pub(crate) const POLICY: &str =",
        f"    {quoted(policy_of(page))};",
        "",
        "/// The page, part by part.",
        "pub(crate) const PAGE: &[&str] = &[",
        *[f"    {part}," for part in parts],
        "];",
        "",
    ])


def part_of(name, text):
    """The file of the constant of one part."""
    return "\n".join([
        f"//! A part of the page: {made_from(name)}",
        "",
        "/// The part.",
        f"pub(crate) const TEXT: &str = {quoted(text)};",
        "",
    ])


def main():
    html = PAGE.read_text()
    check_names(html)
    texts = NAMED.split(html)
    files = {name: PAGE.with_name(name).read_text() for name in texts[1::2]}
    page = "".join(files.get(text, text) for text in texts)
    made = {f"text/{name.split('.')[0]}.rt": part_of(name, text) for name, text in files.items()}
    made["text.rt"] = text_of(texts, page)
    if len(page.encode()) > MOST_BYTES or not page.isascii():
        sys.exit(f"page-text.py: the page is longer than {MOST_BYTES} bytes, or has a character beyond ASCII")
    here = {str(it.relative_to(TEXT.parent)) for it in [TEXT, *TEXT.with_suffix("").glob("*.rt")] if it.exists()}
    if "--check" not in sys.argv[1:]:
        TEXT.with_suffix("").mkdir(exist_ok=True)
        for name, text in made.items():
            (TEXT.parent / name).write_text(text)
        for name in here - made.keys():
            (TEXT.parent / name).unlink()
        return
    stale = sorted(name for name in here | made.keys() if name not in here or (TEXT.parent / name).read_text() != made.get(name))
    if stale:
        sys.exit(f"page-text.py: {TEXT.parent.relative_to(ROOT)}/{stale[0]} isn't made from page/: run scripts/page-text.py")


if __name__ == "__main__":
    main()
