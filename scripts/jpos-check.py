#!/usr/bin/env python3
"""Checks what docs/JAVA.md is about: jpos-check.py RUMPADOL

Makes tables of the packagers of tests/jpos, has rumpadol judge them, and reads and writes under each a message whose bytes were
worked out by hand by the rules of jPOS; looks at what is told of fields that become no row, and of files that are no packagers; and
compiles and runs java/RumpadolFilter.java on the frames of examples/day.txt. Prints each step that failed, and as its last line
how many passed and failed. Without a Java compiler the last part is left out, and a line says so.
"""
import json
import pathlib
import shutil
import subprocess
import sys
import tempfile

TOP = pathlib.Path(__file__).resolve().parent.parent
SAMPLES = TOP / "tests/jpos"

VALUES = {"3": "000000", "4": "000000001000", "35": "4111111111111111=2512", "36": "12=34", "41": "TERM1", "44": "Hello",
          "48": "data", "52": "0123456789ABCDEF", "53": "010203", "55": "9F02"}

TEXT_VALUES = {"2": "4111111111111111", **VALUES, "11": "000007", "28": "D00000150", "62": "LONG", "100": "12345"}
# 1 2 3 4 11 28 35 36 41 44 48 52 53 55 62 in the first bitmap, 100 in the second one
TEXT_FRONT = (b"0200" b"F020001030911A04" b"0000000010000000" b"164111111111111111" b"000000" b"000000001000" b"000007" b"D00000150"
              b"214111111111111111=2512" b"00512=34" b"TERM1   " b"05Hello" b"004data" b"0123456789ABCDEF")
TEXT_END = b"0004LONG" b"0512345"

PACKED_VALUES = {"2": "378282246310005", **VALUES, "22": "051"}
# 2 3 4 22 35 36 41 44 48 52 53 55; digits of an odd count have a nibble 0 in front, and = is the nibble D
PACKED = (bytes.fromhex("0200 7000040030911A00 15 0378282246310005 000000 000000001000 0051 21 04111111111111111D2512 0005 012D34")
          + b"TERM1   " b"\5Hello" b"\0\4data" + bytes.fromhex("0123456789ABCDEF 03 010203 0002 9F02"))

# a packager, the words for it, its message, and what that says
MESSAGES = (
    ("text.xml", ["--bytes", "hex"], TEXT_FRONT + b"03010203" + b"0029F02" + TEXT_END, TEXT_VALUES),
    ("text.xml", ["--bytes", "raw"], TEXT_FRONT + b"03\x01\x02\x03" + b"002\x9f\x02" + TEXT_END, TEXT_VALUES),
    ("packed.xml", [], PACKED, PACKED_VALUES),
)

# words and a file's text, the status, and the beginning of what is told
REFUSED = (
    ([], None, 3, "FILE: No such file"),
    (["--version", "7"], "<isopackager/>", 2, "write jpos-table.py"),
    (["--bytes", "ebcdic"], "<isopackager/>", 2, "write jpos-table.py"),
    ([], "", 1, "FILE: it is no XML"),
    ([], "<isopackager>", 1, "FILE: it is no XML"),
    ([], "<packager/>", 1, "FILE: it is no isopackager"),
    ([], "<isopackager/>" + " " * (1 << 20), 1, "FILE: it has more than 1,048,576 bytes"),
    ([], '<?xml version="1.0" encoding="nowhere"?><isopackager/>', 1, "FILE: it is no XML"),
    ([], '<!DOCTYPE isopackager [<!ENTITY a "b">]><isopackager/>', 1, "FILE: its DOCTYPE declares something, and isn't read"),
    ([], '<!DOCTYPE isopackager SYSTEM "x.dtd"><isopackager a="&b;"/>', 1, "FILE: it has entities, which aren't read"),
    ([], '<!DOCTYPE isopackager SYSTEM "x.dtd"><isopackager>&b;</isopackager>', 1, "FILE: it has entities, which aren't read"),
)

# the types and trace numbers of the day, and what is told of its last frame
DAY = [("0100", "000010"), ("0101", "000010"), ("0200", "000007"), ("0420", "000008"), ("0420", "000012"), ("0200", "000011"),
       ("0200", "000009")]
# a frame of more than 255 bytes: element 48 with 300 characters
LONG = b"0323" b"0200" b"0000000000010000" b"300" + b"x" * 300
DAY_END = ['{"frame":8,"fault":"Short","element":0,"offset":0}', "7 messages written again"]

results = {True: 0, False: 0}


def step(name, is_so, told=""):
    """Counts a step, and tells one that failed."""
    results[bool(is_so)] += 1
    if not is_so:
        print(f"FAILED jpos-check: {name}: {told}")


def run(*words, data=b""):
    """A run of a program: its status, what it writes and what it tells."""
    words = [str(word) for word in words]
    try:
        done = subprocess.run(words, input=data, stdout=subprocess.PIPE, stderr=subprocess.PIPE, timeout=60)
    except subprocess.TimeoutExpired:
        return None, b"", "it didn't come to its end"
    return done.returncode, done.stdout, done.stderr.decode()


def table_of(*words):
    """A run of jpos-table.py."""
    return run(sys.executable, TOP / "scripts/jpos-table.py", *words)


def messages(rumpadol, folder):
    """Each packager's message is read under the table that is made of it, and written again."""
    for file, words, message, values in MESSAGES:
        name = " ".join([file, *words])
        status, document, told = table_of(*words, SAMPLES / file)
        step(f"{name}: all fields", status == 0 and not told, told)
        path = folder / "table.json"
        path.write_bytes(document)
        status, said, told = run(rumpadol, "table", "check", path)
        step(f"{name}: a good table", status == 0, told)
        status, said, told = run(rumpadol, "decode", path, "--json", "--clear", data=message)
        wanted = {"mti": "0200", "elements": dict(sorted(values.items(), key=lambda item: int(item[0])))}
        step(f"{name}: read", status == 0 and json.loads(said) == wanted, said.decode() + told)
        status, again, told = run(rumpadol, "encode", path, data=json.dumps(wanted).encode())
        step(f"{name}: written", (status, again) == (0, message), again.hex() + told)


def fields(rumpadol, folder):
    """Fields that become no row are told, and the others become rows."""
    status, document, told = table_of(SAMPLES / "mixed.xml")
    lines = (SAMPLES / "mixed.told").read_text().splitlines()
    wanted = "".join(f"jpos-table.py: {SAMPLES / 'mixed.xml'}: {line}\n" for line in lines)
    step("mixed.xml: what becomes no row", (status, told) == (1, wanted), told)
    table = json.loads(document)
    kinds = (table["mti"], table["bitmap"], [row["number"] for row in table["rows"]])
    step("mixed.xml: what becomes rows", kinds == ("bcd", "raw", [3, 41]), kinds)
    path = folder / "table.json"
    path.write_bytes(document)
    step("mixed.xml: a good table", run(rumpadol, "table", "check", path)[0] == 0)
    status, document, told = table_of(SAMPLES / "text.xml")
    numbers = [row["number"] for row in json.loads(document)["rows"]]
    step("text.xml: --bytes is wanted", status == 1 and told.count("say by --bytes") == 2 and not {53, 55} & set(numbers), told)
    status, document, _ = table_of("--version", "1", SAMPLES / "packed.xml")
    step("packed.xml: a version", status == 0 and json.loads(document)["version"] == 1)


def refused(folder):
    """What is no packager gives no table."""
    path = folder / "packager.xml"
    for words, text, status, begin in REFUSED:
        path.unlink(missing_ok=True)
        if text is not None:
            path.write_text(text)
        got, document, told = table_of(*words, path)
        begin = "jpos-table.py: " + begin.replace("FILE", str(path))
        step(f"{words} {(text or 'no file')[:60]}", (got, document) == (status, b"") and told.startswith(begin), told)
    got, document, told = table_of(SAMPLES / "entities.xml")
    step("entities.xml", (got, document) == (1, b"") and told.count("\n") == 1, told)


def filter_in_java(rumpadol, folder):
    """The frames of the day go through the filter."""
    if not shutil.which("javac") or not shutil.which("java"):
        print("LEFT OUT the filter of java/: there is no program javac or java")
        return
    classes = folder / "classes"
    source = TOP / "java/RumpadolFilter.java"
    status, _, told = run("javac", "-Xlint:all", "-Werror", "--release", "17", "-d", classes, source)
    step("RumpadolFilter.java compiles", status == 0, told)
    java = ["java", "-cp", classes, "RumpadolFilter", rumpadol]
    status, said, told = run(*java, "ascii87", TOP / "examples/day.txt")
    lines = said.decode().splitlines()
    step("RumpadolFilter: the end of the day", status == 0 and lines[-2:] == DAY_END, told)
    read = [json.loads(line) for line in lines[:-2]]
    step("RumpadolFilter: the day", [(one["mti"], one["elements"]["11"]) for one in read] == DAY, lines)
    path = folder / "long.frames"
    path.write_bytes(LONG)
    status, said, told = run(*java, "ascii87", path)
    wanted = ['{"mti":"0200","elements":{"48":"' + "x" * 300 + '"}}', "1 messages written again"]
    step("RumpadolFilter: a long message", status == 0 and said.decode().splitlines() == wanted, said.decode() + told)
    status, _, told = run(*java, folder / "nowhere.json", TOP / "examples/day.txt")
    step("RumpadolFilter: no table", status == 1 and "is " + str(folder / "nowhere.json") + " a table?" in told, told)


def main(rumpadol):
    rumpadol = shutil.which(rumpadol) or sys.exit(f"jpos-check.py: there is no program {rumpadol}")
    with tempfile.TemporaryDirectory() as name:
        folder = pathlib.Path(name)
        messages(rumpadol, folder)
        fields(rumpadol, folder)
        refused(folder)
        filter_in_java(rumpadol, folder)
    print(f"jpos-check: {results[True]} passed, {results[False]} failed")
    sys.exit(results[False] > 0)


if __name__ == "__main__":
    main(*sys.argv[1:])
