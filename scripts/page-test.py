#!/usr/bin/env python3
"""The page of `rumpadol page` in a browser, and its server by raw sockets: page-test.py RUMPADOL ISO_CLI [--pictures FOLDER]

RUMPADOL and ISO_CLI are the built programs. The browser is Debian's chromium without a window, driven by chromedriver. It is compared

- what the page shows of messages with the lines of `ISO_CLI show`, under both built-in tables, masked and in clear,
- what it builds with the bytes of the examples, and what it converts with those of `ISO_CLI convert`,
- what its issuer answers on a day of frames with the answers in examples/expected, and what both ends hold with docs/ISSUER.md,
- each view, wide and narrow, light and dark, with rules that make it usable for all: names, contrast, headings, focus, no sideways scroll,
- what the server answers to requests that no page of its own makes.

Nothing may be asked of another address, the browser may tell no error, and the program may write nothing but its first sentence. With
--pictures the pictures of docs/PAGE.md are taken as well. Each failure is a line `FAILED page: what`, the last line is
    page-test: N passed, M failed
"""
import contextlib
import json
import os
import pathlib
import re
import socket
import subprocess
import sys
import tempfile
import time

from page_driver import HERE, Browser, DriverFault, free_port, is_installed

TOP = pathlib.Path(__file__).resolve().parent.parent
EXAMPLES = TOP / "examples"
PAYMENT, ECHO, DAY = ((EXAMPLES / f"{name}.txt").read_bytes() for name in ("payment", "echo", "day"))
ANSWERS = (EXAMPLES / "expected" / "day").read_bytes()
PAN = "4111111111111111"
VIEWS = ("look", "build", "play", "ends")
NAMED_ROLES = {"button", "link", "textbox", "combobox", "checkbox", "switch", "spinbutton", "tab", "option", "listbox", "tabpanel"}
MOST_BYTES, PATIENCE = 100_000, 25

# How many visible texts and fields there are, and those whose colour is too near to what is behind it, with the ratio of both.
CONTRAST = r"""
const light = (part) => (part /= 255) <= 0.04045 ? part / 12.92 : ((part + 0.055) / 1.055) ** 2.4;
const partsOf = (colour) => colour.match(/[\d.]+/g).map(Number);
const luminance = ([red, green, blue]) => 0.2126 * light(red) + 0.7152 * light(green) + 0.0722 * light(blue);
const behind = (node) => {
  for (let at = node; at; at = at.parentElement) {
    const parts = partsOf(getComputedStyle(at).backgroundColor);
    if (parts[3] === undefined || parts[3] === 1) return parts;
  }
  return [255, 255, 255];
};
const found = [];
let count = 0;
const judge = (node, text) => {
  if (!node.checkVisibility() || node.getBoundingClientRect().width <= 1 || node.closest(".sr, .skip")) return;
  const [one, other] = [luminance(partsOf(getComputedStyle(node).color)), luminance(behind(node))].sort((a, b) => b - a);
  const ratio = (one + 0.05) / (other + 0.05);
  count += 1;
  if (ratio < 4.5) found.push(`${text.trim().slice(0, 30)} (${ratio.toFixed(2)})`);
};
const walker = document.createTreeWalker(document.body, NodeFilter.SHOW_TEXT);
while (walker.nextNode()) {
  const { data, parentElement } = walker.currentNode;
  if (data.trim() && !["SCRIPT", "STYLE", "OPTION"].includes(parentElement.tagName)) judge(parentElement, data);
}
for (const field of document.querySelectorAll("input, select, textarea")) judge(field, field.id);
return [count, found];
"""
# The fields and buttons that the Tab key has to come to, in their order.
STOPS = """
return [...document.querySelectorAll("a[href], button, input, select, textarea, [tabindex]")]
  .filter((node) => node.tabIndex >= 0 && !node.disabled && node.checkVisibility()).length;
"""
SETTLED = "return !document.querySelector('[aria-busy=true]')"
ROWS = "return [...document.querySelectorAll(arguments[0] + ' tbody tr')].map((row) => [...row.cells].map((cell) => cell.textContent))"


class Rows:
    """What passed and what failed."""

    def __init__(self):
        self.passed = self.failed = 0

    def check(self, what, is_so, told=""):
        if is_so:
            self.passed += 1
        else:
            self.failed += 1
            print(f"FAILED page: {what}" + (f": {told!r}"[:400] if told != "" else ""), flush=True)

    def same(self, what, found, wanted):
        self.check(what, found == wanted, f"{found!r} isn't {wanted!r}" if found != wanted else "")

    def tried(self, part, *words):
        """A part of the test, which may end by a fault."""
        try:
            part(self, *words)
        except (DriverFault, OSError, LookupError, TypeError, ValueError) as fault:
            self.check(part.__name__, False, f"{type(fault).__name__}: {fault}")


# ---- the programs

class Server:
    """The program that serves the page, and what it writes."""

    def __init__(self, command, folder):
        self.port = free_port()
        self.address = f"http://{HERE}:{self.port}/"
        self.streams = [pathlib.Path(folder, name) for name in ("stdout", "stderr")]
        with self.streams[0].open("wb") as out, self.streams[1].open("wb") as told:
            self.process = subprocess.Popen([command, "page", "--port", str(self.port)], stdin=subprocess.DEVNULL, stdout=out, stderr=told)
        end = time.monotonic() + PATIENCE
        while self.address.encode() not in self.written()[1]:
            if self.process.poll() is not None or time.monotonic() > end:
                self.close()
                raise OSError(f"the page isn't served: {self.written()[1]!r}")
            time.sleep(0.02)

    def written(self):
        return [path.read_bytes() for path in self.streams]

    def close(self):
        self.process.kill()
        self.process.wait()


class Lines:
    """What `iso_cli` says of messages."""

    def __init__(self, command):
        self.command = command

    def run(self, words, text):
        return subprocess.run([self.command, *words], input=text, capture_output=True, check=True, timeout=PATIENCE).stdout

    def shown(self, table, text, *more):
        """The message type, and the value of each element."""
        lines = self.run(["show", table, *more], text).decode().splitlines()
        mti = lines[0][4:8]
        found = [re.fullmatch(r"DE(\d+)=(.*)", line) for line in lines]
        return mti, {int(line[1]): line[2] for line in found if line}

    def converted(self, text, table):
        return text if table == "ascii87" else self.run(["convert", "ascii87", table], text)


def bodies_of(frames):
    """The bodies of frames with a header of four digits."""
    found = []
    while frames:
        end = 4 + int(frames[:4])
        found.append(frames[4:end])
        frames = frames[end:]
    return found


# ---- the page

class Page(Browser):
    """The page in the browser."""

    def settle(self):
        self.until(SETTLED)

    def enter(self, address):
        self.open(address)
        self.until("return document.querySelectorAll('#adding option').length > 0")
        self.settle()

    def set(self, name, value):
        """Sets a field as a hand would do at once."""
        self.run("""
            const field = document.getElementById(arguments[0]);
            field[field.type === "checkbox" ? "checked" : "value"] = arguments[1];
            for (const kind of ["input", "change"]) field.dispatchEvent(new Event(kind, { bubbles: true }));""", name, value)
        self.settle()

    def press_button(self, name):
        self.find(f"#{name}").click()
        self.settle()

    def choose_file(self, name, path):
        """Chooses a file, also one that was chosen before."""
        self.run("document.getElementById(arguments[0]).value = ''", name)
        self.find(f"#{name}").type(str(path))
        time.sleep(0.1)
        self.settle()

    def view(self, name):
        self.find(f"#{name}Tab").click()

    def status(self, view):
        return self.run("return document.getElementById(arguments[0] + 'Status').textContent", view)

    def rows(self, name):
        """The cells of a table."""
        return self.run(ROWS, f"#{name}")

    def items(self, name):
        return self.run("return [...document.querySelectorAll(arguments[0] + ' > li')].map((item) => item.textContent)", f"#{name}")

    def value(self, name):
        return self.run("return document.getElementById(arguments[0]).value", name)

    def hex_of(self, name):
        return self.value(name).replace("\n", "")

    def shown(self):
        """The message that Look shows: its type, and the value of each element."""
        rows = self.run(ROWS.replace("tbody tr", "tbody tr[data-mark]"), "#lookMessage")
        return rows[0][3] if rows else "", {int(row[1]): row[3] for row in rows if row[1]}

    def look_at(self, text, kind="hex", frames="", skip="0"):
        """Has Look read a text, or bytes in hex."""
        self.run("""
            ["frames", "skip", "kind", "input"].forEach((name, at) => { document.getElementById(name).value = arguments[at]; });
            document.getElementById("kind").dispatchEvent(new Event("change"));""",
                 frames, skip, kind, text.hex() if isinstance(text, bytes) else text)
        self.settle()

    def asked(self):
        """The address and the body of each request since this was called last."""
        events = [json.loads(line["message"])["message"] for line in self.log("performance")]
        requests = [event["params"]["request"] for event in events if event["method"] == "Network.requestWillBeSent"]
        return [(request["url"], request.get("postData", "")) for request in requests]


# ---- Look

def look_paste(rows, page, lines):
    """What is pasted is read as what it is."""
    page.view("look")
    page.find("#input").type(PAYMENT.decode())
    page.settle()
    rows.same("a pasted text is guessed to be one", page.value("kind"), "text")
    rows.same("a pasted text is read", page.status("look"), "A good message of 82 bytes in 9 pieces.")
    rows.same("the pieces of a pasted text", page.shown(), lines.shown("ascii87", PAYMENT))
    page.press_button("lookEmpty")
    digits = ECHO.hex()
    page.set("input", " ".join(digits[at:at + 4] for at in range(0, len(digits), 4)))
    rows.same("pasted digits are guessed to be hex", page.value("kind"), "hex")
    rows.same("the pieces of pasted digits", page.shown(), lines.shown("ascii87", ECHO))
    page.press_button("lookEmpty")
    dump = "\n".join(f"{at:08x}: {ECHO[at:at + 16].hex(' ', 2):40} {ECHO[at:at + 16].decode()}" for at in range(0, len(ECHO), 16))
    page.set("input", dump)
    rows.same("a pasted dump is guessed to be hex", page.value("kind"), "hex")
    rows.same("the pieces of a pasted dump", page.shown(), lines.shown("ascii87", ECHO))
    page.run("""
        const data = new DataTransfer();
        data.items.add(new File([arguments[0]], "payment"));
        document.getElementById("input").dispatchEvent(new DragEvent("drop", { dataTransfer: data, bubbles: true, cancelable: true }));""",
             PAYMENT.decode())
    page.until("return document.getElementById('lookStatus').textContent.includes('82 bytes')")
    rows.same("a dropped file is read as its bytes", page.hex_of("input"), PAYMENT.hex().upper())


def look_tables(rows, page, lines):
    """The pieces are the lines of iso_cli under both tables, masked and in clear."""
    messages = [ECHO, PAYMENT, *bodies_of(DAY)[1:7], *bodies_of(ANSWERS)[-2:]]
    for table in ("ascii87", "bcd87"):
        page.set("table", table)
        for clear in ((), ("--clear",)):
            page.set("clear", bool(clear))
            for number, message in enumerate(messages):
                text = lines.converted(message, table)
                page.look_at(text)
                what = f"message {number} under {table} {'in clear' if clear else 'masked'}"
                rows.same(what, page.shown(), lines.shown(table, text, *clear))
    page.set("table", "ascii87")
    page.set("clear", False)


def look_fault(rows, page):
    """The bad byte of a message in which a letter stands among zeros, and what a fault tells."""
    page.look_at(f"{PAYMENT[:42].decode()}O{PAYMENT[43:].decode()}", "text")
    rows.same("the sentence of a fault", page.status("look"), "NotInClass at byte 42: a character isn't in the row's class.")
    rows.same("the marked byte", page.run("return [...document.querySelectorAll('#lookMessage .hex .hit')].map((node) => node.textContent)"), ["4F"])
    place = "return [...document.querySelectorAll('#lookMessage .hex .byte')].findIndex((node) => node.matches('.hit'))"
    rows.same("its place", page.run(place), 42)
    last = page.rows("lookMessage")[-1]
    rows.same("the row of the bad piece", last[:2], ["38", "3"])
    told = page.find("#lookMessage .fault").text()
    rows.check("a fault tells what is wanted", all(words in told for words in ("NotInClass", "42", "digits (n) in ASCII, exactly 6")), told)
    page.look_at(PAYMENT[:30])
    rows.same("the place where the bytes end", page.run(place), 30)
    page.set("table", "bcd87")
    page.look_at(bytes.fromhex("6000100000") + bytes.fromhex("08008220000000000000040000000000000001020304050000010301"))
    page.find("#lookMessage .fault button").click()
    page.settle()
    rows.same("the hint of a TPDU sets how many bytes are skipped", (page.value("skip"), page.shown()[0]), ("5", "0800"))
    page.set("table", "ascii87")
    page.look_at(len(ECHO).to_bytes(2, "big") + ECHO)
    page.find("#lookMessage .fault button").click()
    page.settle()
    rows.same("the hint of a header sets the frames", (page.value("frames"), page.shown()[0]), ("binary2", "0800"))
    page.look_at("08zz", "hex")
    rows.check("text that is no hex is told", len(page.items("lookComplaints")) == 1, page.items("lookComplaints"))


def look_frames(rows, page, lines):
    """A stream is listed, each answer beside its request."""
    page.look_at(DAY.decode() + ANSWERS.decode(), "text", "ascii4")
    found = page.rows("lookMessages")
    rows.same("a row for each request, and one for what is no message", len(found), 8)
    rows.same("a request and its answer", found[0], ["1", "0100", "000010", "", "9 0110, code 00"])
    rows.same("a repeat and its own answer", found[1], ["2", "0101", "000010", "", "10 0110, code 00"])
    rows.same("a declined one", found[5], ["6", "0200", "000011", "", "14 0210, code 21"])
    rows.same("what is no message", found[7][:4], ["8", "", "", "Short"])
    page.find("#lookMessages tbody tr:nth-child(6) td:last-child button").click()
    rows.same("a message that is chosen is shown", page.shown(), lines.shown("ascii87", bodies_of(ANSWERS)[5]))


def look_marks(rows, page):
    """Hovering and focusing mark bytes and rows together."""
    page.look_at(PAYMENT)
    marked = "return [...document.querySelectorAll('#lookMessage .on')].map((node) => node.tagName).sort().join()"
    page.hover("#lookMessage tr[data-mark='3']")
    rows.check("hovering a row marks its bytes", {"SPAN", "TR"} == set(page.run(marked).split(",")), page.run(marked))
    page.hover("#lookMessage .run[data-mark='4']")
    rows.same("hovering bytes marks their row", page.run("return document.querySelector('#lookMessage tr.on').dataset.mark"), "4")
    page.run("document.querySelector('#lookMessage [role=option]').focus()")
    page.press("Right", "Right", "Down", "Left")
    rows.same("the arrow keys go from piece to piece", page.run("return document.activeElement.dataset.mark"), "2")
    rows.same("the focused piece is the selected one", page.run("return document.querySelectorAll('#lookMessage [aria-selected=true]').length"), 1)
    bits = page.run("return [...document.querySelectorAll('#lookMessage .grid .set')].map((node) => node.textContent).join(' ')")
    rows.same("the set bits of the bitmap", bits, "2 3 4 7 11 32 49")


def table_documents(rows, page, folder):
    """A good document becomes the table; of a bad one its complaints are listed beside their rows."""
    document = json.loads((TOP / "tables" / "ascii87.json").read_text())
    document["rows"] = [row for row in document["rows"] if row["number"] in (7, 11, 70)]
    good, bad = folder / "good.json", folder / "bad.json"
    good.write_text(json.dumps(document))
    document["rows"][2]["max"] = 0
    bad.write_text(json.dumps(document))
    page.choose_file("tableFile", bad)
    told = page.items("tableComplaints")
    row = json.dumps(document["rows"][2], separators=(",", ":"))
    rows.check("a complaint stands beside its row", len(told) == 1 and told[0].startswith("row 3 ") and told[0].endswith(row), told)
    rows.same("a bad document is no table", page.value("table"), "ascii87")
    page.choose_file("tableFile", good)
    rows.same("a good document is the table", (page.value("table"), page.items("tableComplaints")), ("document", []))
    page.look_at(ECHO)
    rows.same("a message under a document", page.status("look"), "A good message of 55 bytes in 6 pieces.")
    page.look_at(PAYMENT)
    rows.check("a message that a document doesn't know", page.status("look").startswith("UnknownElement"), page.status("look"))
    page.set("table", "ascii87")


# ---- Build

def build(rows, page, lines):
    """What is built has the bytes of the examples, and what doesn't fit is told."""
    page.view("build")
    page.set("element70", "302")
    for name, button, message in (("an echo test", "buildEcho", ECHO), ("a purchase", "buildPurchase", PAYMENT)):
        page.press_button(button)
        rows.same(f"the bytes of {name}", page.hex_of("built"), message.hex().upper())
        rows.same(f"{name} under bcd87", page.hex_of("converted"), lines.converted(message, "bcd87").hex().upper())
    page.press_button("download")
    end, path = time.monotonic() + PATIENCE, pathlib.Path(page.folder, "0200.bin")
    while not path.exists() and time.monotonic() < end:
        time.sleep(0.05)
    rows.same("the downloaded bytes", path.read_bytes(), PAYMENT)
    page.command("Browser.grantPermissions", permissions=["clipboardReadWrite", "clipboardSanitizedWrite"])
    page.press_button("copyJson")
    page.until("return document.getElementById('buildStatus').textContent.includes('copied')")
    page.set("buildFrames", "ascii4")
    rows.same("the bytes in a frame", page.hex_of("built"), (b"0082" + PAYMENT).hex().upper())
    page.set("buildFrames", "")
    page.set("element3", "00000O")
    wrong = page.run("return document.getElementById('element3Wrong').textContent")
    rows.check("a letter among digits is told at once", "digits are wanted" in wrong and page.hex_of("built") == "", wrong)
    rows.check("and by the server", any("3" in told for told in page.items("buildComplaints")), page.items("buildComplaints"))
    page.set("element3", "000000")
    page.set("adding", "41")
    page.press_button("add")
    page.set("element41", "TERM1")
    rows.check("an added element is in the bytes", page.hex_of("built").endswith(b"TERM1   840".hex().upper()), page.hex_of("built"))
    page.set("other", "ascii87")
    rows.same("the other table may be chosen", page.hex_of("converted"), page.hex_of("built"))
    page.set("other", "bcd87")
    page.look_at(ECHO)
    page.press_button("buildTake")
    rows.same("the message of Look is taken", page.hex_of("built"), ECHO.hex().upper())


# ---- Play

def ledger(page):
    """The ledger and what is available of the first account."""
    cells = page.rows("accounts")[0]
    return int(cells[3].split()[0]), int(cells[4].split()[0])


def send(page, what, amount="1000"):
    page.set("what", what)
    page.set("amount", amount)
    page.press_button("quickSend")


def play(rows, page):
    """An issuer of one account: what is bought, sent again, lost, reversed, held, completed and asked."""
    page.view("play")
    page.press_button("playOver")
    rows.same("the account before the first message", ledger(page), (5000, 5000))
    send(page, "purchase")
    rows.same("a purchase", (page.status("play"), ledger(page)), ("The issuer answers 00 approved, at place 1.", (4000, 4000)))
    rows.check("what a purchase changed is marked", "was 5000" in page.rows("accounts")[0][3] and page.rows("journal")[0][1] == "new", page.rows("journal"))
    page.press_button("again")
    rows.check("its repeat gets the first answer", "first answer" in page.status("play"), page.status("play"))
    rows.same("a repeat posts nothing", (ledger(page), len(page.rows("journal"))), ((4000, 4000), 1))
    page.press_button("loseRequest")
    rows.check("a lost request changes nothing", "nothing happened" in page.status("play") and len(page.rows("deliveries")) == 2, page.status("play"))
    page.set("what", "purchase")
    page.set("amount", "500")
    page.press_button("quickBuild")
    page.press_button("loseAnswer")
    rows.check("a lost answer is told", "was lost" in page.status("play"), page.status("play"))
    rows.same("a lost answer has posted", (ledger(page), page.rows("deliveries")[2][3]), ((3500, 3500), "lost"))
    page.press_button("again")
    rows.check("whoever asks again gets it", "first answer" in page.status("play") and ledger(page) == (3500, 3500), page.status("play"))
    send(page, "reversal")
    rows.same("a reversal takes back the last purchase", (ledger(page), page.rows("journal")[2][11].strip()), ((4000, 4000), "of 2"))
    rows.same("the purchase is linked with it", page.rows("journal")[1][11].strip(), "named by 3")
    page.hover("#entry2")
    rows.same("hovering an entry marks both", page.run("return [...document.querySelectorAll('#journal .on')].map((row) => row.id).join()"), "entry2,entry3")
    send(page, "hold", "700")
    rows.same("a hold", (ledger(page), page.rows("accounts")[0][5]), ((4000, 3300), "1, 700 held"))
    send(page, "completion", "600")
    rows.same("its completion", (ledger(page), page.rows("accounts")[0][5]), ((3400, 3400), "0"))
    send(page, "inquiry")
    rows.same("an inquiry shows what is available", page.rows("journal")[5][10], "3400")
    send(page, "purchase", "9000")
    rows.check("more than there is", "51 not enough money" in page.status("play"), page.status("play"))
    page.press_button("takeBack")
    rows.same("a delivery is taken back", len(page.rows("journal")), 6)
    page.press_button("playOver")
    page.press_button("addAccount")
    page.press("x")
    page.settle()
    rows.check("an account without a number is refused", page.run("return document.getElementById('playStatus').matches('.bad')"), page.status("play"))
    page.run("document.querySelector('#openings tr:last-child button').click()")
    page.settle()


def play_day(rows, page, lines):
    """A day of frames is played step by step, and all at once."""
    page.choose_file("dayFile", EXAMPLES / "day.txt")
    page.press_button("dayNext")
    rows.same("a step of a day", (len(page.rows("deliveries")), page.rows("deliveries")[0][1:]), (1, ["0100", "000010", "00 approved"]))
    page.press_button("dayBack")
    rows.same("a step back", page.rows("deliveries"), [])
    page.press_button("dayAll")
    codes = [row[3][:2] for row in page.rows("deliveries")[:7]]
    rows.same("the codes of a day are those of the example", codes, [lines.shown("ascii87", body)[1][39] for body in bodies_of(ANSWERS)])
    rows.same("a frame that is no message", page.rows("deliveries")[7][3], "unreadable")
    page.press_button("playOver")


# ---- Both ends

def ends(rows, page):
    """An answer that is lost, and one that is reversed."""
    page.view("ends")
    page.press_button("endsExample")
    rows.same("a lost answer: the acquirer", page.rows("traces")[0][:2], ["1", "approved"])
    rows.same("a lost answer: the issuer", page.find("#ledger").text(), "4000")
    rows.same("a lost answer: sent and given", (len(page.rows("sent")), len(page.rows("given")), len(page.rows("steps"))), (2, 2, 5))
    page.press_button("endsUndo")
    rows.same("an event is undone", page.rows("traces")[0][1], "waiting again")
    page.press_button("endsOver")
    rows.same("all begins again", page.rows("steps"), [])
    page.press_button("begin")
    page.find("#sent button").click()
    page.settle()
    rows.same("a delivered order is posted", page.find("#ledger").text(), "4000")
    for _ in range(2):
        page.find("#traces button").click()
        page.settle()
    rows.same("who gives up reverses", (page.rows("traces")[0][1], len(page.rows("sent"))), ("reversing", 3))
    page.find("#sent tr:last-child button").click()
    page.settle()
    page.find("#given tr:last-child button").click()
    page.settle()
    rows.same("and has reversed", (page.rows("traces")[0][1], page.find("#ledger").text()), ("reversed", "5000"))


# ---- card data

def card_data(rows, page, address):
    """Account numbers are masked until that is switched off, and again after each load; nothing is kept."""
    text = "return document.getElementById('lookMessage').textContent + document.getElementById('journal').textContent"
    rows.check("nothing in clear was asked for while masked", not any('"clear":true' in body for _, body in page.asked()))
    page.view("play")
    send(page, "purchase")
    page.look_at(PAYMENT)
    rows.check("an account number is masked", PAN not in page.run(text) and "411111******1111" in page.run(text))
    page.set("clear", True)
    rows.check("an account number is shown where that is asked", PAN in page.run(text))
    rows.check("which the requests ask", any('"clear":true' in body for _, body in page.asked()))
    kept = "return [localStorage.length, sessionStorage.length, document.cookie]"
    rows.same("nothing is kept", page.run(kept), [0, 0, ""])
    page.reload()
    page.enter(address)
    rows.same("a load masks again", page.run("return document.getElementById('clear').checked"), False)
    page.look_at(PAYMENT)
    rows.check("also what is shown", PAN not in page.run(text) and not any('"clear":true' in body for _, body in page.asked()))


# ---- usable for all

def fill_views(page):
    """Something to be seen in each view: a stream with a fault, a built message, a day, and both ends."""
    page.view("look")
    page.look_at(DAY.decode() + ANSWERS.decode(), "text", "ascii4")
    page.find("#lookMessages tbody tr:last-child button").click()
    page.view("build")
    page.press_button("buildPurchase")
    page.set("element4", "10.00")
    page.view("play")
    page.choose_file("dayFile", EXAMPLES / "day.txt")
    page.press_button("dayAll")
    page.view("ends")
    page.press_button("endsExample")


def names_and_order(rows, page, view):
    """Each control has a name, headings are in order, and the Tab key comes to everything."""
    tree = [node for node in page.command("Accessibility.getFullAXTree")["nodes"] if not node["ignored"]]
    nameless = [node["role"]["value"] for node in tree if node["role"]["value"] in NAMED_ROLES and not node.get("name", {}).get("value", "").strip()]
    rows.same(f"{view}: controls without a name", nameless, [])
    levels = page.run("return [...document.querySelectorAll('h1, h2, h3, h4')].filter((node) => node.checkVisibility()).map((node) => Number(node.tagName[1]))")
    rows.check(f"{view}: headings in order", levels.count(1) == 1 and levels[0] == 1 and all(b - a <= 1 for a, b in zip(levels, levels[1:])), levels)
    rows.same(f"{view}: nothing jumps the order of focus", page.run("return document.querySelectorAll('[tabindex]:not([tabindex=\"0\"], [tabindex=\"-1\"])').length"), 0)
    count = page.run(STOPS)
    page.run("""
        window.seen = [];
        document.addEventListener("focusin", window.note = window.note || ((event) => window.seen.push(event.target)));
        document.querySelector(".skip").focus();""")
    page.press(*["Tab"] * (count - 1))
    found = page.run("""
        const follows = (one, other) => one.compareDocumentPosition(other) & Node.DOCUMENT_POSITION_FOLLOWING;
        return [new Set(window.seen).size, window.seen.every((node, at) => at === 0 || follows(window.seen[at - 1], node))];""")
    rows.check(f"{view}: the Tab key comes to everything in order", found == [count, True], (found, count))


def usable(rows, page):
    """The rules, in each view, in both schemes and at both widths."""
    rows.same("the language of the page", page.run("return document.documentElement.lang"), "en")
    rows.check("the page has a title", page.run("return document.title").strip())
    fill_views(page)
    for view in VIEWS:
        page.view(view)
        names_and_order(rows, page, view)
        for scheme in ("light", "dark"):
            page.scheme(scheme)
            for width in (1280, 400):
                page.resize(width, 900)
                count, found = page.run(CONTRAST)
                rows.check(f"{view}, {scheme}, {width} wide: contrast of {count} texts", count > 20 and not found, found)
                wide = page.run("return document.documentElement.scrollWidth")
                rows.check(f"{view}, {scheme}: no sideways scroll at {width}", wide <= width, wide)
        page.scheme("light")
        page.resize(1280, 900)
    page.run("document.querySelector('[role=tab][aria-selected=true]').focus()")
    page.press("Home", "Right")
    rows.same("the arrow keys choose a view", page.run("return document.querySelector('[role=tabpanel]:not([hidden])').id"), "build")
    lives = page.run("return [...document.querySelectorAll('[role=status]')].map((node) => node.id)")
    rows.check("results and faults are told aloud", {f"{view}Status" for view in VIEWS} <= set(lives), lives)


def nothing_else(rows, page, server):
    """Nothing is asked of another address, and the browser tells no error."""
    entries = page.run("return performance.getEntriesByType('resource').map((entry) => entry.name)")
    foreign = [name for name in entries if not name.startswith(server.address)]
    asked = [url for url, _ in page.asked() if not url.startswith((server.address, "blob:" + server.address))]
    rows.same("no other address is asked", (foreign, asked), ([], []))
    rows.same("the browser tells nothing", [line["message"] for line in page.log("browser")], [])


# ---- the server

def heads(*lines, method="POST", path="/api/table", port=0):
    """The head of a request with these lines. A Host is its own unless one is there."""
    own = [] if any(line.startswith("Host:") for line in lines) else [f"Host: {HERE}:{port}"]
    return "\r\n".join([f"{method} {path} HTTP/1.1", *own, *lines, "Connection: close", "", ""]).encode()


def answer_to(port, text, address=HERE):
    """The status, the head and the body of what is answered to bytes."""
    with socket.create_connection((address, port), PATIENCE) as connection:
        connection.sendall(text)
        got = b""
        with contextlib.suppress(ConnectionResetError):
            while not is_whole(got) and (piece := connection.recv(65536)):
                got += piece
    head, _, body = got.partition(b"\r\n\r\n")
    found = re.match(rb"HTTP/1\.1 (\d{3})", head)
    return int(found[1]) if found else 0, head.decode("latin1").lower(), body


def is_whole(answer):
    """Whether these bytes are a whole answer."""
    head, end, body = answer.partition(b"\r\n\r\n")
    length = re.search(rb"\r\ncontent-length: *(\d+)", head.lower())
    return bool(end and length) and len(body) >= int(length[1])


def server_page(rows, server):
    """The page, and the policy under which it stands."""
    status, head, body = answer_to(server.port, heads(method="GET", path="/", port=server.port))
    policy = re.search(r"content-security-policy: (.*)", head)
    policy = policy[1].strip() if policy else ""
    rows.check("the page is served", status == 200 and body.startswith(b"<!DOCTYPE html>"), (status, body[:60]))
    rows.check("the page is plain and short", body.isascii() and len(body) < MOST_BYTES, len(body))
    wanted = ("default-src 'none'", "connect-src 'self'", "base-uri 'none'", "form-action 'none'", "frame-ancestors 'none'", "script-src 'sha256-")
    rows.check("its policy", all(words in policy for words in wanted) and "unsafe" not in policy and "*" not in policy, policy)
    rows.check("nothing of it is kept", "cache-control: no-store" in head, head)
    page = body.decode()
    rows.check("it has nothing from outside", not re.search(r"https?://|\bsrc=|\bstyle=|\son\w+=|@import|url\(", page))
    try:
        socket.create_server(("::1", 0), family=socket.AF_INET6).close()
    except OSError:
        print("NOT TRIED the page on [::1]: this system has no such address", flush=True)
        return
    rows.same("the page on [::1]", answer_to(server.port, heads(f"Host: [::1]:{server.port}", method="GET", path="/"), "::1")[0], 200)


def server_refusals(rows, server):
    """What no page of its own asks."""
    port, own = server.port, f"http://{HERE}:{server.port}"
    typed = "Content-Type: application/json"
    good = b'{"table":"ascii87"}'

    def sized(text):
        return f"Content-Length: {len(text)}"

    cases = [
        ("a call", 200, heads(typed, sized(good), port=port) + good),
        ("a call of its own page", 200, heads(typed, sized(good), f"Origin: {own}", port=port) + good),
        ("a foreign host", 421, heads("Host: example.org", typed, sized(good)) + good),
        ("a foreign host at the port", 421, heads(f"Host: example.org:{port}", method="GET", path="/")),
        ("a foreign origin", 403, heads(typed, sized(good), "Origin: http://example.org", port=port) + good),
        ("the origin null", 403, heads(typed, sized(good), "Origin: null", port=port) + good),
        ("another port of this machine", 403, heads(typed, sized(good), f"Origin: http://{HERE}:1", port=port) + good),
        ("broken JSON", 400, heads(typed, sized(b"{"), port=port) + b"{"),
        ("JSON that is no question", 400, heads(typed, sized(b"[]"), port=port) + b"[]"),
        ("no type", 415, heads(sized(good), port=port) + good),
        ("a type that any page may send", 415, heads("Content-Type: text/plain", sized(good), port=port) + good),
        ("a body over the limit", 413, heads(typed, "Content-Length: 1000001", port=port)),
        ("a call by GET", 405, heads(method="GET", port=port)),
        ("a call asked about by OPTIONS", 405, heads(f"Origin: {own}", "Access-Control-Request-Method: POST", method="OPTIONS", port=port)),
        ("the page by POST", 405, heads(typed, sized(good), path="/", port=port) + good),
        ("an unknown path", 404, heads(method="GET", path="/favicon.ico", port=port)),
        ("an unknown call", 404, heads(typed, sized(good), path="/api/other", port=port) + good),
        ("two hosts", 400, heads(f"Host: {HERE}:{port}", f"Host: {HERE}:{port}", method="GET", path="/")),
    ]
    for what, wanted, text in cases:
        status, head, body = answer_to(port, text)
        rows.check(f"{what} gets {wanted}", status == wanted, (status, body[:100]))
        rows.check(f"{what} opens it to no other page", "access-control" not in head, head)
    status, _, body = answer_to(port, heads("Host: example.org", typed, sized(good)) + good)
    rows.check("a refusal is a sentence", bool(json.loads(body)["error"]), body)


def server_silence(rows, server, silent):
    """A request that stops halfway is ended, and others were served meanwhile."""
    silent.settimeout(PATIENCE)
    with contextlib.suppress(ConnectionResetError):
        while silent.recv(4096):
            pass
    rows.same("after a silent connection others are served", answer_to(server.port, heads(method="GET", path="/", port=server.port))[0], 200)


def server_writes(rows, server):
    """Nothing is written but the first sentence."""
    rows.check("the program still runs", server.process.poll() is None, server.process.poll())
    out, told = server.written()
    rows.check("nothing is written but the first sentence", out == b"" and told.count(b"\n") == 1 and told.endswith(b"\n"), (out, told))


# ---- pictures

def pictures(rows, page, folder):
    """The pictures of docs/PAGE.md."""
    folder.mkdir(parents=True, exist_ok=True)

    def take(name, height):
        page.resize(1280, height)
        page.run("document.activeElement.blur(); scrollTo(0, 0)")
        text = page.picture()
        (folder / f"page-{name}.png").write_bytes(text)
        rows.check(f"the picture page-{name}.png is small", len(text) < 150_000, len(text))

    page.view("look")
    page.look_at(PAYMENT.decode(), "text")
    page.hover("#lookMessage tr[data-mark='4']")
    take("look", 920)
    page.look_at(f"{PAYMENT[:42].decode()}O{PAYMENT[43:].decode()}", "text")
    take("fault", 920)
    page.view("play")
    page.press_button("playOver")
    send(page, "purchase")
    page.press_button("again")
    send(page, "hold", "700")
    page.set("what", "reversal")
    page.set("named", "1")
    page.press_button("quickSend")
    take("play", 920)


# ---- all of it

def drive(rows, server, lines, folder, shots):
    """Everything that needs the browser."""
    with Page() as page:
        page.enter(server.address)
        for part, *words in ((look_paste, lines), (look_fault,), (look_frames, lines), (look_marks,), (table_documents, folder),
                             (build, lines), (play,), (play_day, lines), (ends,), (card_data, server.address), (look_tables, lines),
                             (usable,)):
            rows.tried(part, page, *words)
        if shots:
            rows.tried(pictures, page, shots)
        rows.tried(nothing_else, page, server)


def tested(rows, program, lines, shots):
    """The server from its start to its end."""
    with tempfile.TemporaryDirectory() as name:
        server = Server(program, name)
        try:
            with socket.create_connection((HERE, server.port), PATIENCE) as silent:
                silent.sendall(heads("Content-Type: application/json", "Content-Length: 19", port=server.port) + b'{"table"')
                rows.tried(server_page, server)
                rows.tried(server_refusals, server)
                rows.tried(drive, server, lines, pathlib.Path(name), shots)
                rows.tried(server_silence, server, silent)
            rows.tried(server_writes, server)
        finally:
            server.close()


def main(words):
    shots = None
    if len(words) == 4 and words[2] == "--pictures":
        shots = pathlib.Path(words[3])
        words = words[:2]
    if len(words) != 2 or not all(os.access(word, os.X_OK) for word in words):
        sys.exit("page-test.py: which rumpadol and which iso_cli?")
    if not is_installed():
        sys.exit("page-test.py: chromium and chromedriver are needed; in Debian they are the packages chromium and chromium-driver")
    rows = Rows()
    rows.tried(tested, os.path.abspath(words[0]), Lines(os.path.abspath(words[1])), shots)
    print(f"page-test: {rows.passed} passed, {rows.failed} failed")
    return 1 if rows.failed else 0


if __name__ == "__main__":
    sys.exit(main(sys.argv[1:]))
