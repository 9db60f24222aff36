"""A small client of WebDriver, for Debian's chromium and chromedriver: what a test of the page needs, and no more.

It speaks JSON over HTTP to a chromedriver that it starts on a free port. The browser has no window and a profile of its own, in a
folder that is gone afterwards. Nothing else than chromium and chromedriver is needed.
"""
import base64
import contextlib
import json
import os
import shutil
import socket
import subprocess
import tempfile
import time
import urllib.error
import urllib.request

HERE = "127.0.0.1"
WAIT = 20
ELEMENT = "element-6066-11e4-a52e-4f735466cecf"
KEYS = {"Tab": "\ue004", "Enter": "\ue007", "Space": " ", "Left": "\ue012", "Up": "\ue013", "Right": "\ue014", "Down": "\ue015",
        "Home": "\ue011", "End": "\ue010"}
BROWSERS = ("chromium", "chromium-browser", "google-chrome")


class DriverFault(Exception):
    """The browser or its driver refused something, or didn't come up."""


def is_installed():
    """Whether the browser and its driver are there."""
    return shutil.which("chromedriver") is not None and any(map(shutil.which, BROWSERS))


def free_port():
    """A port on which nobody listens."""
    with socket.create_server((HERE, 0)) as listener:
        return listener.getsockname()[1]


class Element:
    """An element of the page."""

    def __init__(self, browser, name):
        self.browser, self.name = browser, name

    def ask(self, method, path, body=None):
        return self.browser.ask(method, f"/element/{self.name}/{path}", body)

    def click(self):
        self.ask("POST", "click", {})

    def text(self):
        return self.ask("GET", "text")

    def type(self, text):
        """Types text, or hands the path of a file to its chooser."""
        self.ask("POST", "value", {"text": text})


class Browser:
    """A browser without a window. `width` and `height` are those of the page."""

    def __init__(self, width=1280, height=900):
        self.folder = tempfile.mkdtemp(prefix="page-")
        self.driver = self.session = None
        try:
            self.start()
            self.resize(width, height)
        except BaseException:
            self.close()
            raise

    # ---- the driver

    def start(self):
        """Starts the driver, and a browser by it."""
        self.address = f"http://{HERE}:{free_port()}"
        port = self.address.rpartition(":")[2]
        self.driver = subprocess.Popen(["chromedriver", f"--port={port}"], stdout=subprocess.DEVNULL, stderr=subprocess.DEVNULL)
        end = time.monotonic() + WAIT
        while not self.is_ready():
            if time.monotonic() > end or self.driver.poll() is not None:
                raise DriverFault("chromedriver doesn't come up")
            time.sleep(0.05)
        words = ["--headless=new", "--disable-gpu", "--no-first-run", "--disable-lcd-text", f"--user-data-dir={self.folder}",
                 "--disable-background-networking", "--disable-component-update", "--disable-dev-shm-usage"]
        if os.geteuid() == 0:
            words.append("--no-sandbox")
        options = {"args": words, "binary": next(filter(None, map(shutil.which, BROWSERS))),
                   "prefs": {"download.default_directory": self.folder, "download.prompt_for_download": False}}
        wanted = {"browserName": "chrome", "goog:chromeOptions": options, "goog:loggingPrefs": {"browser": "ALL", "performance": "ALL"}}
        self.session = self.send("POST", "/session", {"capabilities": {"alwaysMatch": wanted}})["sessionId"]

    def is_ready(self):
        with contextlib.suppress(OSError):
            return self.send("GET", "/status")["ready"]
        return False

    def send(self, method, path, body=None):
        """One command of the driver, and its value."""
        data = None if body is None else json.dumps(body).encode()
        request = urllib.request.Request(self.address + path, data, {"Content-Type": "application/json"}, method=method)
        try:
            with urllib.request.urlopen(request, timeout=60) as answer:
                return json.load(answer)["value"]
        except urllib.error.HTTPError as fault:
            value = json.load(fault)["value"]
            raise DriverFault(f"{value['error']}: {value['message'].splitlines()[0]}") from None

    def ask(self, method, path, body=None):
        return self.send(method, f"/session/{self.session}{path}", body)

    def close(self):
        """Ends the browser and the driver, and takes the profile away."""
        if self.session:
            with contextlib.suppress(DriverFault, OSError):
                self.ask("DELETE", "")
        if self.driver:
            self.driver.terminate()
            with contextlib.suppress(subprocess.TimeoutExpired):
                self.driver.wait(WAIT)
            self.driver.kill()
        shutil.rmtree(self.folder, ignore_errors=True)

    def __enter__(self):
        return self

    def __exit__(self, *fault):
        self.close()

    # ---- the page

    def open(self, address):
        self.ask("POST", "/url", {"url": address})

    def reload(self):
        self.ask("POST", "/refresh", {})

    def find(self, selector):
        """The first element that a CSS selector names."""
        return Element(self, self.ask("POST", "/element", {"using": "css selector", "value": selector})[ELEMENT])

    def run(self, script, *words):
        """What a script returns in the page. The words are its `arguments`."""
        return self.ask("POST", "/execute/sync", {"script": script, "args": list(words)})

    def until(self, script, *words, wait=WAIT):
        """What a script returns as soon as it isn't false, null or empty."""
        end = time.monotonic() + wait
        while not (found := self.run(script, *words)):
            if time.monotonic() > end:
                raise DriverFault(f"waited {wait} seconds for: {script}")
            time.sleep(0.03)
        return found

    def press(self, *keys):
        """Presses keys, one after the other, on what has the focus."""
        strokes = [{"type": kind, "value": KEYS.get(key, key)} for key in keys for kind in ("keyDown", "keyUp")]
        self.ask("POST", "/actions", {"actions": [{"type": "key", "id": "keys", "actions": strokes}]})

    def hover(self, selector):
        """Moves the mouse over an element."""
        move = {"type": "pointerMove", "duration": 0, "x": 0, "y": 0, "origin": {ELEMENT: self.find(selector).name}}
        self.ask("POST", "/actions", {"actions": [{"type": "pointer", "id": "mouse", "actions": [move]}]})

    # ---- the window

    def command(self, name, **words):
        """A command of the browser's own protocol."""
        return self.ask("POST", "/goog/cdp/execute", {"cmd": name, "params": words})

    def resize(self, width, height):
        self.command("Emulation.setDeviceMetricsOverride", width=width, height=height, deviceScaleFactor=1, mobile=False)

    def scheme(self, name):
        """Emulates the choice of a `light` or a `dark` scheme."""
        self.command("Emulation.setEmulatedMedia", features=[{"name": "prefers-color-scheme", "value": name}])

    def picture(self):
        """What the window shows, as the bytes of a PNG."""
        return base64.b64decode(self.ask("GET", "/screenshot"))

    def log(self, kind):
        """The lines of the log `browser` or `performance` that came since it was asked for last."""
        return self.ask("POST", "/se/log", {"type": kind})
