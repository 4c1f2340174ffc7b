"""A browser for tests: Debian's chromium by chromium-driver, asked by the WebDriver protocol over loopback."""
import base64
import contextlib
import json
import os
import signal
import subprocess
import tempfile
import time
from urllib import error, request

DRIVER = "chromedriver"
LIMIT = 30  # seconds for one command
ELEMENT = "element-6066-11e4-a52e-4f735466cecf"
OPTIONS = ["--headless=new", "--no-sandbox", "--disable-gpu", "--disable-dev-shm-usage", "--no-first-run"]
OPTIONS += ["--disable-background-networking", "--disable-component-update", "--no-proxy-server", "--disable-sync"]


class Fault(Exception):
    """What the driver reports."""


class Browser:
    """A session of the driver."""

    def __init__(self, url, folder, size):
        self.url = url
        options = {"args": [*OPTIONS, f"--user-data-dir={folder}", "--window-size=%d,%d" % size]}
        wanted = {"alwaysMatch": {"browserName": "chrome", "goog:chromeOptions": options}}
        wanted["alwaysMatch"]["goog:loggingPrefs"] = {"browser": "ALL"}
        self.session = self.ask("POST", "/session", {"capabilities": wanted})["sessionId"]

    def ask(self, method, path, body=None):
        data = None if body is None else json.dumps(body).encode()
        asked = request.Request(self.url + path, data, {"Content-Type": "application/json"}, method=method)
        try:
            with request.build_opener(request.ProxyHandler({})).open(asked, timeout=LIMIT) as got:
                return json.load(got)["value"]
        except error.HTTPError as refused:
            raise Fault(json.load(refused)["value"]["message"].partition("\n")[0]) from refused

    def command(self, path, **body):
        return self.ask("POST", f"/session/{self.session}{path}", body)

    def get(self, path):
        return self.ask("GET", f"/session/{self.session}{path}")

    def open(self, url):
        self.command("/url", url=url)

    def run(self, script, *given):
        """What a script returns; `arguments` is what it is given."""
        return self.command("/execute/sync", script=script, args=list(given))

    def find(self, selector):
        return self.command("/element", using="css selector", value=selector)[ELEMENT]

    def click(self, selector):
        self.command(f"/element/{self.find(selector)}/click")

    def type(self, selector, text):
        self.command(f"/element/{self.find(selector)}/value", text=text)

    def press(self, keys):
        """Keys, one after another, to whatever has the focus."""
        each = [{"type": kind, "value": key} for key in keys for kind in ("keyDown", "keyUp")]
        self.command("/actions", actions=[{"type": "key", "id": "keys", "actions": each}])

    def point(self, selector):
        """Moves the pointer to the middle of an element."""
        move = {"type": "pointerMove", "duration": 0, "x": 0, "y": 0, "origin": {ELEMENT: self.find(selector)}}
        self.command("/actions", actions=[{"type": "pointer", "id": "mouse", "actions": [move]}])

    def until(self, script, *given, limit=LIMIT):
        """Waits until a script returns something true, and returns that; None where it never does."""
        end = time.monotonic() + limit
        while time.monotonic() < end:
            got = self.run(script, *given)
            if got:
                return got
            time.sleep(0.02)
        return None

    def emulate(self, name, **given):
        """A command of the browser's own protocol."""
        self.command("/goog/cdp/execute", cmd=name, params=given)

    def screenshot(self, path):
        with open(path, "wb") as out:
            out.write(base64.b64decode(self.get("/screenshot")))

    def log(self):
        """What the browser said of pages since the last time, as errors of scripts."""
        return [entry["message"] for entry in self.command("/se/log", type="browser")]


def end_all(process):
    """Ends a process that leads a group, and all of that group."""
    with contextlib.suppress(ProcessLookupError):
        os.killpg(process.pid, signal.SIGKILL)
    process.wait()


@contextlib.contextmanager
def browser(size=(1280, 900)):
    """A browser, which is gone at the end with all of its processes."""
    with tempfile.TemporaryDirectory(ignore_cleanup_errors=True) as folder:
        words = [DRIVER, "--port=0", "--log-level=WARNING"]
        how = {"stdin": subprocess.DEVNULL, "stdout": subprocess.PIPE, "stderr": subprocess.DEVNULL}
        process = subprocess.Popen(words, start_new_session=True, cwd=folder, **how)
        try:
            line = next(line for line in iter(process.stdout.readline, b"") if b"successfully on port " in line)
            port = int(line.rpartition(b"on port ")[2].strip(b" .\n"))
            session = Browser(f"http://127.0.0.1:{port}", folder, size)
            try:
                yield session
            finally:
                with contextlib.suppress(OSError, Fault):
                    session.ask("DELETE", f"/session/{session.session}")
        finally:
            end_all(process)
