"""A browser without a window, controlled over a socket: Firefox (Debian's package `firefox-esr`) and its protocol Marionette.

It has the calls of tests/browser.py that the tests of pages use in both browsers.
"""

import itertools
import json
import shutil
import socket
import subprocess
import tempfile
import time
from pathlib import Path

PATIENCE = 600  # seconds
NAMES = ("firefox-esr", "firefox")
KEYS = {"ArrowRight": "\ue014", "ArrowLeft": "\ue012", "Home": "\ue011", "End": "\ue010", "Enter": "\ue007", "Escape": "\ue00c"}
PREFERENCES = {
    "browser.shell.checkDefaultBrowser": False,
    "datareporting.policy.dataSubmissionEnabled": False,
    "toolkit.telemetry.enabled": False,
    "app.update.enabled": False,
    "network.captive-portal-service.enabled": False,
    "network.connectivity-service.enabled": False,
}
# What the console has of the page, from the part of the browser that may read it.
ERRORS = """return Services.console.getMessageArray().filter(it=>it instanceof Ci.nsIScriptError&&it.sourceName.startsWith("file:"))
  .map(it=>it.errorMessage)"""


def found():
    """The path of a browser, or None."""
    return next(filter(None, map(shutil.which, NAMES)), None)


def free_port():
    with socket.socket() as one:
        one.bind(("127.0.0.1", 0))
        return one.getsockname()[1]


class Firefox:
    """One page at a time, and what went wrong in it."""

    def __init__(self, width=1400, height=900):
        self.folder, port = tempfile.TemporaryDirectory(), free_port()
        lines = [f'user_pref("{name}", {json.dumps(value)});' for name, value in (PREFERENCES | {"marionette.port": port}).items()]
        (Path(self.folder.name) / "user.js").write_text("\n".join(lines) + "\n")
        words = [found(), "--headless", "--no-remote", "--marionette", "--remote-allow-system-access", "--profile", self.folder.name]
        self.process = subprocess.Popen(words, stdin=subprocess.DEVNULL, stdout=subprocess.DEVNULL, stderr=subprocess.DEVNULL)
        self.line, self.kept, self.numbers = self.connected(port), b"", itertools.count(1)
        self.message()
        self.call("WebDriver:NewSession")
        self.size(width, height)

    def connected(self, port):
        for _ in range(PATIENCE):
            try:
                return socket.create_connection(("127.0.0.1", port), timeout=PATIENCE)
            except OSError:
                if self.process.poll() is not None:
                    break
                time.sleep(1)
        raise TimeoutError("Firefox does not start")

    def __enter__(self):
        return self

    def __exit__(self, *_):
        self.line.close()
        self.process.terminate()
        self.process.wait()
        self.folder.cleanup()

    def message(self):
        while True:
            size, colon, rest = self.kept.partition(b":")
            if colon and len(rest) >= int(size):
                self.kept = rest[int(size) :]
                return json.loads(rest[: int(size)])
            more = self.line.recv(1 << 20)
            if not more:
                raise EOFError("the browser has ended")
            self.kept += more

    def call(self, method, **how):
        number = next(self.numbers)
        text = json.dumps([0, number, method, how]).encode()
        self.line.sendall(b"%d:%s" % (len(text), text))
        while True:
            kind, other, error, result = self.message()
            if kind == 1 and other == number:
                if error:
                    raise RuntimeError(f"{method}: {error['message']}")
                return result

    def in_browser(self, script):
        """The value of a script that runs outside of the page."""
        self.call("Marionette:SetContext", value="chrome")
        try:
            return self.call("WebDriver:ExecuteScript", script=script, args=[])["value"]
        finally:
            self.call("Marionette:SetContext", value="content")

    def open(self, path, where=""):
        """Opens a file, and waits until it is loaded; its errors are kept from here on."""
        self.in_browser("Services.console.reset()")
        self.call("WebDriver:Navigate", url="about:blank")
        self.call("WebDriver:Navigate", url=Path(path).resolve().as_uri() + where)
        self.zoom(self.factor)

    @property
    def errors(self):
        return self.in_browser(ERRORS)

    def tell(self, expression):
        """The value of an expression in the page."""
        script = expression if expression.startswith("var ") else f"return Promise.resolve({expression})"
        return self.call("WebDriver:ExecuteScript", script=script, args=[])["value"]

    def press(self, key):
        value = KEYS.get(key, key)
        keys = [{"type": kind, "value": value} for kind in ("keyDown", "keyUp")]
        self.call("WebDriver:PerformActions", actions=[{"type": "key", "id": "keys", "actions": keys}])

    def type(self, text):
        """Types a text into the element that has the focus."""
        for letter in text:
            self.press(letter)

    def click_at(self, x, y):
        moves = [{"type": "pointerMove", "x": int(x), "y": int(y)}, {"type": "pointerDown", "button": 0}, {"type": "pointerUp", "button": 0}]
        self.call("WebDriver:PerformActions", actions=[{"type": "pointer", "id": "mouse", "parameters": {"pointerType": "mouse"}, "actions": moves}])

    def click(self, selector):
        """Clicks the middle of the first element of a selector, with the mouse."""
        self.click_at(*self.tell(f"""(function(){{var e=document.querySelector({json.dumps(selector)});e.scrollIntoView({{block:"center"}});
          var b=e.getBoundingClientRect();return[b.x+b.width/2,b.y+b.height/2]}})()"""))

    def size(self, width, height):
        """Gives the page a size. A window cannot be narrower than 450 pixels: in such a one the page is enlarged."""
        self.zoom(1)
        inner = self.window(width, height)
        inner = self.window(2 * width - inner[0], 2 * height - inner[1])
        self.factor = inner[0] / width  # a page that is opened has no zoom
        self.zoom(self.factor)

    def window(self, width, height):
        self.call("WebDriver:SetWindowRect", width=width, height=height)
        return self.call("WebDriver:ExecuteScript", script="return [innerWidth,innerHeight]", args=[])["value"]

    def zoom(self, factor):
        self.in_browser(f"Services.wm.getMostRecentWindow('navigator:browser').gBrowser.selectedBrowser.browsingContext.fullZoom={factor}")

    def scheme(self, name):
        """Light or dark."""
        self.in_browser(f'Services.prefs.setIntPref("layout.css.prefers-color-scheme.content-override", {("dark", "light").index(name)})')

    def printed(self):
        """The page on paper, as PDF in base 64."""
        return self.call("WebDriver:Print")["value"]
