"""A browser without a window, controlled over a pipe: Chromium (Debian's package `chromium`) and its DevTools protocol."""

import itertools
import json
import os
import select
import shutil
import subprocess
import tempfile
from pathlib import Path

PATIENCE = 600  # seconds
NAMES = ("chromium", "chromium-browser", "google-chrome")
KEYS = {"ArrowRight": 39, "ArrowLeft": 37, "Home": 36, "End": 35, "PageDown": 34, "Enter": 13, "Escape": 27, "/": 191, "?": 191}
KEYS |= {letter: ord(letter.upper()) for letter in "abdemnrstzDMNRST"}


def found():
    """The path of a browser, or None."""
    return next(filter(None, map(shutil.which, NAMES)), None)


class Browser:
    """One page at a time, and what went wrong in it."""

    def __init__(self, width=1400, height=900):
        self.folder = tempfile.TemporaryDirectory()
        read, self.to = os.pipe()
        self.back, write = os.pipe()
        words = [found(), "--headless", "--no-sandbox", "--disable-gpu", "--disable-dev-shm-usage", "--disable-extensions"]
        words += ["--remote-debugging-pipe", f"--user-data-dir={self.folder.name}", f"--window-size={width},{height}", "about:blank"]
        self.process = subprocess.Popen(
            ["bash", "-c", f'exec "$@" 3<&{read} 4>&{write}', "bash", *words],
            pass_fds=(read, write), stdin=subprocess.DEVNULL, stdout=subprocess.DEVNULL, stderr=subprocess.DEVNULL,
        )
        os.close(read)
        os.close(write)
        self.kept, self.numbers, self.session = b"", itertools.count(1), None
        self.errors, self.loaded = [], 0
        target = self.call("Target.createTarget", url="about:blank")["targetId"]
        self.session = self.call("Target.attachToTarget", targetId=target, flatten=True)["sessionId"]
        for domain in ("Page", "Runtime", "Log"):
            self.call(f"{domain}.enable")

    def __enter__(self):
        return self

    def __exit__(self, *_):
        self.process.terminate()
        self.process.wait()
        os.close(self.to)
        os.close(self.back)
        self.folder.cleanup()

    def message(self):
        """The next message; what it reports of errors and of loading is kept."""
        while b"\0" not in self.kept:
            if not select.select([self.back], [], [], PATIENCE)[0]:
                raise TimeoutError("the browser says nothing")
            more = os.read(self.back, 1 << 20)
            if not more:
                raise EOFError("the browser has ended")
            self.kept += more
        text, self.kept = self.kept.split(b"\0", 1)
        message = json.loads(text)
        if message.get("method") == "Page.loadEventFired":
            self.loaded += 1
        elif message.get("method") == "Runtime.exceptionThrown":
            self.errors.append(message["params"]["exceptionDetails"]["text"])
        elif message.get("method") == "Log.entryAdded" and message["params"]["entry"]["level"] in ("error", "warning"):
            self.errors.append(message["params"]["entry"]["text"])
        elif message.get("method") == "Runtime.consoleAPICalled":
            self.errors.append(str(message["params"]["args"]))
        return message

    def call(self, method, **how):
        number = next(self.numbers)
        command = {"id": number, "method": method, "params": how} | ({"sessionId": self.session} if self.session else {})
        os.write(self.to, json.dumps(command).encode() + b"\0")
        while True:
            message = self.message()
            if message.get("id") == number:
                if "error" in message:
                    raise RuntimeError(f"{method}: {message['error']['message']}")
                return message["result"]

    def open(self, path, where=""):
        """Opens a file, and waits until it is loaded; its errors are kept from here on."""
        self.call("Page.navigate", url="about:blank")
        before, self.errors = self.loaded, []
        while self.loaded == before:
            self.message()
        before = self.loaded
        self.call("Page.navigate", url=Path(path).resolve().as_uri() + where)
        while self.loaded == before:
            self.message()

    def tell(self, expression):
        """The value of an expression in the page."""
        result = self.call("Runtime.evaluate", expression=expression, returnByValue=True, awaitPromise=True)
        if "exceptionDetails" in result:
            raise RuntimeError(result["exceptionDetails"]["exception"].get("description", "?"))
        return result["result"].get("value")

    def press(self, key):
        code = KEYS[key]
        for kind in ("keyDown", "keyUp"):
            self.call("Input.dispatchKeyEvent", type=kind, key=key, windowsVirtualKeyCode=code)

    def type(self, text):
        """Types a text into the element that has the focus."""
        self.call("Input.insertText", text=text)

    def click(self, selector):
        """Clicks the middle of the first element of a selector, with the mouse."""
        place = self.tell(f"""(function(){{var e=document.querySelector({json.dumps(selector)});e.scrollIntoView({{block:"center"}});
          var b=e.getBoundingClientRect();return[b.x+b.width/2,b.y+b.height/2]}})()""")
        self.click_at(*place)

    def click_at(self, x, y):
        for kind in ("mousePressed", "mouseReleased"):
            self.call("Input.dispatchMouseEvent", type=kind, x=x, y=y, button="left", clickCount=1)

    def size(self, width, height):
        """Gives the page a size."""
        self.call("Emulation.setDeviceMetricsOverride", width=width, height=height, deviceScaleFactor=1, mobile=False)

    def printed(self):
        """The page on paper, as PDF in base 64."""
        return self.call("Page.printToPDF", printBackground=True)["data"]

    def scripts(self, on):
        self.call("Emulation.setScriptExecutionDisabled", value=not on)

    def scheme(self, name):
        """Light or dark."""
        self.call("Emulation.setEmulatedMedia", features=[{"name": "prefers-color-scheme", "value": name}])
