"""Chromium without a window, driven through its debugging pipe. Standard library only."""

import json
import os
import shutil
import subprocess
import tempfile

NAMES = ["chromium", "chromium-browser", "google-chrome", "google-chrome-stable"]


def find():
    """The browser's path, or None: CHROMIUM names it, or one of the usual names does."""
    names = [os.environ["CHROMIUM"]] if os.environ.get("CHROMIUM") else NAMES
    return next((path for path in map(shutil.which, names) if path), None)


class Browser:
    """A browser with one page. Messages are JSON texts that end in a zero octet."""

    def __init__(self, path):
        self.folder = tempfile.mkdtemp(prefix="frames-page-")
        to_read, self.to_browser = os.pipe()
        self.from_browser, to_write = os.pipe()

        def place_pipes():
            # The browser reads from 3 and writes to 4. High numbers first: neither may be trodden on.
            high = [os.dup2(end, 100 + k) for k, end in enumerate((to_read, to_write))]
            for number, end in zip((3, 4), high):
                os.dup2(end, number)
                os.set_inheritable(number, True)

        words = [
            path, "--headless=new", "--no-sandbox", "--disable-gpu", "--no-first-run",
            "--disable-background-networking", "--remote-debugging-pipe",
            f"--user-data-dir={self.folder}", "about:blank",
        ]
        silent = subprocess.DEVNULL
        self.process = subprocess.Popen(
            words, preexec_fn=place_pipes, close_fds=False, stdin=silent, stdout=silent, stderr=silent
        )
        os.close(to_read)
        os.close(to_write)
        self.read, self.number, self.session, self.mistakes = b"", 0, None, []
        target = self.call("Target.createTarget", url="about:blank")["targetId"]
        answer = self.call("Target.attachToTarget", targetId=target, flatten=True)
        self.session = answer["sessionId"]
        self.call("Page.enable")
        self.call("Runtime.enable")
        self.call("Log.enable")

    def __enter__(self):
        return self

    def __exit__(self, *_):
        os.close(self.to_browser)
        os.close(self.from_browser)
        self.process.terminate()
        self.process.wait()
        shutil.rmtree(self.folder, ignore_errors=True)

    def message(self):
        while b"\0" not in self.read:
            more = os.read(self.from_browser, 1 << 16)
            if not more:
                raise RuntimeError("the browser has ended")
            self.read += more
        text, self.read = self.read.split(b"\0", 1)
        return json.loads(text)

    def call(self, method, **parameters):
        """Calls the browser and waits for its answer."""
        self.number += 1
        words = {"id": self.number, "method": method, "params": parameters}
        if self.session:
            words["sessionId"] = self.session
        os.write(self.to_browser, json.dumps(words).encode() + b"\0")
        while True:
            message = self.message()
            # What goes wrong in the page, and what the page would load and may not.
            if message.get("method") in ("Runtime.exceptionThrown", "Log.entryAdded"):
                self.mistakes.append(message["params"])
            if message.get("id") == self.number:
                if "error" in message:
                    raise RuntimeError(f"{method}: {message['error']}")
                return message["result"]

    def open(self, path):
        """Opens a file and waits until it has run its script."""
        self.call("Page.navigate", url="file://" + os.path.abspath(path))
        while self.value("document.readyState + location.protocol") != "completefile:":
            pass

    def size(self, width, height, dark=False):
        self.call(
            "Emulation.setDeviceMetricsOverride",
            width=width, height=height, deviceScaleFactor=1, mobile=width < 500,
        )
        scheme = {"name": "prefers-color-scheme", "value": "dark" if dark else "light"}
        self.call("Emulation.setEmulatedMedia", features=[scheme])

    def value(self, script):
        """What a script answers in the page."""
        answer = self.call("Runtime.evaluate", expression=script, returnByValue=True)
        if "exceptionDetails" in answer:
            raise RuntimeError(f"{script}: {answer['exceptionDetails']}")
        return answer["result"].get("value")

    def press(self, key, code):
        """A key pressed and let go, by the keyboard's number for it."""
        for kind in ("rawKeyDown", "keyUp"):
            self.call("Input.dispatchKeyEvent", type=kind, key=key, code=key, windowsVirtualKeyCode=code)

    def click(self, x, y):
        for kind in ("mousePressed", "mouseReleased"):
            self.call("Input.dispatchMouseEvent", type=kind, x=x, y=y, button="left", clickCount=1)
