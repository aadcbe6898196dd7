"""A headless Chromium, driven over a pipe: what a page says, draws and answers. Python's standard library alone is used."""

import base64
import fcntl
import json
import os
import select
import shutil
import subprocess
import tempfile
import time
from pathlib import Path
from typing import Any, Dict, List, Optional

NAMES = ("chromium", "chromium-browser", "google-chrome")

SECONDS = 60
"""How long an answer may take."""

FLAGS = (
    "--headless", "--no-sandbox", "--disable-gpu", "--hide-scrollbars", "--no-first-run", "--disable-background-networking",
    "--disable-dev-shm-usage", "--remote-debugging-pipe", "about:blank")


class BrowserFault(Exception):
    """What went wrong with the browser."""


def browser_path() -> Optional[str]:
    """The browser that is there, if one is."""
    return next((path for path in map(shutil.which, NAMES) if path), None)


class Browser:
    """A browser with one page. Each event of the page is kept."""

    def __init__(self, path: str) -> None:
        self.folder = tempfile.TemporaryDirectory(prefix="browser-")
        self.events: List[Dict[str, Any]] = []
        self.count, self.data = 0, b""
        theirs_in, self.out = os.pipe()
        self.input, theirs_out = os.pipe()
        # (the browser reads descriptor 3 and writes descriptor 4)
        high = [fcntl.fcntl(it, fcntl.F_DUPFD, 20) for it in (theirs_in, theirs_out)]

        def place() -> None:
            for fd, at in zip(high, (3, 4)):
                os.dup2(fd, at)

        command = [path, f"--user-data-dir={self.folder.name}", *FLAGS]
        self.process = subprocess.Popen(
            command, stdin=subprocess.DEVNULL, stdout=subprocess.DEVNULL, stderr=subprocess.DEVNULL, preexec_fn=place, pass_fds=(3, 4))
        for fd in (theirs_in, theirs_out, *high):
            os.close(fd)
        self.session = ""
        target = self.ask("Target.createTarget", url="about:blank")["targetId"]
        self.session = self.ask("Target.attachToTarget", targetId=target, flatten=True)["sessionId"]
        for domain in ("Page", "Runtime", "Log", "Network"):
            self.ask(f"{domain}.enable")

    def __enter__(self) -> "Browser":
        return self

    def __exit__(self, *_: object) -> None:
        self.process.kill()
        self.process.wait()
        os.close(self.out)
        os.close(self.input)
        try:
            self.folder.cleanup()
        except OSError:
            pass

    def message(self, until: float) -> Dict[str, Any]:
        """The next message of the browser."""
        while b"\0" not in self.data:
            if not select.select([self.input], [], [], max(0.0, until - time.monotonic()))[0]:
                raise BrowserFault("the browser doesn't answer")
            part = os.read(self.input, 1 << 16)
            if not part:
                raise BrowserFault("the browser ended")
            self.data += part
        text, self.data = self.data.split(b"\0", 1)
        return json.loads(text)

    def ask(self, method: str, **words: object) -> Dict[str, Any]:
        """What the browser answers to a command."""
        self.count += 1
        own = {"id": self.count, "method": method, "params": words, **({"sessionId": self.session} if self.session else {})}
        os.write(self.out, json.dumps(own).encode("utf-8") + b"\0")
        until = time.monotonic() + SECONDS
        while True:
            told = self.message(until)
            if told.get("id") == self.count:
                if "error" in told:
                    raise BrowserFault(f"{method}: {told['error'].get('message')}")
                return told["result"]
            self.events.append(told)

    def open(self, page: Path) -> None:
        """Opens a page, and waits until it is there."""
        self.events.clear()
        self.ask("Page.navigate", url=page.as_uri())
        until = time.monotonic() + SECONDS
        while not any(it.get("method") == "Page.loadEventFired" for it in self.events):
            self.events.append(self.message(until))

    def value(self, expression: str) -> Any:
        """What an expression of the page comes to."""
        told = self.ask("Runtime.evaluate", expression=expression, returnByValue=True)
        if "exceptionDetails" in told:
            raise BrowserFault(f"{expression}: {told['exceptionDetails'].get('text')}")
        return told["result"].get("value")

    def press(self, key: str) -> None:
        """Presses a key."""
        codes = {"Enter": 13, "ArrowUp": 38, "ArrowDown": 40, "ArrowLeft": 37, "ArrowRight": 39, "Tab": 9}
        text = {"text": "\r"} if key == "Enter" else {}
        for kind in ("keyDown", "keyUp"):
            more = text if kind == "keyDown" else {}
            self.ask("Input.dispatchKeyEvent", type=kind, key=key, code=key, windowsVirtualKeyCode=codes[key], **more)

    def picture(self, width: int, height: int) -> bytes:
        """What the page looks like, as PNG."""
        self.ask("Emulation.setDeviceMetricsOverride", width=width, height=height, deviceScaleFactor=1, mobile=False)
        return base64.b64decode(self.ask("Page.captureScreenshot", format="png")["data"])

    def faults(self) -> List[str]:
        """What the page complained of: exceptions, errors in its console, dialogs, and whatever it asked for but itself."""
        found = []
        for it in self.events:
            method, words = it.get("method"), it.get("params", {})
            if method == "Runtime.exceptionThrown" or method == "Page.javascriptDialogOpening":
                found.append(json.dumps(words)[:300])
            if method == "Log.entryAdded" and words["entry"]["level"] in ("error", "warning"):
                found.append(words["entry"]["text"])
            if method == "Runtime.consoleAPICalled" and words["type"] in ("error", "warning"):
                found.append(json.dumps(words["args"])[:300])
            if method == "Network.requestWillBeSent" and words.get("type") != "Document":
                found.append(f"it asked for {words['request']['url']}")
        return found
