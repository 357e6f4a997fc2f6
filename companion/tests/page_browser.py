"""A headless Chromium that opens a page, over the pipes of its debugging protocol."""

from __future__ import annotations

import base64
import fcntl
import json
import os
import pathlib
import shutil
import subprocess
import tempfile
import time
import unittest
from typing import Any

NAMES = ("chromium", "chromium-browser", "google-chrome")
SECONDS = 20.0
# Numbers of file descriptors that the browser's 3 and 4 don't meet.
FIRST_DESCRIPTOR = 20


def browser_path() -> str:
    """The browser; skips the test where there is none."""
    for name in NAMES:
        path = shutil.which(name)
        if path is not None:
            return path
    raise unittest.SkipTest("there is no Chromium here (Debian: the package chromium)")


class Browser:
    """A browser with one page. `told` has each error of its console, `asked` each request."""

    def __init__(self) -> None:
        self.told: list[str] = []
        self.asked: list[str] = []
        self._number = 0
        self._rest = b""
        path = browser_path()
        self._folder = tempfile.TemporaryDirectory()
        self._process = self._start(path)
        target = self.call("Target.createTarget", url="about:blank")["targetId"]
        attached = self.call("Target.attachToTarget", targetId=target, flatten=True)
        self._session: str | None = attached["sessionId"]
        for part in ("Page", "Runtime", "Log", "Network"):
            self.call(f"{part}.enable")

    def _start(self, path: str) -> subprocess.Popen[bytes]:
        self._session = None
        theirs_in, self._to = (_moved(end) for end in os.pipe())
        self._from, theirs_out = (_moved(end) for end in os.pipe())

        def take_pipes() -> None:
            os.dup2(theirs_in, 3)
            os.dup2(theirs_out, 4)

        words = [path, "--headless=new", "--no-sandbox", "--disable-gpu", "--no-first-run"]
        words += ["--disable-dev-shm-usage", "--hide-scrollbars", "--disable-background-networking"]
        words += ["--remote-debugging-pipe", f"--user-data-dir={self._folder.name}"]
        process = subprocess.Popen(
            words,
            close_fds=False,
            preexec_fn=take_pipes,
            stdout=subprocess.DEVNULL,
            stderr=subprocess.DEVNULL,
        )
        os.close(theirs_in)
        os.close(theirs_out)
        return process

    def call(self, method: str, **words: Any) -> Any:
        """Asks for something, and waits for its answer."""
        self._number += 1
        message: dict[str, Any] = {"id": self._number, "method": method, "params": words}
        if self._session is not None:
            message["sessionId"] = self._session
        os.write(self._to, json.dumps(message).encode() + b"\0")
        while True:
            answer = self._next()
            if answer.get("id") == self._number:
                if "error" in answer:
                    raise RuntimeError(f"{method}: {answer['error']}")
                return answer["result"]

    def _next(self) -> dict[str, Any]:
        """The next message; what it tells of the page is kept."""
        while b"\0" not in self._rest:
            more = os.read(self._from, 1 << 16)
            if not more:
                raise RuntimeError("the browser ended")
            self._rest += more
        line, self._rest = self._rest.split(b"\0", 1)
        message: dict[str, Any] = json.loads(line)
        words = message.get("params", {})
        match message.get("method"):
            case "Network.requestWillBeSent":
                self.asked.append(words["request"]["url"])
            case "Log.entryAdded":
                self.told.append(words["entry"]["text"])
            case "Runtime.consoleAPICalled" | "Runtime.exceptionThrown":
                self.told.append(json.dumps(words))
        return message

    def show(self, width: int, height: int) -> None:
        """Makes the window so large, in pixels."""
        self.call(
            "Emulation.setDeviceMetricsOverride",
            width=width,
            height=height,
            deviceScaleFactor=1,
            mobile=width < 600,
        )

    def open(self, page: pathlib.Path) -> None:
        """Opens a file, and waits until it is loaded."""
        self.call("Page.navigate", url=page.resolve().as_uri())
        end = time.monotonic() + SECONDS
        while self.value("document.readyState + ' ' + location.protocol") != "complete file:":
            if time.monotonic() > end:
                raise RuntimeError("the page isn't loaded")

    def value(self, expression: str) -> Any:
        """The value of an expression in the page."""
        answer = self.call("Runtime.evaluate", expression=expression, returnByValue=True)
        if "exceptionDetails" in answer:
            raise RuntimeError(str(answer["exceptionDetails"]))
        return answer["result"].get("value")

    def picture(self, part: tuple[float, float, float, float] | None = None) -> bytes:
        """The page as a PNG file, or a part of it: left, top, width and height in pixels."""
        words: dict[str, Any] = {"format": "png", "captureBeyondViewport": True}
        if part is not None:
            words["clip"] = dict(zip(("x", "y", "width", "height"), part, strict=True)) | {
                "scale": 1
            }
        answer = self.call("Page.captureScreenshot", **words)
        return base64.b64decode(answer["data"])

    def paper(self) -> bytes:
        """The page as a PDF file of its own paper's size."""
        answer = self.call("Page.printToPDF", preferCSSPageSize=True, printBackground=True)
        return base64.b64decode(answer["data"])

    def close(self) -> None:
        """Ends the browser."""
        self._session = None
        try:
            self.call("Browser.close")
        except (RuntimeError, OSError):
            self._process.kill()
        self._process.wait(SECONDS)
        os.close(self._to)
        os.close(self._from)
        shutil.rmtree(self._folder.name, ignore_errors=True)
        self._folder.cleanup()


def _moved(descriptor: int) -> int:
    """The same end of a pipe under a number that is out of the way."""
    moved = fcntl.fcntl(descriptor, fcntl.F_DUPFD_CLOEXEC, FIRST_DESCRIPTOR)
    os.close(descriptor)
    return moved
