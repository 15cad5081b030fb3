"""A headless Chromium, driven by its DevTools protocol over two pipes."""
from __future__ import annotations

import base64
import json
import os
import shutil
import subprocess
import tempfile
import time
from typing import Any

NAMES = ("chromium", "chromium-browser", "google-chrome")
INSTALL = "no Chromium is installed: on Debian, `apt-get install --no-install-recommends chromium fonts-dejavu-core`"
# a loaded machine takes its time
ANSWER_SECONDS = 120


class BrowserFault(Exception):
    """Chromium is not there, ended, or answered with an error."""


def find_browser() -> str:
    """The program's place."""
    for name in NAMES:
        place = shutil.which(name)
        if place:
            return place
    raise BrowserFault(INSTALL)


class Browser:
    """A page in a headless Chromium of its own; used in a `with`."""

    def __init__(self, width: int, height: int) -> None:
        self.profile = tempfile.mkdtemp(prefix="look-browser-")
        to_read, self.to_write = os.pipe()
        self.from_read, from_write = os.pipe()
        words = [find_browser(), "--headless=new", "--remote-debugging-pipe", f"--user-data-dir={self.profile}"]
        words += [f"--window-size={width},{height}", "--hide-scrollbars", "--disable-gpu", "--no-first-run"]
        if os.geteuid() == 0:
            words.append("--no-sandbox")

        def take_pipes() -> None:
            """The protocol wants its pipes to be the descriptors 3 and 4."""
            os.dup2(to_read, 3)
            os.dup2(from_write, 4)

        quiet = subprocess.DEVNULL
        self.process = subprocess.Popen(words, preexec_fn=take_pipes, pass_fds=(3, 4), stdout=quiet, stderr=quiet)
        os.close(to_read)
        os.close(from_write)
        self.pending = b""
        self.count = 0
        self.events: list[dict[str, Any]] = []
        self.session: str | None = None
        target = self.call("Target.createTarget", url="about:blank")["targetId"]
        self.session = self.call("Target.attachToTarget", targetId=target, flatten=True)["sessionId"]
        self.call("Page.enable")
        self.call("Runtime.enable")
        self.resize(width, height)

    def resize(self, width: int, height: int) -> None:
        """Gives the window another size."""
        self.call("Emulation.setDeviceMetricsOverride", width=width, height=height, deviceScaleFactor=1, mobile=False)

    def __enter__(self) -> Browser:
        return self

    def __exit__(self, *unused: object) -> None:
        os.close(self.to_write)
        try:
            self.process.wait(5)
        except subprocess.TimeoutExpired:
            self.process.kill()
            self.process.wait()
        os.close(self.from_read)
        shutil.rmtree(self.profile, ignore_errors=True)

    def message(self) -> dict[str, Any]:
        """The next message of the browser: each ends with a zero byte."""
        while b"\0" not in self.pending:
            piece = os.read(self.from_read, 1 << 20)
            if not piece:
                raise BrowserFault("Chromium ended")
            self.pending += piece
        text, _, self.pending = self.pending.partition(b"\0")
        return json.loads(text)

    def call(self, method: str, **words: Any) -> dict[str, Any]:
        """Calls a method of the protocol and waits for its answer; events that come before it are kept."""
        self.count += 1
        asked: dict[str, Any] = {"id": self.count, "method": method, "params": words}
        if self.session:
            asked["sessionId"] = self.session
        os.write(self.to_write, json.dumps(asked).encode() + b"\0")
        while True:
            answer = self.message()
            if answer.get("id") == self.count:
                break
            self.events.append(answer)
        if "error" in answer:
            raise BrowserFault(f"{method}: {answer['error']['message']}")
        return answer["result"]

    def open(self, url: str) -> float:
        """Opens a page and waits until it has loaded; gives the seconds."""
        self.events.clear()
        begun = time.monotonic()
        # the same file with another fragment would not load anew
        self.call("Page.navigate", url="about:blank")
        self.call("Page.navigate", url=url)
        self.wait_for("document.readyState === 'complete' && location.href !== 'about:blank'")
        return time.monotonic() - begun

    def value(self, script: str) -> Any:
        """The value of an expression in the page; a promise is waited for."""
        words = {"expression": script, "returnByValue": True, "awaitPromise": True}
        result = self.call("Runtime.evaluate", **words)
        if "exceptionDetails" in result:
            raise BrowserFault(f"{script}: {result['exceptionDetails'].get('exception', {}).get('description')}")
        return result["result"].get("value")

    def wait_for(self, script: str) -> None:
        """Waits until an expression holds in the page."""
        end = time.monotonic() + ANSWER_SECONDS
        while not self.value(script):
            if time.monotonic() > end:
                raise BrowserFault(f"it never came that {script}")
            time.sleep(0.02)

    def settle(self) -> None:
        """Waits until the page has drawn what it was asked to."""
        self.value("new Promise((done) => requestAnimationFrame(() => requestAnimationFrame(done)))")

    def mouse(self, kind: str, x: float, y: float, **words: Any) -> None:
        self.call("Input.dispatchMouseEvent", type=kind, x=x, y=y, **words)

    def point(self, x: float, y: float) -> None:
        self.mouse("mouseMoved", x, y)
        self.settle()

    def click(self, x: float, y: float) -> None:
        self.mouse("mouseMoved", x, y)
        for kind in ("mousePressed", "mouseReleased"):
            self.mouse(kind, x, y, button="left", clickCount=1)
        self.settle()

    def press(self, key: str, code: int, text: str = "") -> None:
        """Presses and releases a key; `text` is what it types."""
        words = {"key": key, "windowsVirtualKeyCode": code, "text": text}
        self.call("Input.dispatchKeyEvent", type="keyDown", **words)
        self.call("Input.dispatchKeyEvent", type="keyUp", key=key, windowsVirtualKeyCode=code)
        self.settle()

    def type(self, text: str) -> None:
        """Types a text where the keys go."""
        for letter in text:
            self.press(letter, ord(letter.upper()), letter)

    def click_on(self, id: str) -> None:
        """Clicks the middle of an element."""
        box = f"document.getElementById('{id}').getBoundingClientRect()"
        self.click(*self.value(f"[{box}.left + {box}.width / 2, {box}.top + {box}.height / 2]"))

    def faults(self) -> list[str]:
        """The uncaught errors of the page so far."""
        self.value("0")
        events = [event["params"] for event in self.events if event.get("method") == "Runtime.exceptionThrown"]
        thrown = [event["exceptionDetails"] for event in events]
        return [details.get("exception", {}).get("description") or details["text"] for details in thrown]

    def screenshot(self, place: str) -> None:
        """Writes what is shown as a PNG file."""
        self.settle()
        image = self.call("Page.captureScreenshot", format="png")["data"]
        with open(place, "wb") as file:
            file.write(base64.b64decode(image))
