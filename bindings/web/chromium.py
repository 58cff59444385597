"""A Chromium without a window, by its debugging protocol over a pipe: what the tests of the module and of the page look into."""
from __future__ import annotations

import base64
import json
import os
import shutil
import subprocess
import tempfile
import time
from pathlib import Path
from typing import Any

NAMES = ("chromium", "chromium-browser", "google-chrome")
WORDS = ("--headless", "--no-sandbox", "--disable-gpu", "--hide-scrollbars", "--no-first-run", "--disable-extensions", "--disable-background-networking",
         "--disable-component-update", "--disable-sync", "--disable-dev-shm-usage", "--remote-debugging-pipe")
BLOCK = 1 << 20  # bytes that are read at once at most
PAUSE = 0.05  # seconds between two looks at a page
PATIENCE = 120  # seconds


def found() -> str | None:
    return next((path for name in NAMES if (path := shutil.which(name))), None)


class Failed(Exception):
    """What the browser, or a page's code, says of a failure."""


class Chromium:
    """A browser with one page; all requests that the page makes are kept."""

    def __init__(self, program: str) -> None:
        self.folder = tempfile.TemporaryDirectory(prefix="chromium-", ignore_cleanup_errors=True)
        read, self.to = os.pipe()
        self.of, write = os.pipe()
        # the browser reads at 3 and writes at 4
        words = [program, *WORDS, f"--user-data-dir={self.folder.name}", "about:blank"]
        command = ["bash", "-c", 'in="$1" out="$2"; shift 2; exec "$@" 3<&"$in" 4>&"$out"', "bash", str(read), str(write), *words]
        self.process = subprocess.Popen(command, pass_fds=(read, write), stdin=subprocess.DEVNULL, stdout=subprocess.DEVNULL, stderr=subprocess.DEVNULL)
        os.close(read)
        os.close(write)
        self.rest, self.number, self.session = b"", 0, ""
        self.requests: list[str] = []
        self.errors: list[str] = []
        target = next(it for it in self.call("Target.getTargets")["targetInfos"] if it["type"] == "page")
        self.session = self.call("Target.attachToTarget", targetId=target["targetId"], flatten=True)["sessionId"]
        for domain in ("Page", "Runtime", "Network"):
            self.call(f"{domain}.enable")

    def __enter__(self) -> Chromium:
        return self

    def __exit__(self, *_: object) -> None:
        self.process.kill()
        self.process.wait()
        os.close(self.to)
        os.close(self.of)
        self.folder.cleanup()

    def message(self) -> dict[str, Any]:
        while b"\0" not in self.rest:
            block = os.read(self.of, BLOCK)
            if not block:
                raise Failed("the browser has ended")
            self.rest += block
        one, self.rest = self.rest.split(b"\0", 1)
        return json.loads(one)

    def note(self, method: str, told: dict[str, Any]) -> None:
        if method == "Network.requestWillBeSent":
            self.requests.append(told["request"]["url"])
        elif method == "Runtime.exceptionThrown":
            thrown = told["exceptionDetails"]
            self.errors.append(thrown.get("exception", {}).get("description") or thrown["text"])

    def call(self, method: str, **words: Any) -> dict[str, Any]:
        """Makes a call of the protocol, and waits for its answer."""
        self.number += 1
        whole = {"id": self.number, "method": method, "params": words} | ({"sessionId": self.session} if self.session else {})
        block = json.dumps(whole).encode() + b"\0"
        while block:
            block = block[os.write(self.to, block) :]
        while True:
            told = self.message()
            if told.get("id") == self.number:
                if "error" in told:
                    raise Failed(f"{method}: {told['error']['message']}")
                return told["result"]
            self.note(told.get("method", ""), told.get("params", {}))

    def open(self, address: str | Path) -> None:
        self.call("Page.navigate", url=address.resolve().as_uri() if isinstance(address, Path) else address)

    def ask(self, words: str) -> Any:
        """What an expression of the page's JavaScript is, once its promise is kept."""
        told = self.call("Runtime.evaluate", expression=words, awaitPromise=True, returnByValue=True)
        if "exceptionDetails" in told:
            thrown = told["exceptionDetails"]
            raise Failed(thrown.get("exception", {}).get("description") or thrown["text"])
        return told["result"].get("value")

    def wait(self, words: str, seconds: float = PATIENCE) -> Any:
        """Waits until an expression is true, and answers what it is."""
        until = time.monotonic() + seconds
        while not (value := self.ask(words)):
            if time.monotonic() > until:
                raise Failed(f"not within {seconds} s: {words}")
            time.sleep(PAUSE)
        return value

    def press(self, key: str, code: int = 0, text: str = "", modifiers: int = 0) -> None:
        words = {"key": key, "code": key, "windowsVirtualKeyCode": code, "modifiers": modifiers} | ({"text": text} if text else {})
        self.call("Input.dispatchKeyEvent", type="keyDown", **words)
        self.call("Input.dispatchKeyEvent", type="keyUp", **words)

    def size(self, width: int, height: int) -> None:
        self.call("Emulation.setDeviceMetricsOverride", width=width, height=height, deviceScaleFactor=1, mobile=False)

    def prefer(self, scheme: str) -> None:
        self.call("Emulation.setEmulatedMedia", features=[{"name": "prefers-color-scheme", "value": scheme}])

    def picture(self, file: Path) -> None:
        file.write_bytes(base64.b64decode(self.call("Page.captureScreenshot", format="png")["data"]))
