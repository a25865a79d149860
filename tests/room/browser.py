"""Headless Chromium for tests, by its debugging protocol over a pipe: pages from files, keys, and what stands on the console."""

from __future__ import annotations

import json
import os
import select
import shutil
import signal
import subprocess
import tempfile
import time
from dataclasses import dataclass, field
from pathlib import Path
from typing import Any, Dict, List, Optional

NAMES = ("chromium", "chromium-browser", "google-chrome", "google-chrome-stable")
PATIENCE = 60.0


def find_browser() -> Optional[str]:
    """The browser's program, where there is one; CHROMIUM names another."""
    return os.environ.get("CHROMIUM") or next((path for path in map(shutil.which, NAMES) if path), None)


class BrowserError(Exception):
    """The browser went away, or said no."""


@dataclass
class Seen:
    """What a page has done since it was opened."""

    errors: List[str] = field(default_factory=list)
    requests: List[str] = field(default_factory=list)


class Browser:
    """One browser with one page."""

    def __init__(self, program: str) -> None:
        self.folder = tempfile.mkdtemp(prefix="room-browser.")
        to_read, self.write_end = os.pipe()
        self.read_end, to_write = os.pipe()
        words = [
            program, "--headless=new", "--no-sandbox", "--disable-gpu", "--disable-dev-shm-usage", "--no-first-run", "--disable-background-networking",
            "--disable-component-update", "--disable-sync", f"--user-data-dir={self.folder}", "--remote-debugging-pipe", "about:blank",
        ]
        # The browser reads from descriptor 3 and writes to 4.
        shell = ["bash", "-c", f'exec "$@" 3<&{to_read} 4>&{to_write}', "bash", *words]
        self.process = subprocess.Popen(
            shell, pass_fds=(to_read, to_write), stdin=subprocess.DEVNULL, stdout=subprocess.DEVNULL, stderr=subprocess.DEVNULL, start_new_session=True
        )
        os.close(to_read)
        os.close(to_write)
        self.buffer = b""
        self.last = 0
        self.session = ""
        self.events: List[Dict[str, Any]] = []
        self.seen = Seen()
        target = self.ask("Target.createTarget", url="about:blank")["targetId"]
        self.session = self.ask("Target.attachToTarget", targetId=target, flatten=True)["sessionId"]
        for domain in ("Page", "Runtime", "Log", "Network"):
            self.ask(f"{domain}.enable")

    def close(self) -> None:
        """Ends the browser that this object has begun, and no other."""
        for end in (self.write_end, self.read_end):
            os.close(end)
        try:
            self.process.wait(5)
        except subprocess.TimeoutExpired:
            os.killpg(self.process.pid, signal.SIGKILL)
            self.process.wait()
        shutil.rmtree(self.folder, ignore_errors=True)

    def ask(self, method: str, **parameters: Any) -> Dict[str, Any]:
        """Calls a method, and waits for its result."""
        self.last += 1
        message: Dict[str, Any] = {"id": self.last, "method": method, "params": parameters}
        if self.session:
            message["sessionId"] = self.session
        os.write(self.write_end, json.dumps(message).encode() + b"\0")
        until = time.monotonic() + PATIENCE
        while True:
            answer = self.receive(until)
            if answer.get("id") == self.last:
                if "error" in answer:
                    raise BrowserError(f"{method}: {answer['error']}")
                return dict(answer["result"])

    def receive(self, until: float) -> Dict[str, Any]:
        """The next message; what the page does is kept."""
        while b"\0" not in self.buffer:
            ready, _, _ = select.select([self.read_end], [], [], max(until - time.monotonic(), 0))
            data = os.read(self.read_end, 1 << 16) if ready else b""
            if not data:
                raise BrowserError("the browser doesn't answer")
            self.buffer += data
        one, self.buffer = self.buffer.split(b"\0", 1)
        message: Dict[str, Any] = json.loads(one)
        self.note(message)
        return message

    def note(self, message: Dict[str, Any]) -> None:
        method, parameters = message.get("method"), message.get("params", {})
        self.events.append(message)
        if method == "Runtime.exceptionThrown":
            self.seen.errors.append(json.dumps(parameters["exceptionDetails"])[:500])
        elif method == "Runtime.consoleAPICalled" and parameters["type"] in ("error", "warning", "assert"):
            self.seen.errors.append(json.dumps(parameters["args"])[:500])
        elif method == "Log.entryAdded" and parameters["entry"]["level"] in ("error", "warning"):
            self.seen.errors.append(json.dumps(parameters["entry"])[:500])
        elif method == "Network.requestWillBeSent" and not parameters["request"]["url"].startswith("data:"):
            self.seen.requests.append(parameters["request"]["url"])

    def open(self, path: Path, width: int = 1280, height: int = 1000, theme: str = "light", has_script: bool = True, media: str = "") -> Seen:
        """Opens a file, and waits until it is loaded and its cursor is ready."""
        self.ask("Emulation.setDeviceMetricsOverride", width=width, height=height, deviceScaleFactor=1, mobile=width < 600)
        features = [{"name": "prefers-color-scheme", "value": theme}]
        self.ask("Emulation.setEmulatedMedia", media=media, features=features)
        self.ask("Emulation.setScriptExecutionDisabled", value=not has_script)
        until = time.monotonic() + PATIENCE
        self.load("about:blank", until)
        self.seen = Seen()
        self.load(path.resolve().as_uri(), until)
        while has_script and self.evaluate("!!document.getElementById('data') && !!document.querySelector('.row') && document.documentElement.dataset.cursor !== 'ready'"):
            time.sleep(0.05)
            if time.monotonic() > until:
                raise BrowserError("the cursor isn't ready")
        return self.seen

    def load(self, address: str, until: float) -> None:
        """Goes to an address, and waits until it is loaded."""
        self.events.clear()
        self.ask("Page.navigate", url=address)
        while not any(event.get("method") == "Page.loadEventFired" for event in self.events):
            self.receive(until)

    def evaluate(self, expression: str) -> Any:
        """The value of an expression in the page."""
        answer = self.ask("Runtime.evaluate", expression=expression, returnByValue=True, awaitPromise=True)
        if "exceptionDetails" in answer:
            raise BrowserError(json.dumps(answer["exceptionDetails"])[:1000])
        return answer["result"].get("value")

    def press(self, key: str) -> None:
        """Presses a key."""
        codes = {"ArrowLeft": 37, "ArrowUp": 38, "ArrowRight": 39, "ArrowDown": 40, "PageUp": 33, "PageDown": 34, "End": 35, "Home": 36, "Tab": 9}
        for kind in ("rawKeyDown", "keyUp"):
            self.ask("Input.dispatchKeyEvent", type=kind, key=key, code=key, windowsVirtualKeyCode=codes[key])
