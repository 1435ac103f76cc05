"""A browser for tests: Debian's Chromium, driven by its chromedriver as https://www.w3.org/TR/webdriver2 says."""
from __future__ import annotations

import base64
import json
import os
import signal
import subprocess
import time
import urllib.error
import urllib.request
from collections.abc import Callable
from pathlib import Path
from typing import Any

from companions.tests.day.stage import free_port


class Browser:
    """A window of a browser of its own. `close` ends it and all that it started."""

    def __init__(self, folder: Path, width: int = 1100, height: int = 900, dark: bool = False) -> None:
        self.port = free_port()
        log = (folder / "chromedriver.log").open("ab")
        with log:
            self.process = subprocess.Popen(["chromedriver", f"--port={self.port}"], stdin=subprocess.DEVNULL,
                                            stdout=log, stderr=log, start_new_session=True,
                                            env={**os.environ, "HOME": str(folder)})
        words = ["--headless=new", "--no-sandbox", "--disable-dev-shm-usage", "--ignore-certificate-errors",
                 "--disable-gpu", "--hide-scrollbars", f"--window-size={width},{height}",
                 f"--user-data-dir={folder / 'chromium'}", *(["--force-dark-mode"] if dark else [])]
        wanted = {"alwaysMatch": {"browserName": "chrome", "acceptInsecureCerts": True,
                                  "goog:chromeOptions": {"args": words, "binary": "/usr/bin/chromium"}}}
        self.session = ""
        until = time.monotonic() + 120
        while not self.session:
            try:
                self.session = "/session/" + self.call("POST", "/session", {"capabilities": wanted})["sessionId"]
            except (ConnectionError, urllib.error.URLError):
                if time.monotonic() > until:
                    raise
                time.sleep(0.1)

    def call(self, method: str, path: str, body: Any = None) -> Any:
        data = None if method == "GET" else json.dumps(body or {}).encode()
        asked = urllib.request.Request(f"http://127.0.0.1:{self.port}{self.session}{path}", data, method=method,
                                       headers={"Content-Type": "application/json"})
        try:
            with urllib.request.urlopen(asked, timeout=120) as answer:
                return json.load(answer)["value"]
        except urllib.error.HTTPError as fault:
            raise AssertionError(fault.read().decode(errors="replace")[:500]) from None

    def go(self, address: str) -> None:
        self.call("POST", "/url", {"url": address})

    def run(self, script: str, *words: Any) -> Any:
        """What a script of the page's own gives back."""
        return self.call("POST", "/execute/sync", {"script": script, "args": list(words)})

    def tell(self, command: str, **words: Any) -> Any:
        """A command of the protocol of its developers' tools (https://chromedevtools.github.io/devtools-protocol)."""
        return self.call("POST", "/goog/cdp/execute", {"cmd": command, "params": words})

    def measure(self) -> None:
        """Measures from now on what scripts take of the processor, whatever else runs on this machine."""
        self.tell("Performance.enable", timeDomain="threadTicks")

    def script_seconds(self) -> float:
        """The processor's seconds that scripts took since then."""
        found = self.tell("Performance.getMetrics")["metrics"]
        return float(next(it["value"] for it in found if it["name"] == "ScriptDuration"))

    def text(self, selector: str) -> list[str]:
        """The text of all elements that are seen by a selector, with single spaces."""
        found = self.run("return [...document.querySelectorAll(arguments[0])].map((it) => it.textContent)", selector)
        return [" ".join(it.split()) for it in found]

    def press(self, keys: str) -> None:
        """Types keys, as at a keyboard."""
        steps = [{"type": kind, "value": key} for key in keys for kind in ("keyDown", "keyUp")]
        self.call("POST", "/actions", {"actions": [{"type": "key", "id": "keyboard", "actions": steps}]})

    def picture(self, file: Path) -> None:
        file.write_bytes(base64.b64decode(self.call("GET", "/screenshot")))

    def wait(self, what: Callable[[], Any], seconds: float = 180.0, returns: bool = True) -> Any:
        """What comes of this once it is true; it has to be within a time. Meanwhile somebody `returns` to the page each
        second, as from another window, at which it looks anew."""
        until, at = time.monotonic() + seconds, time.monotonic() + 0.5
        while not (found := what()):
            if time.monotonic() > until:
                raise AssertionError(f"not within {seconds} s; the page has: {self.text('body')}")
            if returns and time.monotonic() > at:
                self.run("document.dispatchEvent(new Event('visibilitychange'))")
                at = time.monotonic() + 1.0
            time.sleep(0.1)
        return found

    def close(self) -> None:
        os.killpg(self.process.pid, signal.SIGKILL)
        self.process.wait()
