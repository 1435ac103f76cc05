"""A worker's beats: it says again and again that it is there, and which builds it has. docs/CONNECTING.md has the form.

They go to the watch by the gate's address, beside all else that a worker does, and hold none of it up. Where nobody
hears them, as without a proxy, nothing follows.
"""
from __future__ import annotations

import contextlib
import threading
from collections.abc import Iterator

from companions.beats import PATH, RAREST, Beat
from companions.gate import Gate, NoAnswer
from companions.settings import Settings

# How long an answer is waited for at most, in seconds.
PATIENCE = 10.0


class Beating:
    """Beats of one worker, by a thread of its own once it is started."""

    def __init__(self, settings: Settings, name: str) -> None:
        self.name, self.every = name, min(settings.look, RAREST)
        self.gate = Gate(settings.url, settings.account("worker"), min(self.every, PATIENCE), part=f"worker {name}")
        self.lock, self.news, self.is_ended = threading.Lock(), threading.Event(), False
        self.builds: dict[str, Beat] = {}

    def start(self) -> None:
        threading.Thread(target=self.run, daemon=True).start()

    def run(self) -> None:
        while not self.is_ended:
            # What is begun or held meanwhile is said at once.
            self.news.clear()
            self.beat()
            self.news.wait(self.every)

    def beat(self) -> None:
        """Says once what there is to say. What isn't heard is said again, and the rest with it."""
        with self.lock:
            beats = list(self.builds.values()) or [Beat(self.name, self.every)]
        with contextlib.suppress(NoAnswer):
            for it in beats:
                self.gate.request("POST", PATH, it.text())

    def put(self, take: str, build: int, held: bool = False) -> None:
        """A build is there, or its worker holds it from now on, or no longer."""
        beat = Beat(self.name, self.every, take, build, held)
        with self.lock:
            if self.builds.get(take) == beat:
                return
            self.builds[take] = beat
        self.news.set()

    def drop(self, take: str) -> None:
        """A build has ended."""
        with self.lock:
            self.builds.pop(take, None)

    @contextlib.contextmanager
    def having(self, take: str, build: int) -> Iterator[None]:
        self.put(take, build)
        try:
            yield
        finally:
            self.drop(take)

    def end(self) -> None:
        self.is_ended = True
        self.news.set()
