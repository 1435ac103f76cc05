"""Beats: what workers say while they run, so that the watch needn't wait for a job's limit where one has died.

A build whose worker was heard and is silent is lost. Where all are silent at once, it is the watch or what leads to it,
and nothing follows. What was heard is in memory alone: a watch that begins has heard nobody. Whoever has a worker's
password can say what he likes of any build, so a beat only ever does what an outcome of his could do too, or less.
docs/CONNECTING.md ("Beats") has their form.
"""
from __future__ import annotations

import json
import re
import threading
import uuid
from collections.abc import Callable, Mapping
from dataclasses import dataclass
from typing import Any, TypeVar

NAME = re.compile(r"[A-Za-z0-9][A-Za-z0-9._-]{0,63}")
# Where beats come in.
PATH = "/beat"
# The members of a beat, the most bytes that one has, the largest number of a build, and the longest time to the next.
MEMBERS = {"worker", "take", "build", "every", "held"}
LARGEST, HIGHEST, RAREST = 1024, 10 ** 15, 3600.0
# So many workers are remembered by their names: nobody knows which of them there are.
MOST = 1000


@dataclass(frozen=True)
class Beat:
    """A worker, which says when it beats again at the latest, and its build with the take that it was given for. One
    that is `held` waits for somebody to mend the settings. A worker without a build is there too."""
    worker: str
    every: float
    take: str | None = None
    build: int | None = None
    held: bool = False

    def text(self) -> bytes:
        said: dict[str, Any] = {"worker": self.worker, "every": self.every}
        if self.build is not None:
            said |= {"take": self.take, "build": self.build, "held": self.held}
        return json.dumps(said).encode()


def beat_of(text: bytes) -> Beat:
    """The beat that somebody has sent, or `ValueError` with what is wrong."""
    try:
        said = json.loads(text)
    except (ValueError, RecursionError):
        said = None
    if not isinstance(said, dict) or not said.keys() <= MEMBERS:
        raise ValueError("a beat is a JSON object of worker, every, take, build and held")
    worker, every, take, build, held = (said.get(it) for it in ("worker", "every", "take", "build", "held"))
    if not isinstance(worker, str) or not NAME.fullmatch(worker):
        raise ValueError("worker isn't a name of at most 64 letters, digits and . _ -")
    if not isinstance(every, (int, float)) or isinstance(every, bool) or not 0 < every <= RAREST:
        raise ValueError(f"every isn't a number of seconds up to {RAREST:g}")
    if (take is None) != (build is None) or held is not None and build is None:
        raise ValueError("take and build come together, and held with them")
    if build is not None and (type(build) is not int or not 0 < build <= HIGHEST):
        raise ValueError("build isn't the number of a build")
    if held is not None and type(held) is not bool:
        raise ValueError("held isn't true or false")
    return Beat(worker, float(every), None if take is None else take_of(take), build, bool(held))


def take_of(take: object) -> str:
    try:
        return str(uuid.UUID(take if isinstance(take, str) else ""))
    except ValueError:
        raise ValueError("take isn't a UUID") from None


@dataclass(frozen=True)
class Voice:
    """What was last heard of a build, and when."""
    beat: Beat
    at: float


K = TypeVar("K")
T = TypeVar("T")


def put_last(known: dict[K, T], key: K, value: T) -> None:
    """Puts an entry at the end, and drops the first one where there are too many."""
    if key in known:
        del known[key]
    known[key] = value
    if len(known) > MOST:
        known.pop(next(iter(known)))


class Heard:
    """What a watch has heard, by a clock that nobody sets; `silent` is how long a worker may be silent at least.

    Of each build that runs there is one voice, and of workers the newest names: no memory grows with what is sent. So
    it is with `early`, beats of builds of which the watch doesn't know yet that they run.
    """

    def __init__(self, silent: float, clock: Callable[[], float]) -> None:
        self.silent, self.clock, self.lock = silent, clock, threading.Lock()
        self.running: dict[int, str] = {}
        self.voices: dict[int, Voice] = {}
        self.early: dict[int, Voice] = {}
        self.workers: dict[str, float] = {}
        # When somebody was last heard, and since when there has been no gap in what was.
        self.last: float | None = None
        self.since = float("-inf")

    def take(self, beat: Beat) -> None:
        """Hears a beat. One of a build that doesn't run, or not yet, says only that its worker is there."""
        with self.lock:
            now = self.clock()
            if self.last is not None and now - self.last > self.gap():
                self.since = now
            self.last = now
            put_last(self.workers, beat.worker, now + self.patience(beat))
            if beat.build in self.running:
                self.voices[beat.build] = Voice(beat, now)
            elif beat.build is not None:
                put_last(self.early, beat.build, Voice(beat, now))

    def know(self, running: Mapping[int, str]) -> None:
        """Which builds run, each with what tells it from another one of its number."""
        with self.lock:
            now = self.clock()
            kept = {it: voice for it, voice in self.voices.items() if running.get(it) == self.running[it]}
            early = {it: voice for it, voice in self.early.items() if now - voice.at <= self.silent}
            self.voices = {**{it: voice for it, voice in early.items() if it in running}, **kept}
            self.early = {it: voice for it, voice in early.items() if it not in running}
            self.running = dict(running)

    def patience(self, beat: Beat) -> float:
        """How long a worker may be silent: at least three of its beats."""
        return max(self.silent, 3 * beat.every)

    def gap(self) -> float:
        """How long nobody may be heard until all have been silent: half of what one may be. Who is heard later than
        that says nothing of the others, which may be about to be heard too."""
        return min((self.patience(it.beat) for it in self.voices.values()), default=self.silent) / 2

    def silence_of(self, build: int) -> tuple[str, float] | None:
        """The worker of a build that was heard and is silent, and for how long; none while others aren't heard."""
        with self.lock:
            now, voice = self.clock(), self.voices.get(build)
            if voice is None or self.last is None or now - self.last > self.gap():
                return None
            silence = now - max(voice.at, self.since)
            return (voice.beat.worker, silence) if silence > self.patience(voice.beat) else None

    def is_held(self, build: int) -> bool:
        """Whether the worker of a build holds it, by its last beat, and hasn't been silent since."""
        with self.lock:
            voice = self.voices.get(build)
            return voice is not None and voice.beat.held and self.clock() - voice.at <= self.patience(voice.beat)

    def deaf_for(self) -> float | None:
        """For how long nobody has been heard, where builds run whose workers were, and all of them are silent."""
        with self.lock:
            if self.last is None or not self.voices:
                return None
            silence = self.clock() - self.last
            return silence if silence > min(self.patience(it.beat) for it in self.voices.values()) else None

    def count(self) -> int:
        """How many workers are heard by now."""
        with self.lock:
            now = self.clock()
            return sum(until >= now for until in self.workers.values())
