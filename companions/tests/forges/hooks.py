"""The hooks of a stand-in forge: they wait to be sent, and come doubled, swapped, late or never, as a test says."""
from __future__ import annotations

import http.client
import threading
import urllib.parse
from dataclasses import dataclass, replace
from random import Random

from companions.forges import Place


# What the headers end with that have a signature, or the secret.
SECRET = ("Signature", "Signature-256", "Token")


@dataclass(frozen=True)
class Hook:
    """A hook: of what, of which request, and what is posted."""
    what: str
    place: Place
    headers: dict[str, str]
    body: bytes


class Hooks:
    """`waiting` are those to be sent, in order, `held` those held back, and `sent` those sent, each with the status of
    the answer, or none where nobody answered: such a hook is lost, as most forges don't send it again."""

    def __init__(self, url: str, timeout: float = 10.0) -> None:
        self.url, self.timeout = url, timeout
        self.waiting: list[Hook] = []
        self.held: list[Hook] = []
        self.sent: list[tuple[Hook, int | None]] = []
        self.lock = threading.RLock()
        self.ending = threading.Event()
        self.thread: threading.Thread | None = None

    def add(self, hook: Hook | None) -> None:
        with self.lock:
            self.waiting += [hook] if hook else []

    def double(self, at: int = -1) -> None:
        """One is sent twice."""
        with self.lock:
            self.waiting.insert(at % len(self.waiting), self.waiting[at])

    def swap(self, at: int = -1) -> None:
        """One is sent before the one that it follows."""
        with self.lock:
            at %= len(self.waiting)
            if at > 0:
                self.waiting[at - 1:at + 1] = [self.waiting[at], self.waiting[at - 1]]

    def hold(self, at: int = -1) -> None:
        """One isn't sent until all held ones are released."""
        with self.lock:
            self.held.append(self.waiting.pop(at))

    def drop(self, at: int = -1) -> Hook:
        """One is never sent."""
        with self.lock:
            return self.waiting.pop(at)

    def release(self) -> None:
        """What was held back is sent now."""
        with self.lock:
            self.waiting, self.held = self.waiting + self.held, []

    def forge(self, at: int = -1) -> Hook:
        """One of an enemy is sent too: it says what another one says, but the enemy doesn't know the secret."""
        with self.lock:
            headers = dict(self.waiting[at].headers)
            for name in [it for it in headers if it.endswith(SECRET)]:
                headers[name] = "sha256=" + "0" * 64 if name.endswith("-256") else "0" * 64
            forged = replace(self.waiting[at], what="forged", headers=headers)
            self.waiting.append(forged)
            return forged

    def disturb(self, chance: Random) -> None:
        """Some of those that wait are doubled, swapped, held back, lost or forged; and held ones may come back."""
        with self.lock:
            if chance.random() < 0.3:
                self.release()
            for at in reversed(range(len(self.waiting))):
                doing = chance.choice((self.double, self.swap, self.hold, self.drop, self.forge, *[None] * 4))
                if doing is not None:
                    doing(at)

    def send_all(self) -> None:
        while True:
            with self.lock:
                if not self.waiting:
                    return
                hook = self.waiting.pop(0)
            status = self.send(hook)
            with self.lock:
                self.sent.append((hook, status))

    def send(self, hook: Hook) -> int | None:
        """The status of the answer, or none where nobody answers."""
        url = urllib.parse.urlsplit(self.url)
        connection = http.client.HTTPConnection(url.hostname or "", url.port, timeout=self.timeout)
        try:
            connection.request("POST", url.path or "/", hook.body, hook.headers)
            return connection.getresponse().status
        except (OSError, http.client.HTTPException):
            return None
        finally:
            connection.close()

    def start(self, pause: float, chance: Random | None = None) -> None:
        """From now on all are sent every `pause` seconds, disturbed by chance if there is one."""
        def stay() -> None:
            while not self.ending.wait(pause):
                if chance is not None:
                    self.disturb(chance)
                self.send_all()
        self.ending.clear()
        self.thread = threading.Thread(target=stay, daemon=True)
        self.thread.start()

    def stop(self) -> None:
        self.ending.set()
        if self.thread is not None:
            self.thread.join()
            self.thread = None
