"""Where the beats of workers come in, behind the proxy, which knows who is a worker."""
from __future__ import annotations

import threading
from collections.abc import Callable
from typing import Any

from companions.beats import LARGEST, PATH, Heard, beat_of
from companions.hooks import Connection, Server

# The seconds that a connection may take in all, and how many there are at once.
PATIENCE, MOST = 5.0, 64


class Handler(Connection):
    """One connection, for one beat."""
    server: Door
    timeout = PATIENCE

    def do_POST(self) -> None:
        length = ",".join(self.headers.get_all("Content-Length", []))
        if self.path != PATH:
            self.answer(404, f"beats come to {PATH}")
        elif not (length.isascii() and length.isdigit()) or "Transfer-Encoding" in self.headers:
            self.answer(411, "a beat has a Content-Length")
        elif len(length) > 9 or int(length) > LARGEST:
            self.answer(413, f"a beat has at most {LARGEST} bytes")
        else:
            self.hear(self.rfile.read(int(length)))

    def hear(self, text: bytes) -> None:
        try:
            beat = beat_of(text)
        except ValueError as fault:
            return self.answer(400, str(fault))
        self.server.heard.take(beat)
        return self.answer(200, "heard")

    def do_GET(self) -> None:
        self.answer(404, f"beats are posted to {PATH}")


class Door(Server):
    """The server. One more connection than there may be is ended at once: its worker beats again."""
    daemon_threads = True
    patience = PATIENCE

    def __init__(self, address: tuple[str, int], heard: Heard) -> None:
        self.heard, self.places = heard, threading.BoundedSemaphore(MOST)
        super().__init__(address, Handler)

    def process_request(self, request: Any, client_address: Any) -> None:
        if self.places.acquire(blocking=False):
            super().process_request(request, client_address)
        else:
            self.shutdown_request(request)

    def process_request_thread(self, request: Any, client_address: Any) -> None:
        try:
            super().process_request_thread(request, client_address)
        finally:
            self.places.release()

    def handle_error(self, request: object, client_address: object) -> None:
        """A connection that broke: its worker beats again."""


def serve(door: Door) -> Callable[[], None]:
    """Hears beats beside whatever else is done; what is given back ends that."""
    thread = threading.Thread(target=door.serve_forever, kwargs={"poll_interval": 0.1}, daemon=True)
    thread.start()

    def end() -> None:
        door.shutdown()
        door.server_close()
        thread.join()

    return end
