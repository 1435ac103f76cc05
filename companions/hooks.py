"""Where a forge's hooks come in. A hook is a place to look at, and nothing else of it is believed."""
from __future__ import annotations

import contextlib
import http.server
import socket
import tempfile
import threading
import time
from collections.abc import Callable, Mapping
from pathlib import Path
from typing import IO, Any, BinaryIO

from companions.api import LARGEST
from companions.forges import Forge, Headers, Place, Seal
from companions.gate import say
from companions.outbox import Notes
from companions.tables import add

# A place that is noted again is looked at again: whoever has looked at it takes away the row that he has seen.
TABLES = """
CREATE TABLE IF NOT EXISTS hint(row INTEGER PRIMARY KEY AUTOINCREMENT, repository TEXT, request INTEGER,
    is_hook INTEGER DEFAULT 1, UNIQUE(repository, request));
"""

# The path of hooks, and the seconds that a connection may take, from its first byte to its last one.
PATH = "/hook"
PATIENCE = 30.0
# The seconds between two lines about hooks that weren't taken.
MINUTE = 60.0
# So many connections are there at once, and so many of them may have a body of more than so many bytes.
MOST, MOST_LARGE, LARGE = 200, 4, 64 * 1024


class Hints:
    """The places to look at, in the adapter's file. Each thread that writes them has a connection of its own."""

    def __init__(self, file: Path) -> None:
        self.tables = Notes(file).tables
        add(self.tables, TABLES)
        self.lock = threading.Lock()

    def put(self, place: Place, is_hook: bool = True) -> None:
        """Notes a place. That of a hook stays one when a comparison notes it too."""
        at = place.repository, place.number
        with self.lock:
            self.tables.execute("INSERT OR REPLACE INTO hint(repository, request, is_hook) VALUES (?, ?, ? OR EXISTS"
                                " (SELECT 1 FROM hint WHERE repository = ? AND request = ? AND is_hook))",
                                (*at, is_hook, *at))

    def all(self, behind: int = 0) -> list[tuple[int, Place]]:
        """The places of the rows behind one, each with its row: those of hooks first, and of these and of the others
        those that were noted first."""
        with self.lock:
            rows = self.tables.execute("SELECT row, repository, request FROM hint WHERE row > ?"
                                       " ORDER BY NOT is_hook, row", (behind,)).fetchall()
        return [(row, Place(repository, request)) for row, repository, request in rows]

    def drop(self, row: int) -> bool:
        """Takes a row away, and says whether it was a hook's."""
        with self.lock:
            found = self.tables.execute("SELECT is_hook FROM hint WHERE row = ?", (row,)).fetchone()
            self.tables.execute("DELETE FROM hint WHERE row = ?", (row,))
        return found is not None and bool(found[0])


class NotTaken:
    """Lines about hooks that weren't taken: the first at once, and then one a minute that counts them. Anybody may send
    hooks, and nobody's journal is to be filled by them."""

    def __init__(self, clock: Callable[[], float] = time.monotonic, part: str = "adapter") -> None:
        self.clock, self.part, self.lock = clock, part, threading.Lock()
        self.count, self.last, self.due = 0, "", float("-inf")

    def add(self, what: str) -> None:
        with self.lock:
            self.count, self.last = self.count + 1, what
        self.tell()

    def tell(self) -> None:
        """Says what wasn't said yet, if it is time."""
        with self.lock:
            if self.count == 0 or self.clock() < self.due:
                return
            others = f"; {self.count - 1} others weren't taken since the last such line" if self.count > 1 else ""
            said, self.count, self.due = self.last + others, 0, self.clock() + MINUTE
        say(self.part, said)


class Server(http.server.ThreadingHTTPServer):
    """A server that gives a connection so many seconds."""
    patience: float


class Connection(http.server.BaseHTTPRequestHandler):
    """One connection, for one request."""
    server: Server
    timeout = PATIENCE

    def setup(self) -> None:
        """A connection that takes too long is ended, however it spends its time."""
        super().setup()
        self.timer = threading.Timer(self.server.patience, self.hang_up)
        self.timer.daemon = True
        self.timer.start()

    def hang_up(self) -> None:
        with contextlib.suppress(OSError):
            self.connection.shutdown(socket.SHUT_RDWR)

    def finish(self) -> None:
        self.timer.cancel()
        super().finish()

    def answer(self, status: int, said: str) -> None:
        """Answers, and ends the connection: bytes that weren't read would be taken for the next request."""
        content = (said + "\n").encode()
        self.close_connection = True
        self.send_response(status)
        self.send_header("Content-Type", "text/plain; charset=utf-8")
        self.send_header("Content-Length", str(len(content)))
        self.send_header("Connection", "close")
        self.end_headers()
        self.wfile.write(content)

    def log_message(self, *_: object) -> None:
        """What is worth a line is said by `Hooks`."""


class Handler(Connection):
    """One connection, for one hook."""
    server: Hooks

    def do_POST(self) -> None:
        if self.path.partition("?")[0] != PATH:
            return self.answer(404, "hooks come to " + PATH)
        length = ",".join(self.headers.get_all("Content-Length", []))
        if not (length.isascii() and length.isdigit()) or "Transfer-Encoding" in self.headers:
            return self.answer(411, "a hook has a Content-Length")
        if len(length) > 9 or int(length) > LARGEST:
            return self.answer(413, f"a hook has at most {LARGEST} bytes")
        if int(length) > LARGE:
            return self.answer(*self.server.take_large(self.headers, self.rfile, int(length)))
        body = self.rfile.read(int(length))
        if len(body) < int(length):
            return self.answer(400, "the hook was cut")
        return self.answer(*self.server.take(self.headers, body))

    def do_GET(self) -> None:
        self.answer(404, "hooks are posted to " + PATH)


class Hooks(Server):
    """The server. `names` has the gated repositories' names, each by itself in small letters: a forge may write it in
    others. `came` is set once a place was noted. Large bodies come to files in `folder`, until they are found to be
    signed: anybody may send some."""
    daemon_threads = True
    patience = PATIENCE

    def __init__(self, address: tuple[str, int], hints: Hints, forge: Forge, names: Mapping[str, str],
                 came: threading.Event, folder: Path | None = None) -> None:
        self.folder = folder
        self.hints, self.forge, self.names, self.came = hints, forge, names, came
        self.not_taken = NotTaken()
        self.places, self.large = threading.BoundedSemaphore(MOST), threading.BoundedSemaphore(MOST_LARGE)
        super().__init__(address, Handler)

    def process_request(self, request: Any, client_address: Any) -> None:
        """One more connection than there may be is ended at once: its hook is found by the next comparison."""
        if self.places.acquire(blocking=False):
            super().process_request(request, client_address)
        else:
            self.shutdown_request(request)

    def process_request_thread(self, request: Any, client_address: Any) -> None:
        try:
            super().process_request_thread(request, client_address)
        finally:
            self.places.release()

    def take_large(self, headers: Headers, incoming: BinaryIO, length: int) -> tuple[int, str]:
        """The answer to a hook whose body is large, and perhaps an enemy's: read once it is found to be signed."""
        try:
            seal = self.forge.seal_of(headers)
        except PermissionError as fault:
            return self.refused(fault)
        if not self.large.acquire(timeout=self.patience):
            return 503, "too many large hooks come in"
        try:
            with tempfile.TemporaryFile(dir=self.folder) as file:
                left = length
                while left and (part := incoming.read(min(left, LARGE))):
                    seal.add(part)
                    file.write(part)
                    left -= len(part)
                return self.take_file(headers, file, seal) if not left else (400, "the hook was cut")
        except OSError as fault:
            self.not_taken.add(f"a hook can't be kept: {fault}")
            return 500, "this hook can't be kept"
        finally:
            self.large.release()

    def take_file(self, headers: Headers, file: IO[bytes], seal: Seal) -> tuple[int, str]:
        """The answer to a hook whose body is in a file."""
        try:
            seal.check()
        except PermissionError as fault:
            return self.refused(fault)
        file.seek(0)
        return self.take(headers, file.read())

    def refused(self, fault: PermissionError) -> tuple[int, str]:
        self.not_taken.add(f"a hook was refused: {fault}")
        return 403, str(fault)

    def take(self, headers: Headers, body: bytes) -> tuple[int, str]:
        """The answer to a hook, given once its place is on disk: a forge that got 200 sends it never again."""
        try:
            place = self.forge.place_of(headers, body)
        except PermissionError as fault:
            return self.refused(fault)
        except Exception as fault:  # pylint: disable=broad-except
            self.not_taken.add(f"a hook can't be read: {type(fault).__name__}: {fault}")
            return 500, "this hook can't be read"
        if place is None:
            return 200, "this hook is about no request"
        repository = self.names.get(place.repository.casefold())
        if repository is None:
            return 200, "this repository isn't gated"
        self.hints.put(Place(repository, place.number))
        self.came.set()
        return 200, "noted"

    def service_actions(self) -> None:
        """Now and then: those behind the last line are told too, also where no other comes."""
        self.not_taken.tell()

    def handle_error(self, request: object, client_address: object) -> None:
        """A connection that broke: the forge sends its hook again, or the next comparison finds what it was about."""


def serve(hooks: Hooks) -> Callable[[], None]:
    """Serves hooks beside whatever else is done; what is given back ends that."""
    thread = threading.Thread(target=hooks.serve_forever, kwargs={"poll_interval": 0.1}, daemon=True)
    thread.start()

    def end() -> None:
        hooks.shutdown()
        hooks.server_close()
        thread.join()

    return end
