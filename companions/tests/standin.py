"""A server that stands in for a gate, or for the proxy before it: a function says what it answers."""
from __future__ import annotations

import json
import threading
from collections.abc import Callable
from http.server import BaseHTTPRequestHandler, ThreadingHTTPServer
from typing import Any

# (method, path, body) to (status, body). A body that is neither bytes nor text is sent as JSON. In the place of both
# none breaks the connection without an answer.
Answers = Callable[[str, str, bytes], tuple[int, Any] | None]


class StandIn:
    """Use it by `with`; `url` is its address, `asked` what came, in order, and `answers` may be put in its place. Each
    answer has the fields `more` in its head."""

    def __init__(self, answers: Answers) -> None:
        self.answers = answers
        self.asked: list[tuple[str, str, bytes]] = []
        self.heads: list[dict[str, str]] = []
        self.more: dict[str, str] = {}
        self.lock = threading.Lock()
        self.server = ThreadingHTTPServer(("127.0.0.1", 0), handler_of(self))
        self.server.daemon_threads = True
        self.url = f"http://127.0.0.1:{self.server.server_port}"
        self.thread = threading.Thread(target=self.server.serve_forever, kwargs={"poll_interval": 0.01}, daemon=True)

    def __enter__(self) -> StandIn:
        self.thread.start()
        return self

    def __exit__(self, *_: object) -> None:
        self.server.shutdown()
        self.server.server_close()
        self.thread.join()

    def deliveries(self) -> list[dict[str, Any]]:
        """What was posted, in order."""
        return [json.loads(body) for method, _, body in self.asked if method == "POST"]


def handler_of(standin: StandIn) -> type[BaseHTTPRequestHandler]:
    class Handler(BaseHTTPRequestHandler):
        def answer(self) -> None:
            body = self.rfile.read(int(self.headers.get("Content-Length") or 0))
            with standin.lock:
                standin.asked.append((self.command, self.path, body))
                standin.heads.append(dict(self.headers))
                answer = standin.answers(self.command, self.path, body)
            if answer is None:
                self.close_connection = True
                return
            status, said = answer
            text = said if isinstance(said, (bytes, str)) else json.dumps(said)
            content = text if isinstance(text, bytes) else text.encode()
            self.send_response(status)
            self.send_header("Content-Length", str(len(content)))
            self.send_header("Connection", "close")
            for name, value in standin.more.items():
                self.send_header(name, value)
            self.end_headers()
            self.wfile.write(content)

        do_GET = do_POST = answer

        def log_message(self, *_: object) -> None:
            """Says nothing."""

    return Handler
