"""Plays recorded answers to a client: a server that has nothing but these."""
from __future__ import annotations

import threading
import urllib.parse
from collections.abc import Mapping
from dataclasses import dataclass, field
from http.server import BaseHTTPRequestHandler, ThreadingHTTPServer

# The members of headers that are of the connection on which they were recorded.
OF_CONNECTION = ("transfer-encoding", "content-encoding", "content-length", "connection")


@dataclass(frozen=True)
class Answer:
    """A recorded answer: from which file it is, to what, and what it was."""
    file: str
    method: str
    path: str
    status: int
    content: str
    headers: Mapping[str, str] = field(default_factory=dict)

    def header(self, name: str) -> str:
        return next((value for it, value in self.headers.items() if it.lower() == name.lower()), "")


def key_of(method: str, target: str) -> tuple[str, str, str]:
    """By what an answer is found: its path, and which page it is. How large the page is doesn't matter."""
    url = urllib.parse.urlsplit(target)
    query = dict(urllib.parse.parse_qsl(url.query))
    return method, urllib.parse.unquote(url.path), query.get("page", "1")


class Replay:
    """Use it by `with`. Of several answers to one question each comes once, and the last one over and over. What isn't
    recorded is an empty list, where `lists` has the end of its path, and else isn't there."""

    def __init__(self, answers: list[Answer], origin: str = "", lists: tuple[str, ...] = ()) -> None:
        self.origin, self.lists = origin, lists
        self.answers: dict[tuple[str, str, str], list[Answer]] = {}
        for it in answers:
            self.answers.setdefault(key_of(it.method, it.path), []).append(it)
        self.asked: list[str] = []
        self.server = ThreadingHTTPServer(("127.0.0.1", 0), handler_of(self))
        self.server.daemon_threads = True
        self.url = f"http://127.0.0.1:{self.server.server_port}"
        self.thread = threading.Thread(target=self.server.serve_forever, kwargs={"poll_interval": 0.01}, daemon=True)

    def __enter__(self) -> Replay:
        self.thread.start()
        return self

    def __exit__(self, *_: object) -> None:
        self.server.shutdown()
        self.server.server_close()
        self.thread.join()

    def answer(self, method: str, target: str) -> Answer:
        self.asked.append(target)
        found = self.answers.get(key_of(method, target))
        if found:
            return found.pop(0) if len(found) > 1 else found[0]
        is_list = method == "GET" and urllib.parse.urlsplit(target).path.endswith(self.lists or ("\0",))
        return Answer("", method, target, 200 if is_list else 404, "[]" if is_list else '{"message":"Not Found"}')

    def headers(self, it: Answer) -> dict[str, str]:
        """The recorded headers. Places at the forge are places here."""
        return {name: value.replace(f"{self.origin}/", f"{self.url}/") if self.origin else value
                for name, value in it.headers.items() if name.lower() not in OF_CONNECTION}


def handler_of(replay: Replay) -> type[BaseHTTPRequestHandler]:
    class Handler(BaseHTTPRequestHandler):
        def answer(self) -> None:
            self.rfile.read(int(self.headers.get("Content-Length") or 0))
            it = replay.answer(self.command, self.path)
            content = it.content.encode() if it.status not in (204, 304) else b""
            self.send_response_only(it.status)
            for name, value in {**replay.headers(it), "Content-Length": str(len(content)),
                                "Connection": "close"}.items():
                self.send_header(name, value)
            self.end_headers()
            self.wfile.write(content)

        do_GET = do_POST = do_PUT = do_PATCH = do_DELETE = answer

        def log_message(self, *_: object) -> None:
            """Says nothing."""

    return Handler
