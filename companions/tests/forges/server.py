"""The HTTP side of a stand-in forge: it asks its form what to answer, unless it is in trouble."""
from __future__ import annotations

import email.utils
import hashlib
import json
import sys
import threading
import time
from http.server import BaseHTTPRequestHandler, ThreadingHTTPServer
from random import Random
from typing import Any

from companions.tests.forges.form import Form, Reply

# By which words GitHub refuses what it can't be asked: a right that a token or its person lacks, too much at a time,
# too many wrong tokens, and a client without a name. The second has a pause, and the third the end of the hour.
FORBIDDEN = {
    "forbid": "Resource not accessible by personal access token",
    "push": "Must have push access to view collaborator permission.",
    "secondary": "You have exceeded a secondary rate limit. Please wait a few minutes before you try again.",
    "abuse": "You have triggered an abuse detection mechanism. Please wait a few minutes before you try again.",
    "used up": "API rate limit exceeded for user ID 100.",
    "logins": "Max number of login attempt exceeded",
    "agent": "Missing or invalid User Agent string. See http://developer.github.com/v3/#user-agent-required"}
HOUR = 3600


class HttpServer(ThreadingHTTPServer):
    daemon_threads = True

    def handle_error(self, request: Any, client_address: Any) -> None:
        """Who asked may be gone by now, as a killed adapter is."""
        if not isinstance(sys.exc_info()[1], ConnectionError):
            super().handle_error(request, client_address)


class Server:
    """`asked` is what came: method and target; `unchanged` questions were answered by that, and all others are
    `counted`. Troubles: `plan` says what goes wrong with the next answers, in order, `fail` (it is 500), `limit` (it is
    429, with the headers `limits`), one of `FORBIDDEN` (it is 403), `cut` (its content is missing) or nothing; `odds`
    is the probability that one is 500, before or after what was asked is done, and `delay` the seconds that each one
    takes. What is asked of the first name of `moved` is referred to the second one. With `is_limited` no more is
    answered once an hour's calls are used up."""

    def __init__(self, form: Form) -> None:
        self.form, self.asked, self.plan = form, list[tuple[str, str]](), list[str]()
        self.delay, self.odds, self.chance = 0.0, 0.0, Random(1)
        self.limits: dict[str, str] = {}
        self.moved: tuple[str, str] | None = None
        self.unchanged, self.counted, self.is_limited = 0, 0, False
        self.began = time.time()
        self.old: Form | None = None
        self.lock = threading.Lock()
        self.server = HttpServer(("127.0.0.1", 0), handler_of(self))
        self.url = f"http://127.0.0.1:{self.server.server_port}"
        self.thread = threading.Thread(target=self.server.serve_forever, kwargs={"poll_interval": 0.01}, daemon=True)

    def start(self) -> None:
        self.thread.start()

    def stop(self) -> None:
        self.server.shutdown()
        self.server.server_close()
        self.thread.join()

    def lag(self) -> None:
        """From now on what is read comes from a copy of what is so now, as if what happens later hadn't come there."""
        self.old = self.form.copy()

    def catch_up(self) -> None:
        """What is read is what is so, again."""
        self.old = None

    def reply(self, method: str, target: str, body: bytes, headers: dict[str, str]) -> tuple[Reply, bool]:
        """The answer, and whether its content comes."""
        with self.lock:
            self.asked.append((method, target))
            trouble = self.plan.pop(0) if self.plan else ""
            before, after = self.chance.random() < self.odds / 2, self.chance.random() < self.odds / 2
        time.sleep(self.delay)
        refused = self.refused(trouble, target)
        if refused is not None:
            return refused, True
        failed = Reply(500, {"message": "Internal Server Error"})
        if trouble == "fail" or before:
            reply = failed
        else:
            form = self.old if self.old is not None and method == "GET" else self.form
            reply = self.tagged(method, form.answer(method, target, body, headers), headers)
        reply = failed if after else reply
        reply.headers = {**self.left(reply.status != 304), **reply.headers}
        return reply, trouble != "cut"

    def refused(self, trouble: str, target: str) -> Reply | None:
        """What somebody hears who isn't answered."""
        if trouble == "limit":
            return Reply(429, {"message": "Too Many Requests"}, dict(self.limits))
        if self.is_limited and self.counted >= self.form.hourly:
            trouble = "used up"
        if trouble in FORBIDDEN:
            none_left = {name: "0" if name.endswith("Remaining") else it for name, it in self.left(False).items()}
            headers = {"abuse": {"Retry-After": "60"}, "agent": {"Content-Type": "application/octet-stream"},
                       "used up": none_left}.get(trouble, {})
            return Reply(403, {"message": FORBIDDEN[trouble]}, headers)
        if self.moved is not None and self.moved[0] in target:
            return Reply(301, {"message": "Moved Permanently"}, {"Location": target.replace(*self.moved)})
        return None

    def left(self, is_counted: bool = True) -> dict[str, str]:
        """What headers say of the calls that are left, of which this is one, unless nothing has changed."""
        if not self.form.limits_name:
            return {}
        with self.lock:
            self.counted += is_counted
            left = max(0 if self.is_limited else 1, self.form.hourly - self.counted)
        values = {"Limit": self.form.hourly, "Remaining": left, "Reset": int(self.began) + HOUR, "Used": self.counted}
        return {f"{self.form.limits_name}-{name}": str(value) for name, value in values.items()}

    def tagged(self, method: str, reply: Reply, headers: dict[str, str]) -> Reply:
        """The answer with its tag, or that it is the one of which the tag was sent."""
        if not self.form.has_tags or method != "GET" or reply.status != 200:
            return reply
        content = json.dumps(reply.said) + str(reply.headers)
        tag = f'W/"{hashlib.sha256(content.encode()).hexdigest()}"'
        if headers.get("If-None-Match") == tag:
            self.unchanged += 1
            return Reply(304, None, {"ETag": tag})
        return Reply(reply.status, reply.said, {**reply.headers, "ETag": tag})


def handler_of(server: Server) -> type[BaseHTTPRequestHandler]:
    class Handler(BaseHTTPRequestHandler):
        def answer(self) -> None:
            body = self.rfile.read(int(self.headers.get("Content-Length") or 0))
            headers = {name.title(): value for name, value in self.headers.items()}
            reply, is_whole = server.reply(self.command, self.path, body, headers)
            content = json.dumps(reply.said).encode() if reply.status not in (204, 304) else b""
            kind = {"Content-Type": server.form.content_type} if content else {}
            self.send_response(reply.status)
            for name, value in {**kind, **reply.headers, "Connection": "close",
                                "Content-Length": str(len(content))}.items():
                self.send_header(name, value)
            self.end_headers()
            self.wfile.write(content if is_whole else b"")

        do_GET = do_POST = do_PUT = do_PATCH = do_DELETE = answer

        def date_time_string(self, timestamp: float | None = None) -> str:
            """The forge's time, which its header `Date` says."""
            return email.utils.format_datetime(server.form.model.now, usegmt=True)

        def log_message(self, *_: object) -> None:
            """Says nothing."""

    return Handler
