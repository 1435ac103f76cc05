"""Where hooks come in: what is noted of them, and how each is answered."""
from __future__ import annotations

import contextlib
import http.client
import json
import socket
import threading
import time
import tracemalloc

from companions.api import LARGEST
from companions.forges import Place
from companions.github import GitHub
from companions.hooks import LARGE, MOST_LARGE, Hooks, serve
from companions.tests.adapter_case import Case


class Incoming(Case):
    def setUp(self) -> None:
        super().setUp()
        self.came = threading.Event()
        self.hooks = Hooks(("127.0.0.1", 0), self.adapter.hints, self.forge, {"acme/lib": "acme/lib"}, self.came)
        self.addCleanup(serve(self.hooks))

    def post(self, body: bytes, path: str = "/hook", method: str = "POST", **headers: str) -> int:
        connection = http.client.HTTPConnection("127.0.0.1", self.hooks.server_port, timeout=5)
        self.addCleanup(connection.close)
        connection.putrequest(method, path)
        for name, value in {"Content_Length": str(len(body)), "Secret": "secret", **headers}.items():
            if value:
                connection.putheader(name.replace("_", "-"), value)
        connection.endheaders(body)
        return connection.getresponse().status

    def places(self) -> list[Place]:
        return [place for _, place in self.adapter.hints.all()]

    def test_a_hook_s_place_is_on_disk_when_it_is_answered(self) -> None:
        self.assertEqual(self.post(b'["acme/lib", 12]'), 200)
        self.assertEqual((self.places(), self.came.is_set()), ([Place("acme/lib", 12)], True))
        self.be(12, 0)
        self.assertEqual(self.look(Place("acme/lib", 12)), ["revision 1 1"])
        self.assertEqual(self.places(), [])

    def test_a_repository_s_name_may_be_written_in_other_letters(self) -> None:
        self.assertEqual(self.post(b'["Acme/LIB", 12]'), 200)
        self.assertEqual(self.places(), [Place("acme/lib", 12)])

    def test_a_hook_that_is_not_signed_is_refused_and_not_read(self) -> None:
        for body in (b'["acme/lib", 12]', b"no json"):
            self.assertEqual(self.post(body, Secret="wrong"), 403)
        self.assertEqual(self.places(), [])

    def test_hooks_that_are_refused_fill_no_journal(self) -> None:
        """A line for the first, and one a minute for those behind it."""
        now = 1000.0
        self.hooks.not_taken.clock = lambda: now
        before = len(self.lines())
        for _ in range(30):
            self.assertEqual(self.post(b"null", Secret="wrong"), 403)
        self.assertEqual(self.post(b"no json"), 500)
        said = self.lines()[before:]
        self.assertEqual(len(said), 1)
        self.assertRegex(said[0], "^adapter: a hook was refused: [^;]*$")
        now += 59.9
        self.hooks.service_actions()
        self.assertEqual(len(self.lines()), before + 1)
        now += 0.1
        self.hooks.service_actions()
        self.assertEqual(len(self.lines()), before + 2)
        self.assertRegex(self.lines()[-1], "^adapter: a hook can't be read: JSONDecodeError: .*"
                                           "; 29 others weren't taken since the last such line$")
        now += 1000.0
        self.hooks.service_actions()
        self.assertEqual(len(self.lines()), before + 2)

    def test_other_hooks_are_taken_and_nothing_follows(self) -> None:
        self.assertEqual([self.post(it) for it in (b"null", b'["acme/web", 12]')], [200, 200])
        self.assertEqual((self.places(), self.came.is_set()), ([], False))

    def test_a_hook_that_cannot_be_read_is_answered(self) -> None:
        self.assertEqual(self.post(b"no json"), 500)
        self.assertIn("adapter: a hook can't be read: JSONDecodeError", self.lines()[-1])

    def test_what_is_no_hook_is_refused_unread(self) -> None:
        for status, path, method, length in ((404, "/", "POST", "2"), (404, "/hooks", "POST", "2"),
                                             (404, "/hook", "GET", ""), (411, "/hook", "POST", ""),
                                             (411, "/hook", "POST", "-1"), (411, "/hook", "POST", "x"),
                                             (413, "/hook", "POST", str(LARGEST + 1)),
                                             (413, "/hook", "POST", "9" * 99)):
            with self.subTest(path=path, length=length):
                self.assertEqual(self.post(b"", path, method, Content_Length=length), status)

    def test_a_hook_s_place_is_before_those_of_comparisons_and_stays_there(self) -> None:
        for number, is_hook in ((11, False), (12, False), (13, True), (14, True), (12, True), (13, False)):
            self.adapter.hints.put(Place("acme/lib", number), is_hook)
        self.assertEqual([it.number for it in self.places()], [14, 12, 13, 11])

    def test_a_connection_that_takes_too_long_is_ended(self) -> None:
        self.hooks.patience = 0.5
        for sent in (b"", b"POST /hook HTTP/1.1\r\n", b"POST /hook HTTP/1.1\r\nContent-Length: 9\r\n\r\n"):
            with self.subTest(sent), socket.create_connection(("127.0.0.1", self.hooks.server_port)) as trickle:
                trickle.sendall(sent)
                trickle.settimeout(20)
                began = time.monotonic()
                with contextlib.suppress(OSError):
                    while trickle.send(b"1") and time.monotonic() < began + 20:
                        time.sleep(0.05)
                self.assertLess(time.monotonic() - began, 10)
        self.assertEqual(self.post(b'["acme/lib", 12]'), 200)

    def test_large_bodies_are_read_a_few_at_a_time_and_hold_up_no_small_one(self) -> None:
        large, head = b"x" * (LARGE + 1), "POST /hook HTTP/1.1\r\nSecret: secret\r\nContent-Length: {}\r\n\r\n"
        waiting = [socket.create_connection(("127.0.0.1", self.hooks.server_port)) for _ in range(MOST_LARGE)]
        for it in waiting:
            self.addCleanup(it.close)
            it.sendall(head.format(len(large)).encode())
        while self.hooks.large.acquire(blocking=False):
            self.hooks.large.release()
            time.sleep(0.01)
        self.assertEqual(self.post(b'["acme/lib", 12]'), 200)
        late = threading.Thread(target=lambda: answers.append(self.post(large)))
        answers: list[int] = []
        late.start()
        late.join(0.3)
        self.assertEqual(answers, [])
        waiting[0].sendall(large)
        late.join(20)
        self.assertEqual(answers, [500], "no JSON")

    def test_a_large_hook_that_is_signed_is_taken(self) -> None:
        self.assertEqual(self.post(b'["acme/lib", 12]' + b" " * LARGE), 200)
        self.assertEqual(self.places(), [Place("acme/lib", 12)])
        self.assertEqual(self.hooks.large._value, MOST_LARGE)  # pylint: disable=protected-access

    def test_a_large_hook_whose_headers_say_that_it_is_not_signed_is_not_read(self) -> None:
        with socket.create_connection(("127.0.0.1", self.hooks.server_port), timeout=20) as unread:
            unread.sendall(f"POST /hook HTTP/1.1\r\nSecret: wrong\r\nContent-Length: {LARGEST}\r\n\r\n".encode())
            self.assertIn(b" 403 ", unread.recv(100))

    def test_large_hooks_that_are_not_signed_take_no_memory(self) -> None:
        """A hundred of 8 MiB, ten at a time, of which each tenth one comes whole."""
        self.hooks.forge, self.hooks.patience = GitHub("http://localhost", "token", "secret"), 600.0
        part, head = b"x" * 65536, f"POST /hook HTTP/1.1\r\nContent-Length: {LARGEST}\r\n\r\n".encode()

        def send() -> None:
            for parts in (LARGEST // len(part), *[2] * 9):
                with socket.create_connection(("127.0.0.1", self.hooks.server_port), timeout=600) as it:
                    it.sendall(head)
                    for _ in range(parts):
                        it.sendall(part)
                    it.shutdown(socket.SHUT_WR)
                    answers.append(it.recv(100))

        answers: list[bytes] = []
        threads = [threading.Thread(target=send) for _ in range(10)]
        tracemalloc.start()
        self.addCleanup(tracemalloc.stop)
        for it in threads:
            it.start()
        for it in threads:
            it.join()
        self.assertEqual([sum(status in it for it in answers) for status in (b" 403 ", b" 400 ")], [10, 90])
        self.assertLess(tracemalloc.get_traced_memory()[1], LARGEST // 2)

    def test_a_hook_that_cannot_be_kept_is_answered(self) -> None:
        """Those of more than 64 KiB are kept in a file."""
        self.hooks.folder = self.folder / "nowhere"
        said = b'["acme/lib", 12]'
        self.assertEqual([self.post(said.ljust(it)) for it in (65536, 65537)], [200, 500])
        self.assertIn("adapter: a hook can't be kept: ", self.lines()[-1])

    def test_there_are_so_many_connections_at_once(self) -> None:
        self.hooks.places = threading.BoundedSemaphore(1)
        with socket.create_connection(("127.0.0.1", self.hooks.server_port)) as first:
            first.sendall(b"POST")
            while self.hooks.places.acquire(blocking=False):
                self.hooks.places.release()
                time.sleep(0.01)
            with self.assertRaises((OSError, http.client.HTTPException)):
                self.post(b'["acme/lib", 12]')
        while not self.hooks.places.acquire(blocking=False):
            time.sleep(0.01)
        self.hooks.places.release()
        self.assertEqual(self.post(b'["acme/lib", 12]'), 200)

    def test_a_hook_while_its_request_is_looked_at_is_looked_at_again(self) -> None:
        place = self.be(12, 0)
        self.forge.when_asked = lambda _: self.post(json.dumps(["acme/lib", 12]).encode())
        self.look(place)
        self.assertEqual(self.places(), [place])


if __name__ == "__main__":
    import unittest
    unittest.main()
