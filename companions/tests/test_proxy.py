"""The proxy before a gate: nginx with companions/service/gate.conf, before a stand-in that shows what it was sent."""
from __future__ import annotations

import asyncio
import base64
import hashlib
import os
import re
import shutil
import signal
import ssl
import subprocess
import tempfile
import threading
import time
import unittest
import warnings
from collections import Counter
from collections.abc import Awaitable, Iterable
from http.server import BaseHTTPRequestHandler, ThreadingHTTPServer
from pathlib import Path

from companions.tests.day.layout import SERVICE, proxy_settings
from companions.tests.day.stage import free_port, search

# A program's password is random, and a person's was chosen.
PASSWORDS = {"forge": "f" * 48, "worker": "a" * 48, "watch": "b" * 48, "standby": "c" * 48,
             "alice": "one that she chose"}
# From where somebody guesses, and where the others are.
GUESSER, ELSEWHERE = "127.0.0.2", "127.0.0.3"
# What an address has a second under people's names, and before that, and what all addresses have together.
RATE, BURST, ALL, BURST_OF_ALL = 30, 120, 60, 240
# What the page may do: scripts, styles and questions of its own host, and nothing else.
POLICY = ("default-src 'none'; script-src 'self'; style-src 'self'; connect-src 'self'; base-uri 'none';"
          " form-action 'none'; frame-ancestors 'none'")
# Long passwords that come a second, and for how long they come before the watch asks.
GUESSES, BEFORE = 33, 3.0


class StandIn(BaseHTTPRequestHandler):
    """Answers as a gate that has nothing, and keeps what it was sent. /items/1 is answered once it may be. As for the
    gate, a path that is written otherwise is another one, which isn't there."""
    heads: list[dict[str, str]] = []
    may_answer = threading.Event()

    def do_GET(self) -> None:
        self.heads.append({name.lower(): value for name, value in self.headers.items()})
        if self.path == "/items/1":
            self.may_answer.wait(60)
        content = b"end\n"
        self.send_response(404 if re.search("%|//|/[.]", self.path) else 200)
        self.send_header("Content-Length", str(len(content)))
        self.end_headers()
        self.wfile.write(content)

    def do_POST(self) -> None:
        self.rfile.read(int(self.headers["Content-Length"]))
        self.do_GET()

    def log_message(self, *_: object) -> None:
        pass


class StandInServer(ThreadingHTTPServer):
    daemon_threads = True
    request_queue_size = 512


class ProxyTest(unittest.IsolatedAsyncioTestCase):
    """A proxy for each test, behind which the stand-in listens. `beats` is the port of a watch, if there is one."""
    beats = 0

    def setUp(self) -> None:
        where = tempfile.TemporaryDirectory()
        self.addCleanup(where.cleanup)
        self.folder, self.port = Path(where.name), free_port()
        self.passwords = self.folder / "proxy" / "gate.passwords"
        StandIn.heads.clear()
        StandIn.may_answer.clear()
        gate = StandInServer(("127.0.0.1", 0), StandIn)
        threading.Thread(target=gate.serve_forever, kwargs={"poll_interval": 0.05}, daemon=True).start()
        self.addCleanup(gate.server_close)
        self.addCleanup(gate.shutdown)
        self.addCleanup(StandIn.may_answer.set)
        self.start_proxy(gate.server_port)
        self.context = ssl.create_default_context(cafile=str(self.folder / "proxy" / "gate.crt"))

    def start_proxy(self, gate: int) -> None:
        self.assertIsNotNone(shutil.which("nginx", path=search()), "nginx isn't there")
        (self.folder / "proxy").mkdir()
        settings = self.folder / "proxy" / "nginx.conf"
        text = proxy_settings(self.folder, self.port, gate, self.beats or gate)
        settings.write_text(text.replace("127.0.0.1:8090", f"127.0.0.1:{gate}"))
        subprocess.run(["openssl", "req", "-x509", "-newkey", "rsa:2048", "-noenc", "-days", "2", "-subj", "/CN=gate",
                        "-addext", "subjectAltName=IP:127.0.0.1", "-keyout", self.folder / "proxy" / "gate.key",
                        "-out", self.folder / "proxy" / "gate.crt"], check=True, capture_output=True)
        for name, password in PASSWORDS.items():
            self.add(name, slow_hash(password) if name == "alice" else quick_hash(password))
        log = (self.folder / "proxy" / "printed").open("wb")
        self.addCleanup(log.close)
        process = subprocess.Popen(["nginx", "-g", "daemon off;", "-c", settings], stdin=subprocess.DEVNULL, stdout=log,
                                   stderr=log, start_new_session=True, env={**os.environ, "PATH": search()})
        self.addCleanup(process.wait)
        self.addCleanup(os.killpg, process.pid, signal.SIGKILL)
        until = time.monotonic() + 30
        while not (self.folder / "proxy" / "pid").exists():
            self.assertIsNone(process.poll(), (self.folder / "proxy" / "printed").read_text())
            self.assertLess(time.monotonic(), until)
            time.sleep(0.05)

    def add(self, name: str, hashed: str) -> None:
        with self.passwords.open("a") as passwords:
            passwords.write(f"{name}:{hashed}\n")

    async def asyncSetUp(self) -> None:
        asyncio.get_running_loop().set_debug(False)

    async def head(self, path: str, name: str, password: str | None = None, by: str = ELSEWHERE, method: str = "GET",
                   more: str = "") -> tuple[int, str]:
        """The status and the head of an answer; 0 and nothing where the connection broke."""
        account = base64.b64encode(f"{name}:{PASSWORDS[name] if password is None else password}".encode()).decode()
        said = f"{method} /{path} HTTP/1.1\r\nHost: gate\r\nConnection: close\r\nAuthorization: Basic {account}\r\n"
        said += f"Content-Length: 2\r\n{more}\r\n{{}}" if method == "POST" else f"{more}\r\n"
        try:
            reader, writer = await asyncio.open_connection("127.0.0.1", self.port, ssl=self.context,
                                                           server_hostname="127.0.0.1", local_addr=(by, 0))
            writer.write(said.encode())
            answer = (await reader.read(65536)).decode()
            writer.close()
        except OSError:
            return 0, ""
        return int(answer.split(" ")[1]) if answer else 0, answer

    async def status(self, path: str, name: str, password: str | None = None, by: str = ELSEWHERE) -> int:
        return (await self.head(path, name, password, by))[0]


def quick_hash(password: str) -> str:
    return "{SHA}" + base64.b64encode(hashlib.sha1(password.encode()).digest()).decode()


def slow_hash(password: str) -> str:
    return subprocess.run(["openssl", "passwd", "-6", "-stdin"], input=password, text=True, capture_output=True,
                          check=True).stdout.strip()


async def steadily(requests: Iterable[Awaitable[int]], a_second: float) -> Counter[int]:
    """Sends requests at a rate, whether or not they are answered, and counts the answers' statuses."""
    tasks = []
    for it in requests:
        tasks.append(asyncio.ensure_future(it))
        await asyncio.sleep(1 / a_second)
    return Counter(await asyncio.gather(*tasks))


class Passing(ProxyTest):
    """What the proxy passes on, and what it adds to an answer."""

    async def test_passwords_stay(self) -> None:
        """Whoever listens at a port of the gate or the adapter learns nobody's password."""
        for method, path, name in (("POST", "forge", "forge"), ("GET", "orders", "forge"), ("POST", "worker", "worker"),
                                   ("GET", "builds/1", "worker"), ("GET", "status", "alice"),
                                   ("GET", "changes/1", "watch"), ("GET", "deliveries", "standby"),
                                   ("POST", "hook", "forge"), ("POST", "beat", "worker")):
            StandIn.heads.clear()
            self.assertEqual((await self.head(path, name, method=method))[0], 200, path)
            self.assertEqual([it for it in StandIn.heads[0] if "authorization" in it], [], path)

    async def test_people_share_answers_and_programs_get_their_own(self) -> None:
        """By an answer of a second ago a lander that starts again would refuse a sound change."""
        self.add("ben", quick_hash("his"))
        all_but_workers: tuple[str, ...] = ("forge", "watch", "standby")
        programs = dict.fromkeys(("status", "running", "history/core/1", "items/2"), all_but_workers)
        programs |= {"changes/1": (*all_but_workers, "worker"), "builds/1": ("forge", "watch", "worker")}
        for path, names in programs.items():
            StandIn.heads.clear()
            begin = time.monotonic()
            for name, password in (("alice", None), ("ben", "his")) * 10:
                self.assertEqual(await self.status(path, name, password), 200)
            # Each is kept for a whole second of nginx's clock, and the second in which it came counts.
            self.assertLessEqual(len(StandIn.heads), time.monotonic() - begin + 2, path)
            for name in names:
                StandIn.heads.clear()
                for _ in range(4):
                    self.assertEqual(await self.status(path, name), 200)
                self.assertEqual(len(StandIn.heads), 4, f"{name} at {path}")

    async def test_nobody_spoils_what_others_share(self) -> None:
        """A path that is written otherwise is another one to the gate, which has none: what it answers to that isn't
        given to those who ask for the right one."""
        self.add("ben", quick_hash("his"))
        for path, other in (("status", "statu%73"), ("running", "x/../running"), ("changes/1", "changes/%31"),
                            ("builds/1", "builds//1")):
            for _ in range(4):
                self.assertEqual(await self.status(other, "alice"), 404, other)
                self.assertEqual(await self.status(path, "ben", "his"), 200, path)

    async def test_what_is_written_for_the_page_is_for_people(self) -> None:
        """Titles and authors, and the logs of a CI: no program needs them."""
        (self.folder / "page").mkdir()
        for it in ("running.json", "links.json"):
            (self.folder / "page" / it).write_text('{"builds": []}')
            self.assertEqual([await self.status(it, name) for name in ("alice", "worker", "watch")], [200, 403, 403])
        (self.folder / "page" / "requests.json").write_text('{"requests": []}')
        answered, head = await self.head("requests.json", "alice")
        self.assertEqual((answered, head.endswith('{"requests": []}')), (200, True))
        self.assertIn("\r\nContent-Type: application/json\r\n", head)
        for name in ("forge", "worker", "watch", "standby"):
            self.assertEqual(await self.status("requests.json", name), 403)
        self.assertEqual(await self.status("requests.json", "alice", "wrong"), 401)

    async def test_the_page_may_run_its_own_scripts_alone(self) -> None:
        for path, kind in (("", "text/html"), ("page.css", "text/css"), ("page.js", "text/javascript")):
            answered, head = await self.head(path, "alice")
            self.assertEqual(answered, 200)
            self.assertIn(f"\r\nContent-Type: {kind}; charset=utf-8\r\n", head)
            for it in (f"Content-Security-Policy: {POLICY}", "X-Content-Type-Options: nosniff",
                       "Referrer-Policy: no-referrer"):
                self.assertIn(f"\r\n{it}\r\n", head)
        for path in ("nginx.conf", "other.html", "page.js.bak", ".page.js", "x/../../gate.passwords"):
            self.assertIn(await self.status(path, "alice"), (400, 404), path)
        self.assertEqual(await self.status("", "worker"), 403)


class Encrypting(ProxyTest):
    """TLS as nginx speaks it."""

    async def speaks(self, newest: ssl.TLSVersion) -> str | None:
        """The version that a client gets which knows none newer, or none where there is no connection."""
        context = ssl.create_default_context(cafile=str(self.folder / "proxy" / "gate.crt"))
        context.set_ciphers("DEFAULT:@SECLEVEL=0")
        with warnings.catch_warnings():
            warnings.simplefilter("ignore", DeprecationWarning)
            context.minimum_version, context.maximum_version = ssl.TLSVersion.TLSv1, newest
        try:
            _, writer = await asyncio.open_connection("127.0.0.1", self.port, ssl=context)
        except OSError:
            return None
        writer.close()
        return str(writer.get_extra_info("ssl_object").version())

    async def test_versions(self) -> None:
        self.assertEqual([await self.speaks(it) for it in (ssl.TLSVersion.TLSv1_3, ssl.TLSVersion.TLSv1_2)],
                         ["TLSv1.3", "TLSv1.2"])
        self.assertIsNone(await self.speaks(ssl.TLSVersion.TLSv1_1))

    async def test_a_browser_asks_by_tls_alone(self) -> None:
        """Whatever the answer is: a password never goes over plain HTTP again."""
        for status, password in ((200, PASSWORDS["watch"]), (401, "wrong"), (431, "long" * 100)):
            answered, head = await self.head("status", "watch", password)
            self.assertEqual(answered, status)
            self.assertIn("\r\nStrict-Transport-Security: max-age=31536000\r\n", head)


class Names(ProxyTest):
    """Who has which name, and who may get one."""

    def gated_person(self, name: str, password: str) -> subprocess.CompletedProcess[str]:
        return subprocess.run([SERVICE / "gated-person", name], input=password + "\n", capture_output=True, text=True,
                              check=False, env={**os.environ, "PASSWORDS": str(self.passwords)})

    async def test_names_are_compared_as_they_are(self) -> None:
        """A person whose name is a program's in other letters is a person."""
        for name in ("Forge", "WATCH", "Standby", "Worker1", "forge2", "my-watch"):
            self.add(name, quick_hash("hers"))
            for path, method in (("forge", "POST"), ("orders", "GET"), ("worker", "POST"), ("deliveries", "GET")):
                self.assertEqual((await self.head(path, name, "hers", method=method))[0], 403, f"{name} at {path}")
            self.assertEqual(await self.status("status", name, "hers"), 200, name)

    async def test_a_person_is_added(self) -> None:
        mode, programs = self.passwords.stat().st_mode, self.passwords.read_text()
        for password, was in (("the first password", "added"), ("the second password", "given a new password")):
            ran = self.gated_person("b.en", password)
            self.assertEqual((ran.returncode, ran.stdout), (0, f"gated-person: b.en was {was}\n"), ran.stderr)
            self.assertEqual(await self.status("status", "b.en", password), 200)
            self.assertEqual(await self.status("forge", "b.en", password), 403)
        self.assertEqual(await self.status("status", "b.en", "the first password"), 401)
        self.assertTrue(self.passwords.read_text().startswith(programs))
        self.assertEqual(self.passwords.read_text().count("\n"), programs.count("\n") + 1)
        self.assertEqual(self.passwords.stat().st_mode, mode)
        self.assertIn(":$6$", self.passwords.read_text().splitlines()[-1])

    async def test_the_longest_password(self) -> None:
        self.assertEqual(self.gated_person("n" * 48, "p" * 128).returncode, 0)
        self.assertEqual(await self.status("status", "n" * 48, "p" * 128), 200)

    def test_names_and_passwords_that_are_refused(self) -> None:
        before = self.passwords.read_text()
        for name, password, says in (
                ("forge", "long enough for it", "forge is the name of a program: take another one"),
                ("Forge", "long enough for it", "Forge is the name of a program: take another one"),
                ("watch", "long enough for it", "is the name of a program"),
                ("standby", "long enough for it", "is the name of a program"),
                ("worker", "long enough for it", "is the name of a program"),
                ("workers-friend", "long enough for it", "is the name of a program"),
                ("an:n", "long enough for it", "a name has"), ("ann\nforge", "long enough for it", "a name has"),
                ("", "long enough for it", "a name has"), ("n" * 49, "long enough for it", "a name has"),
                ("ann", "eleven long", "at least 12"), ("ann", "", "at least 12"), ("ann", "p" * 129, "at most 128")):
            ran = self.gated_person(name, password)
            self.assertEqual((ran.returncode, ran.stdout), (1, ""), name)
            self.assertIn(says, ran.stderr)
        self.assertEqual(self.passwords.read_text(), before)
        self.passwords.unlink()
        self.assertIn("isn't there", self.gated_person("ann", "long enough for it").stderr)
        self.assertEqual([it.name for it in self.folder.glob("proxy/gate.passwords*")], [])


class Guessing(ProxyTest):
    """Somebody guesses what a person chose. The programs are answered meanwhile."""

    async def watch_is_answered(self, seconds: float = 2.0) -> None:
        for _ in range(5):
            begin = time.monotonic()
            self.assertEqual(await self.status("status", "watch"), 200)
            self.assertLess(time.monotonic() - begin, seconds)
            await asyncio.sleep(0.2)

    async def guess(self, passwords: Iterable[str]) -> Counter[int]:
        """The answers to guesses. The watch asks once they have come for some seconds, and before they end."""
        guesses = asyncio.ensure_future(steadily(
            (self.status("status", "alice", it, by=GUESSER) for it in passwords), GUESSES))
        await asyncio.sleep(BEFORE)
        await self.watch_is_answered()
        self.assertEqual(await self.status("status", "alice"), 200)
        return await guesses

    async def guess_at_once(self, by: str, guesses: int) -> Counter[int]:
        """The answers to guesses over one connection, which don't wait for each other. The hash that they are compared
        with is quick, so that a machine with much else to do gets at more than it may."""
        account = base64.b64encode(b"ben:guess").decode()
        ends = ["keep-alive"] * (guesses - 1) + ["close"]
        said = "".join(f"GET /status HTTP/1.1\r\nHost: gate\r\nConnection: {it}\r\nAuthorization: Basic {account}"
                       "\r\n\r\n" for it in ends)
        reader, writer = await asyncio.open_connection("127.0.0.1", self.port, ssl=self.context,
                                                       server_hostname="127.0.0.1", local_addr=(by, 0))
        writer.write(said.encode())
        answers = (await reader.read(-1)).decode()
        writer.close()
        return Counter(int(it) for it in re.findall(r"^HTTP/1.1 ([0-9]{3}) ", answers, re.MULTILINE))

    async def test_guesses(self) -> None:
        """Few of them are looked at, so the programs are answered, and a person elsewhere is."""
        self.add("ben", quick_hash("his"))
        begin = time.monotonic()
        guesses = [asyncio.ensure_future(self.guess_at_once(GUESSER, 100)) for _ in range(10)]
        await self.watch_is_answered()
        self.assertEqual(await self.status("status", "alice"), 200)
        answers = sum(await asyncio.gather(*guesses), Counter[int]())
        self.assertEqual(set(answers), {401, 429})
        self.assertLessEqual(answers[401], BURST + 1 + RATE * (time.monotonic() - begin))

    async def test_long_passwords(self) -> None:
        """None of them is looked at, whoever's it is."""
        answers = await self.guess(f"{at:06}" * 85 for at in range(GUESSES * 6))
        self.assertEqual(set(answers), {431})
        self.assertEqual(await self.status("status", "watch", "b" * 300), 431)
        self.assertEqual(await self.status("status", "watch", "b" * 100), 401)

    async def test_guesses_of_many_addresses(self) -> None:
        """Each is within its own rate, and all together are above theirs."""
        self.add("ben", quick_hash("his"))
        begin = time.monotonic()
        guesses = [asyncio.ensure_future(self.guess_at_once(f"127.0.1.{at}", 100)) for at in range(1, 11)]
        await self.watch_is_answered()
        answers = sum(await asyncio.gather(*guesses), Counter[int]())
        self.assertEqual(set(answers), {401, 429})
        self.assertLessEqual(answers[401], BURST_OF_ALL + 1 + ALL * (time.monotonic() - begin))

    async def test_connections_of_one_address(self) -> None:
        """256 of them wait for the gate; one more is refused, and another address isn't."""
        waiting = list[asyncio.Future[int]]()
        while len(StandIn.heads) < 256:
            self.assertFalse([it for it in waiting if it.done()])
            # A few at a time, since the proxy waits ten seconds for a head.
            if len(waiting) == len(StandIn.heads):
                waiting += [asyncio.ensure_future(self.status("items/1", "watch", by=GUESSER)) for _ in range(16)]
            await asyncio.sleep(0.02)
        self.assertEqual(await self.status("status", "watch", by=GUESSER), 429)
        await self.watch_is_answered()
        StandIn.may_answer.set()
        self.assertEqual(Counter(await asyncio.gather(*waiting)), {200: 256})


if __name__ == "__main__":
    unittest.main()
