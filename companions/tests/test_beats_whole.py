"""Beats through the real proxy: hostile ones, and workers beside a gate of which one dies."""
from __future__ import annotations

import asyncio
import base64
import contextlib
import json
import os
import signal
import subprocess
import sys
import tempfile
import time
import unittest
import uuid
from collections import Counter
from collections.abc import Callable, Iterator
from functools import partial
from pathlib import Path

from companions.beating import Beating
from companions.beats import Beat, Heard
from companions.gate import Gate
from companions.hearing import Door, serve
from companions.job import kill_marked
from companions.settings import Account, Settings
from companions.tests.boxes import boxed
from companions.tests.day.layout import PASSWORD, environment, make_proxy
from companions.tests.day.stage import free_port, search
from companions.tests.forge import Origin
from companions.tests.service import PROGRAM, TOP, wait_for
from companions.tests.test_proxy import ELSEWHERE, GUESSER, PASSWORDS, ProxyTest

TAKE = str(uuid.UUID(int=77))
LONG = 120.0


class Hostile(ProxyTest):
    """What the proxy and the watch make of beats."""

    def setUp(self) -> None:
        self.heard = Heard(60.0, time.monotonic)
        self.heard.know({1: "1/101/1"})
        self.door = Door(("127.0.0.1", 0), self.heard)
        self.addCleanup(serve(self.door))
        self.beats = self.door.server_port
        super().setUp()

    async def beat(self, text: bytes, name: str = "worker", password: str | None = None, by: str = ELSEWHERE,
                   length: int | None = None) -> int:
        """The status that a beat is answered with; 0 where the connection broke."""
        account = base64.b64encode(f"{name}:{PASSWORDS[name] if password is None else password}".encode()).decode()
        head = (f"POST /beat HTTP/1.1\r\nHost: gate\r\nConnection: close\r\nAuthorization: Basic {account}\r\n"
                f"Content-Length: {len(text) if length is None else length}\r\n\r\n")
        try:
            reader, writer = await asyncio.open_connection("127.0.0.1", self.port, ssl=self.context,
                                                           server_hostname="127.0.0.1", local_addr=(by, 0))
            writer.write(head.encode() + text)
            answer = (await reader.read(65536)).decode()
            writer.close()
        except OSError:
            return 0
        return int(answer.split(" ")[1]) if answer else 0

    def logged(self) -> list[str]:
        """The answers to beats that the proxy's log has."""
        file = self.folder / "proxy" / "gate.log"
        return [f"{it['status']}" for it in map(split_of, file.read_text().splitlines()) if it["path"] == "/beat"]

    async def test_who_may_beat(self) -> None:
        said = Beat("w1", 10.0, TAKE, 1).text()
        wanted = {"worker": 200, "watch": 200, "forge": 403, "standby": 403, "alice": 403}
        self.assertEqual({it: await self.beat(said, it) for it in wanted}, wanted)
        self.assertEqual(await self.beat(said, password="wrong"), 401)
        self.assertEqual((self.heard.count(), list(self.heard.voices)), (1, [1]))
        # What was heard isn't logged, and what was refused is, each after its answer.
        await asyncio.to_thread(wait_for, lambda: len(self.logged()) >= 4, LONG)
        self.assertEqual(sorted(self.logged()), ["401", "403", "403", "403"])

    async def test_long_ones_do_not_come_to_the_watch(self) -> None:
        self.assertEqual(await self.beat(b"x" * 1025), 413)
        self.assertEqual(await self.beat(b"", length=10 ** 15), 413)
        self.assertEqual(self.heard.workers, {})

    async def test_what_is_no_beat(self) -> None:
        for text in (b"", b"x" * 1024, b"[" * 1024, b'{"worker":"../w1","every":1}'):
            self.assertEqual(await self.beat(text), 400, text)
        self.assertEqual(self.heard.workers, {})

    async def test_forged_names_and_unknown_builds(self) -> None:
        """They say that somebody is there, and nothing of any build."""
        for at in range(50):
            self.assertEqual(await self.beat(Beat(f"forged-{at}", 10.0, TAKE, 1000 + at).text()), 200)
        self.assertEqual((len(self.heard.workers), self.heard.voices), (50, {}))
        self.heard.know({1: "1/101/1", 2000: "2000/102/1"})
        self.assertEqual(self.heard.voices, {})

    async def test_very_many(self) -> None:
        """Those above the rate of an address wait or are refused, and those of another one are heard at once."""
        said, begin = Beat("w1", 10.0, TAKE, 1).text(), time.monotonic()
        many = asyncio.ensure_future(self.send_many(said, 240))
        while not self.heard.workers:
            await asyncio.sleep(0.01)
        at = time.monotonic()
        self.assertEqual(await self.beat(Beat("w2", 10.0).text()), 200)
        self.assertLess(time.monotonic() - at, 20)
        answers = await many
        self.assertLessEqual(set(answers), {200, 429})
        # Those within the rate, and those that may wait.
        self.assertLessEqual(answers[200], 50 * (time.monotonic() - begin) + 101)
        self.assertEqual((sorted(self.heard.workers), len(self.heard.voices)), (["w1", "w2"], 1))

    async def send_many(self, said: bytes, count: int) -> Counter[int]:
        return Counter(await asyncio.gather(*(self.beat(said, by=GUESSER) for _ in range(count))))

    async def test_a_worker_s_own(self) -> None:
        """As the companion sends them: it is there, it has a build, it holds it, and it has none."""
        settings = Settings(f"https://127.0.0.1:{self.port}", {"worker": Account("worker", PASSWORDS["worker"])},
                            self.folder, {}, 1.0, 10.0, 30.0, 1000.0, "gate <gate@localhost>")
        with environ(SSL_CERT_FILE=str(self.folder / "proxy" / "gate.crt")):
            beating = Beating(settings, "w1")
            puts: list[tuple[Callable[[], None], bool | None]] = [
                (lambda: None, None), (lambda: beating.put(TAKE, 1), False), (lambda: beating.put(TAKE, 1, True), True)]
            for put, found in puts:
                put()
                await asyncio.to_thread(beating.beat)
                voice = self.heard.voices.get(1)
                self.assertEqual((list(self.heard.workers), voice and voice.beat.held), (["w1"], found))


@contextlib.contextmanager
def environ(**more: str) -> Iterator[None]:
    before = dict(os.environ)
    os.environ.update(more)
    try:
        yield
    finally:
        os.environ.clear()
        os.environ.update(before)


def split_of(line: str) -> dict[str, str]:
    """The request's path and the answer's status of a line of the proxy's log."""
    quoted = line.split('"')
    return {"path": quoted[1].split(" ")[1], "status": quoted[2].split()[0]}


class Dying(unittest.TestCase):
    """A gate, its proxy, a watch and two workers, all as processes. Each worker's first build takes long."""

    def setUp(self) -> None:
        room = tempfile.TemporaryDirectory()
        self.addCleanup(room.cleanup)
        self.folder = Path(room.name).resolve()
        self.environment = {**environment(self.folder), "PATH": search(), "TMPDIR": room.name}
        self.port, self.proxy, self.beats = free_port(), free_port(), free_port()
        make_proxy(self.folder, self.proxy, self.port, self.environment, self.beats)
        # Here beats that were heard are logged.
        proxy = self.folder / "proxy" / "nginx.conf"
        proxy.write_text(proxy.read_text().replace('"~^POST /beat 200 " 0;', ""))
        self.write_settings()
        subprocess.run([PROGRAM, "init", self.folder / "gate.toml", self.folder / "it.gate"], check=True)
        self.parts: dict[str, subprocess.Popen[bytes]] = {}
        self.start("gate", PROGRAM, "serve", self.folder / "gate.toml", self.folder / "it.gate", "--port",
                   str(self.port), "--count", "1000000")
        self.start("nginx", "nginx", "-g", "daemon off;", "-c", self.folder / "proxy" / "nginx.conf")
        self.gate = Gate(f"http://127.0.0.1:{self.port}", None)
        for change in (101, 102):
            self.approve(change)
        self.start_companion("watch")
        for name in ("w1", "w2"):
            self.start_companion("worker", name)
        self.await_("both builds to be heard", lambda: self.began() == 2 and self.heard() == {1, 2})
        self.await_("the watch to say so", lambda: self.figure("gated_workers_heard") == "2")

    def write_settings(self) -> None:
        origin = Origin(self.folder / "lib.git")
        head = origin.commit({"text": "0\n"})
        origin.name("refs/heads/main", head)
        origin.first("core", head)
        for change in (101, 102):
            origin.revision(change, 1, origin.commit({f"own-{change}": "1\n"}, head))
        (self.folder / "gate.toml").write_text(
            '[forge]\nbase = "https://forge/c/"\n[[queue]]\nname = "core"\nwindow = 6\nfloor = 2\n'
            '[[project]]\nname = "lib"\nqueue = "core"\n[[project.job]]\nname = "unit"\n')
        accounts = "".join(f'{role} = {{ user = "{user}", password = "{PASSWORD}" }}\n' for role, user in
                           (("people", "watch"), ("standby", "watch"), ("worker", "worker")))
        (self.folder / "begun").mkdir()
        (self.folder / "companions.toml").write_text(
            f'folder = "{self.folder}/state"\n[gate]\nurl = "https://127.0.0.1:{self.proxy}"\npause = 0.2\n{accounts}'
            f'[worker]\nlook = 1.0\nsandbox = {str(boxed()).lower()}\n'
            f'[watch]\nsilent = 12.0\nlisten = "127.0.0.1:{self.beats}"\n'
            f'[[project]]\nname = "lib"\nqueue = "core"\nrepository = "{origin.folder}"\n'
            f'[[project.job]]\nname = "unit"\ncommand = "touch {self.folder}/begun/$GATED_BUILD; sleep 1000"\n'
            f'write = ["{self.folder}/begun"]\nlimit = 3000\n')

    def start(self, name: str, *words: str | Path) -> None:
        with (self.folder / name).open("ab") as log:
            process = subprocess.Popen(words, stdin=subprocess.DEVNULL, stdout=log, stderr=log, env=self.environment,
                                       cwd=TOP, start_new_session=True)
        self.addCleanup(process.wait)
        self.addCleanup(process.kill)
        self.parts[name] = process

    def start_companion(self, part: str, *name: str) -> None:
        self.start(name[0] if name else part, sys.executable, "-m", f"companions.{part}",
                   self.folder / "companions.toml", *name)
        if name:
            mark = f"GATED_WORKER={self.folder}/state/worker/{name[0]}"
            self.addCleanup(kill_marked, mark)

    def approve(self, change: int) -> None:
        kinds: dict[str, dict[str, str]] = {"revision": {"project": "lib", "message": "A change"}, "approved": {}}
        for kind, more in kinds.items():
            said = {"id": str(uuid.uuid4()), "kind": kind, "change": change, "revision": 1, **more}
            self.assertIsNotNone(self.gate.until(partial(self.gate.post, "forge", said)).reply)

    def said(self, name: str) -> str:
        return (self.folder / name).read_text() if (self.folder / name).exists() else ""

    def began(self) -> int:
        """How many builds' jobs have begun."""
        return len(list((self.folder / "begun").iterdir()))

    def heard(self) -> set[int]:
        """The builds of which the watch has heard."""
        lines = self.said("proxy/gate.log").splitlines()
        return {build for it in lines if " 200 " in it for build in (1, 2) if f'\\"build\\": {build},' in it}

    def running(self) -> list[int]:
        return [it["build"] for it in self.gate.running()]

    def figure(self, name: str) -> str | None:
        file = self.folder / "state" / "watch" / "gated.prom"
        lines = file.read_text().splitlines() if file.exists() else []
        return next((it.split()[1] for it in lines if it.startswith(f"{name} ")), None)

    def await_(self, what: str, is_so: Callable[[], bool]) -> None:
        self.assertTrue(wait_for(is_so, LONG), f"waited for {what}: {''.join(map(self.said, ('watch', 'w1', 'w2')))}")

    def test_a_machine_that_dies(self) -> None:
        """A worker and its job are killed. Its build is lost long before its limit, and the other worker's isn't."""
        [mine] = [it for it in (1, 2) if f"build {it}:" in self.said("w1")]
        begin = time.monotonic()
        self.parts["w1"].kill()
        kill_marked(f"GATED_WORKER={self.folder}/state/worker/w1")
        line = f"watch: build {mine}, unit of change {100 + mine} at revision 1, has a worker, w1, that has been silent"
        self.await_("the build to be lost", lambda: line in self.said("watch"))
        self.assertLess(time.monotonic() - begin, 60)
        self.assertEqual(json.loads(self.gate.get(f"/builds/{mine}") or b"")["outcome"], "lost")
        self.assertIn(3 - mine, self.running())
        self.assertEqual(self.said("watch").count(": reported as lost: noted"), 1)

    def test_all_that_fall_silent_at_once(self) -> None:
        """Both workers are held up, as if nothing led to the watch. Nothing is lost, and they go on."""
        for name in ("w1", "w2"):
            os.kill(self.parts[name].pid, signal.SIGSTOP)
        self.await_("the watch to be deaf", lambda: "no worker has been heard for" in self.said("watch"))
        self.await_("nobody to be heard", lambda: self.figure("gated_workers_heard") == "0")
        for name in ("w1", "w2"):
            os.kill(self.parts[name].pid, signal.SIGCONT)
        self.await_("them to be heard", lambda: "workers are heard again" in self.said("watch"))
        self.await_("both to be heard", lambda: self.figure("gated_workers_heard") == "2")
        self.assertEqual(self.running(), [1, 2])
        self.assertNotIn(": reported as lost:", self.said("watch"))


if __name__ == "__main__":
    unittest.main()
