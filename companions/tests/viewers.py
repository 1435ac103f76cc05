"""Measures what people who look at the page cost: the gate, and nginx before it.

    GATED=... python3 -m unittest companions.tests.viewers

VIEWERS people look for SECONDS seconds each, as the page does: first at a gate in which nothing happens, then at one in
which something does each second. Each has an address of his own, and a password as `gated-person` hashes it.
"""
from __future__ import annotations

import base64
import http.client
import os
import random
import signal
import ssl
import subprocess
import threading
import time
from collections import Counter
from pathlib import Path

from companions.tests.day.layout import PASSWORD
from companions.tests.page_case import PageTest
from companions.tests.service import wait_for

VIEWERS, SECONDS = int(os.environ.get("VIEWERS", "100")), float(os.environ.get("SECONDS", "60"))
# The page's own: the seconds between two looks, and the looks to one at the adapter's file.
EVERY, NAMES_EVERY = 5.0, 5
LOG = "log_format seen '$status $upstream_cache_status $uri';\naccess_log {folder}/proxy/seen.log seen;\n"


class Viewer(threading.Thread):
    """Somebody who looks: the status, and more where it has changed."""

    def __init__(self, port: int, number: int, until: float) -> None:
        super().__init__(daemon=True)
        self.port, self.until, self.number = port, until, number
        self.said, self.looks, self.statuses = b"", 0, Counter[int]()
        account = base64.b64encode(f"viewer:{PASSWORD}".encode()).decode()
        self.headers = {"Authorization": f"Basic {account}"}

    def run(self) -> None:
        time.sleep(random.random() * EVERY)
        context = ssl._create_unverified_context()  # pylint: disable=protected-access
        connection = http.client.HTTPSConnection("127.0.0.1", self.port, timeout=60, context=context,
                                                 source_address=(f"127.0.2.{1 + self.number % 250}", 0))
        while time.monotonic() < self.until:
            said = self.get(connection, "/status")
            if said and said != self.said:
                self.said = said
                for path in ("/history/core/1", "/running", "/running.json"):
                    self.get(connection, path)
            if self.looks % NAMES_EVERY == 0:
                self.get(connection, "/requests.json")
            self.looks += 1
            time.sleep(EVERY)
        connection.close()

    def get(self, connection: http.client.HTTPSConnection, path: str) -> bytes | None:
        connection.request("GET", path, headers=self.headers)
        answer = connection.getresponse()
        content = answer.read()
        self.statuses[answer.status] += 1
        return content if answer.status == 200 else None


class Viewers(PageTest):
    @classmethod
    def setUpClass(cls) -> None:
        """No browser is needed."""

    def start_proxy(self) -> None:
        super().start_proxy()
        proxy = self.folder / "proxy"
        coded = subprocess.run(["openssl", "passwd", "-6", PASSWORD], capture_output=True, text=True, check=True).stdout
        with (proxy / "gate.passwords").open("a") as passwords:
            passwords.write(f"viewer:{coded}")
        conf = (proxy / "nginx.conf").read_text().replace("http {\n", "http {\n" + LOG.format(folder=self.folder), 1)
        conf = conf.replace(f"access_log {proxy}/gate.log gate if=$gate_is_kept;", "")
        (proxy / "nginx.conf").write_text(conf)
        (self.folder / "page" / "requests.json").write_text('{"logs": null, "requests": []}')
        master = int((proxy / "pid").read_text())
        before = {*children(master)}
        os.kill(master, signal.SIGHUP)
        self.assertTrue(wait_for(lambda: bool(children(master)) and not before & {*children(master)}))

    def test_viewers(self) -> None:
        self.approved(101, "lib")
        for said, happens in (("nothing happens", False), ("something happens each second", True)):
            self.measure(said, happens)

    def measure(self, said: str, happens: bool) -> None:
        seen = self.folder / "proxy" / "seen.log"
        seen.write_bytes(b"")
        master = int((self.folder / "proxy" / "pid").read_text())
        before = {it: spent(it) for it in (self.process.pid, *children(master))}
        begin = time.monotonic()
        viewers = [Viewer(self.port, at, begin + SECONDS) for at in range(VIEWERS)]
        for it in viewers:
            it.start()
        change = 1000
        while time.monotonic() < begin + SECONDS:
            if happens:
                change += 1
                self.approved(change, "app")
            time.sleep(1)
        for it in viewers:
            it.join()
        took = time.monotonic() - begin
        rows = [line.split() for line in seen.read_text().splitlines()]
        passed = sum(row[1] in ("MISS", "EXPIRED", "BYPASS") for row in rows)
        # One of nginx's children ends once it has read the cache.
        seconds = {it: spent(it) - before[it] for it in (self.process.pid, *children(master))}
        gate, proxy = seconds[self.process.pid], sum(seconds.values()) - seconds[self.process.pid]
        statuses = sum((it.statuses for it in viewers), Counter[int]())
        print(f"\n{VIEWERS} viewers, {said}: {len(rows) / took:.1f} requests a second at nginx, {passed / took:.2f} at"
              f" the gate; processor: gate {gate / took * 100:.2f} %, nginx {proxy / took * 100:.1f} %; answers"
              f" {dict(statuses)}")
        self.assertGreater(statuses[200], VIEWERS)


def children(process: int) -> list[int]:
    return [int(it) for it in Path(f"/proc/{process}/task/{process}/children").read_text().split()]


def spent(process: int) -> float:
    """The processor's seconds that a process has taken."""
    words = Path(f"/proc/{process}/stat").read_text().rpartition(")")[2].split()
    return (int(words[11]) + int(words[12])) / os.sysconf("SC_CLK_TCK")
