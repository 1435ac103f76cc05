"""The rules of nftables for a machine that a gate shares with workers, in a network namespace of their own."""
from __future__ import annotations

import json
import os
import shutil
import subprocess
import unittest
from pathlib import Path
from typing import Any

TOP = Path(__file__).resolve().parents[2]
RULES = TOP / "companions" / "service" / "ports.nft"
PATH = "/usr/sbin:/usr/bin:/sbin:/bin"
# Numbers of users that the machine needn't have.
USERS = {"www-data": 64001, "gated": 64002, "gated-companions": 64003}
ROOT, PROXY, GATE, ADAPTER, WORKER = 0, 64001, 64002, 64003, 64004

# Brings up the loopback, and knocks at a port where a user listens, as another user: for each triple of them, what
# comes of it.
SCRIPT = r"""
import fcntl, json, os, socket, struct, subprocess, sys
rules, asked = json.loads(sys.argv[1])
with socket.socket(socket.AF_INET, socket.SOCK_DGRAM) as any_socket:
    fcntl.ioctl(any_socket, 0x8914, struct.pack("16sh14s", b"lo", 1, b""))
for _ in range(2):
    if rules:
        subprocess.run(["nft", "-f", "-"], input=rules, text=True, check=True)
listens = ("import socket\n"
           "with socket.create_server(('127.0.0.1', {0})) as server:\n"
           "    print('listens', flush=True)\n"
           "    while True:\n"
           "        with server.accept()[0] as one: one.sendall(b'hello')\n")
knocks = ("import socket\n"
          "try:\n"
          "    with socket.create_connection(('127.0.0.1', {0}), 1) as one: print(one.recv(5).decode())\n"
          "except OSError as fault: print(type(fault).__name__)\n")
def started(user, text, port):
    return subprocess.Popen([sys.executable, "-c", text.format(port)], user=user, stdout=subprocess.PIPE, text=True)
found = []
for listener, client, port in asked:
    server = started(listener, listens, port)
    server.stdout.readline()
    found.append(started(client, knocks, port).communicate()[0].strip())
    server.kill()
    server.communicate()
print(json.dumps(found))
"""
# Of each port: who has it, who reaches it, and who doesn't.
PORTS = ((8080, GATE, (ROOT, PROXY), (GATE, ADAPTER, WORKER)), (8090, ADAPTER, (PROXY,), (ROOT, GATE, ADAPTER, WORKER)),
         (8091, ADAPTER, (PROXY,), (ROOT, GATE, WORKER)), (8092, ADAPTER, (PROXY,), (ROOT, GATE, WORKER)))


@unittest.skipUnless(os.geteuid() == 0, "needs root, for a network namespace and other users")
class PortsTest(unittest.TestCase):
    def setUp(self) -> None:
        for it in ("nft", "unshare"):
            self.assertIsNotNone(shutil.which(it, path=PATH), f"{it} isn't there")

    def played(self, rules: str, asked: list[tuple[int, int, int]]) -> Any:
        ran = subprocess.run(["unshare", "--net", "/usr/bin/python3", "-c", SCRIPT, json.dumps([rules, asked])],
                             cwd="/", capture_output=True, text=True, timeout=120, check=False,
                             env={**os.environ, "PATH": PATH})
        self.assertEqual((ran.returncode, ran.stderr), (0, ""))
        return json.loads(ran.stdout)

    def rules(self) -> str:
        text = RULES.read_text(encoding="utf-8")
        for name, number in USERS.items():
            self.assertEqual(text.count(f'= "{name}"\n'), 1)
            text = text.replace(f'= "{name}"\n', f"= {number}\n")
        return text

    def test_each_port_is_reached_by_those_who_may(self) -> None:
        asked = [(own, client, port) for port, own, may, may_not in PORTS for client in (*may, *may_not)]
        said = [it for _, _, may, may_not in PORTS
                for it in (*len(may) * ["hello"], *len(may_not) * ["ConnectionRefusedError"])]
        self.assertEqual(self.played(self.rules(), asked), said)

    def test_nobody_takes_a_port_while_its_owner_restarts(self) -> None:
        asked = [(thief, PROXY, port) for port, own, _, _ in PORTS for thief in (WORKER, PROXY, GATE, ADAPTER)
                 if thief != own]
        self.assertEqual(set(self.played(self.rules(), asked)), {"TimeoutError"})

    def test_without_the_rules_all_reach_them_and_take_them(self) -> None:
        self.assertEqual(self.played("", [(GATE, WORKER, 8080), (WORKER, PROXY, 8080)]), ["hello", "hello"])

    def test_other_ports_are_left_alone(self) -> None:
        self.assertEqual(self.played(self.rules(), [(WORKER, WORKER, 8000)]), ["hello"])


if __name__ == "__main__":
    unittest.main()
