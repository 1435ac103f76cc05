"""What a client does to a gate that connects and says nothing: run in a network namespace of its own by test_silent.

    python3 -m companions.tests.silence FOLDER RULES

A gate and its proxy run in it under their users. With the rules of nftables (`-`: without), a user who is neither
connects to the gate's port and says nothing, and somebody asks by the proxy. Prints what came of each, as JSON.
"""
from __future__ import annotations

import fcntl
import json
import os
import socket
import struct
import subprocess
import sys
from pathlib import Path

from companions.tests.day.layout import FOLLOWER, PASSWORD, TOP, environment, make_proxy
from companions.tests.service import wait_for

PROGRAM = Path(os.environ.get("GATED", TOP / "crates" / "gated" / "out" / "gated")).resolve()
GATE, PROXY, OTHER = 64002, "www-data", 64004
PORT, PROXY_PORT = 8080, 8443
# So long somebody waits whose answer is held up, in seconds, and whose answer isn't.
SHORT, LONG = 3, 60
SILENT = """
import socket, sys
try:
    held = socket.create_connection(("127.0.0.1", 8080), 5)
except OSError as fault:
    print(type(fault).__name__, flush=True)
else:
    print("connected", flush=True)
    sys.stdin.read()
"""


def bring_up() -> None:
    """The loopback of the namespace."""
    with socket.socket(socket.AF_INET, socket.SOCK_DGRAM) as any_socket:
        fcntl.ioctl(any_socket, 0x8914, struct.pack("16sh14s", b"lo", 1, b""))


def start_gate(folder: Path) -> subprocess.Popen[str]:
    own = folder / "gate"
    own.mkdir()
    os.chown(own, GATE, GATE)
    settings = str(TOP / "examples" / "settings.toml")
    subprocess.run([PROGRAM, "init", settings, own / "gate.db"], user=GATE, group=GATE, check=True)
    gate = subprocess.Popen([PROGRAM, "serve", settings, own / "gate.db", "--port", str(PORT), "--count", "1000000"],
                            user=GATE, group=GATE, stdout=subprocess.PIPE, text=True)
    assert gate.stdout is not None and gate.stdout.readline() == f"listening 127.0.0.1:{PORT}\n"
    return gate


def start_proxy(folder: Path) -> subprocess.Popen[bytes]:
    make_proxy(folder, PROXY_PORT, PORT, environment(folder))
    settings = folder / "proxy" / "nginx.conf"
    settings.write_text(settings.read_text().replace("user root;", f"user {PROXY};"))
    return subprocess.Popen(["nginx", "-g", "daemon off;", "-c", settings], stderr=subprocess.DEVNULL)


def ask(folder: Path, seconds: int) -> bool:
    """Whether the gate's status comes by the proxy within a time."""
    asked = subprocess.run(["curl", "--silent", "--max-time", str(seconds), "--cacert", folder / "proxy" / "gate.crt",
                            "--user", f"{FOLLOWER}:{PASSWORD}", f"https://127.0.0.1:{PROXY_PORT}/status"],
                           capture_output=True, text=True, check=False)
    return asked.stdout.endswith("end\n")


def main(folder: Path, rules: str) -> None:
    bring_up()
    gate, proxy = start_gate(folder), start_proxy(folder)
    said: dict[str, object] = {}
    try:
        said["before"] = wait_for(lambda: ask(folder, LONG), LONG)
        if rules != "-":
            subprocess.run(["nft", "-f", rules], check=True)
        silent = subprocess.Popen(["/usr/bin/python3", "-c", SILENT], user=OTHER, group=OTHER, stdin=subprocess.PIPE,
                                  stdout=subprocess.PIPE, text=True)
        assert silent.stdout is not None
        said["silent"] = silent.stdout.readline().strip()
        said["meanwhile"] = ask(folder, LONG if rules != "-" else SHORT)
        silent.communicate("")
        said["after"] = ask(folder, LONG)
    finally:
        proxy.terminate()
        proxy.wait()
        gate.terminate()
        gate.wait()
    print(json.dumps(said))


if __name__ == "__main__":
    main(Path(sys.argv[1]), sys.argv[2])
