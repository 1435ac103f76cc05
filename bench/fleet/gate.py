"""The real gate: `gated serve` over a file in memory, told and asked over HTTP, a connection a request."""
import json
import os
import shutil
import socket
import subprocess
import tempfile
from collections import Counter

FORGE = {"revision", "approved", "withdrawn", "closed", "landed", "refused"}
IDLE = {"code": "E12", "error": "idle"}


class Gate:
    def __init__(self, program, text):
        memory = "/dev/shm" if os.path.isdir("/dev/shm") else None
        self.folder = tempfile.mkdtemp(prefix="fleet-", dir=memory)
        self.settings, self.file = os.path.join(self.folder, "gate.toml"), os.path.join(self.folder, "gate")
        with open(self.settings, "w", encoding="utf-8") as file:
            file.write(text)
        self.server = None
        self.asked, self.told, self.lines = Counter(), Counter(), []
        try:
            subprocess.run([program, "init", self.settings, self.file], check=True)
            words = [program, "serve", self.settings, self.file, "--port", "0", "--count", "1000000000"]
            self.server = subprocess.Popen(words, stdout=subprocess.PIPE, text=True)
            self.port = int(self.server.stdout.readline().rsplit(":", 1)[1])
        except BaseException:
            self.close()
            raise

    def close(self):
        if self.server:
            self.server.kill()
            self.server.wait()
            self.server.stdout.close()
        shutil.rmtree(self.folder)

    def __enter__(self):
        return self

    def __exit__(self, *_):
        self.close()

    def request(self, text):
        """The status and the body that one connection gets."""
        with socket.create_connection(("127.0.0.1", self.port)) as stream:
            stream.sendall(text)
            parts = []
            while part := stream.recv(1 << 18):
                parts.append(part)
        head, body = b"".join(parts).split(b"\r\n\r\n", 1)
        return int(head.split(b" ", 2)[1]), body

    def tell(self, kind, **members):
        """A delivery under an id of its own, and the reply; `idle` is the one refusal that a fleet has to expect."""
        line = {"id": f"{len(self.lines):08x}-0000-4000-8000-000000000000", "kind": kind, **members}
        body = json.dumps(line, separators=(",", ":")).encode()
        self.lines.append(body)
        door = "forge" if kind in FORGE else "worker"
        head = f"POST /{door} HTTP/1.1\r\nHost: gate\r\nContent-Length: {len(body)}\r\n\r\n"
        status, answer = self.request(head.encode() + body)
        reply = json.loads(answer)
        if status != 200 and reply != IDLE:
            raise AssertionError(f"{line} was answered {status} {reply}")
        self.told[kind if status == 200 else "idle"] += 1
        return reply

    def ask(self, route):
        self.asked[route.split("/")[1]] += 1
        status, answer = self.request(f"GET {route} HTTP/1.1\r\nHost: gate\r\n\r\n".encode())
        assert status == 200, f"{route} was answered {status} {answer}"
        return answer.decode()

    def ask_json(self, route):
        return json.loads(self.ask(route))

    def seconds(self):
        """The time of a processor that the server has taken so far."""
        with open(f"/proc/{self.server.pid}/stat", encoding="utf-8") as file:
            fields = file.read().rsplit(")", 1)[1].split()
        return (int(fields[11]) + int(fields[12])) / os.sysconf("SC_CLK_TCK")


def parse_status(text):
    """The queues (window, landed, items), what waits; an item is its change, revision, state and slots by job."""
    queues, waiting, items = {}, [], None
    lines = text.splitlines()
    assert lines[-1] == "end", "a status was cut"
    for words in (line.split() for line in lines[:-1]):
        if words[0] == "queue":
            items = []
            queues[words[1]] = {"window": int(words[3]), "landed": int(words[5]), "items": items}
        elif words[0] == "waiting":
            waiting.append((int(words[1]), int(words[2])))
        else:
            slots = dict(word.split("=") for word in words[5:])
            items.append((int(words[1]), int(words[2]), words[4], slots))
    return queues, waiting


def parse_history(text):
    """The reports: serial, change, revision, verdict, and the number of the landing."""
    lines = text.splitlines()
    assert lines[-1] == f"end {len(lines) - 2}", "a history was cut"
    rows = [line.split() for line in lines[1:-1]]
    return [(int(r[1]), int(r[2]), int(r[3]), r[4], None if r[5] == "-" else int(r[5])) for r in rows]
