"""Kills `gated deliver` or `gated serve` by SIGKILL, at random moments of a conversation, and starts it again.

kill.py PROGRAM deliver|serve KILLS LINES SEED FOLDER: so many kills while so many lines are told, over a file there.

The client notes each answer. After a kill it copies the file and its log, and has the system's SQLite look at the copy:
the database is whole, and holds each delivery that was answered as accepted, once, in order, and no other but the one
that had no answer yet. That one is sent again, under its id. At the end the answers, the kept replies and the tables
are those of runs that nobody stopped, and the status text of such a run over memory says what the tables say.
"""
import json
import os
import random
import shutil
import socket
import subprocess
import sys
import time

from paged import made, page_of
from talk import SETTINGS, STATUSES, WORKERS, Ended, Talk, accepted, answers_kept, conversation, rows_in


class Deliver:
    """`gated deliver`: a line at a time."""

    def __init__(self, program, settings, file):
        self.talk = Talk([program, "deliver", settings, file])

    def ask(self, line, deadline):
        self.talk.send(line)
        return self.talk.answer(deadline)

    def kill(self):
        """The answer that was there whole at the kill, if one was."""
        rest = self.talk.kill()
        return rest[:-1] if rest.endswith(b"\n") else None


def door_of(line):
    """The door of a delivery's kind; the forge's for what is no delivery."""
    try:
        said = json.loads(line)
    except ValueError:
        return "forge"
    return "worker" if isinstance(said, dict) and said.get("kind") in WORKERS else "forge"


class Serve:
    """`gated serve`: a connection for each line."""

    def __init__(self, program, settings, file):
        words = [program, "serve", settings, file, "--port", "0", "--count", "1000000000"]
        self.program = subprocess.Popen(words, stdout=subprocess.PIPE)
        told = self.program.stdout.readline()
        assert told.startswith(b"listening 127.0.0.1:"), told
        self.port = int(told.rsplit(b":", 1)[1])
        self.stream = None
        self.got = b""

    def body(self):
        """The body of an answer that is there whole; None where it isn't."""
        head, end, body = self.got.partition(b"\r\n\r\n")
        fields = dict(field.split(b": ", 1) for field in head.split(b"\r\n")[1:] if b": " in field)
        if not end or len(body) < int(fields[b"Content-Length"]):
            return None
        assert int(head.split(b" ")[1]) == STATUSES.get(body, 200), self.got
        return body

    def read_until(self, deadline):
        """Reads to the end of the connection, or to the deadline."""
        while True:
            left = None if deadline is None else deadline - time.monotonic()
            if left is not None and left <= 0:
                return
            self.stream.settimeout(left)
            try:
                more = self.stream.recv(65536)
            except (TimeoutError, ConnectionResetError):
                return
            if not more:
                return
            self.got += more

    def ask(self, line, deadline):
        self.got = b""
        head = f"POST /{door_of(line)} HTTP/1.1\r\nHost: gate\r\nContent-Length: {len(line)}\r\n\r\n"
        self.stream = socket.create_connection(("127.0.0.1", self.port))
        self.stream.sendall(head.encode() + line)
        self.read_until(deadline)
        body = self.body()
        if deadline is None and body is None:
            raise Ended(f"no whole answer: {self.got}")
        return body

    def kill(self):
        self.program.kill()
        self.program.wait()
        self.program.stdout.close()
        if self.stream is None:
            return None
        self.read_until(None)
        self.stream.close()
        return self.body()


class Client:
    """What is told to the gate, and what it answered so far."""

    def __init__(self, way, lines, folder):
        self.way = way
        self.lines = lines
        self.folder = folder
        self.answers = []
        # how many lines were sent: one more than the answers while the last one has none
        self.sent = 0
        self.kills = {"between two deliveries": 0, "answered by then": 0, "taken, and no answer": 0, "not taken": 0}

    def tell_until(self, gate, moment, count):
        """Tells lines until the moment, or till so many are answered: whether the next one is under way then."""
        while len(self.answers) < count:
            if moment is not None and time.monotonic() >= moment:
                return False
            self.sent = len(self.answers) + 1
            answer = gate.ask(self.lines[len(self.answers)], moment)
            if answer is None:
                return True
            self.answers.append(answer)
        return False

    def rows(self):
        """The rows of a copy of the file and its log, since a reader may write there."""
        copy = f"{self.folder}/copy"
        for end in ("", "-wal"):
            if os.path.exists(f"{self.folder}/gate{end}"):
                shutil.copyfile(f"{self.folder}/gate{end}", f"{copy}{end}")
            elif os.path.exists(f"{copy}{end}"):
                os.remove(f"{copy}{end}")
        rows = rows_in(copy)
        for end in ("-wal", "-shm"):
            if os.path.exists(f"{copy}{end}"):
                os.remove(f"{copy}{end}")
        return rows

    def kill(self, gate, is_under_way):
        """Kills the gate, and sees that the file holds what was answered."""
        answer = gate.kill()
        if is_under_way and answer is not None:
            self.answers.append(answer)
        found = answers_kept(self.rows())
        told = accepted(self.lines, self.answers)
        assert found[: len(told)] == told, f"{len(found)} kept of {len(told)} that were answered"
        more = found[len(told) :]
        assert len(more) <= self.sent - len(self.answers), f"kept, neither answered as accepted nor in progress: {more}"
        if more:
            unanswered = json.loads(self.lines[len(self.answers)])["id"]
            assert more[0][0] == bytes.fromhex(unanswered.replace("-", "")), "another delivery was taken"
        if not is_under_way:
            self.kills["between two deliveries"] += 1
        elif answer is not None:
            self.kills["answered by then"] += 1
        else:
            self.kills["taken, and no answer" if more else "not taken"] += 1


def status_rows(status):
    """What a status text says of the tables: windows and landings, items, and changes that wait."""
    queues, items, waiting = [], [], []
    for line in status.splitlines():
        words = line.split()
        if words[0] == "queue":
            queues.append((words[1], int(words[3]), int(words[5])))
        elif words[0] == "waiting":
            waiting.append((int(words[1]), int(words[2])))
        elif words[0] != "end":
            ahead = None if words[3] == "-" else int(words[3])
            items.append((int(words[0]), queues[-1][0], int(words[1]), int(words[2]), ahead, int(words[4] != "ok")))
    return queues, sorted(items), waiting


def table_rows(rows):
    """The same, of the tables."""
    landed = [row[0] for row in rows["landing"]]
    queues = [(name, win, landed.count(name)) for name, _, win in sorted(rows["queue"], key=lambda row: row[1])]
    ready = sorted(row for row in rows["change"] if row[4] is not None)
    waiting = [(row[0], row[2]) for row in sorted(ready, key=lambda row: row[4])]
    return queues, sorted(rows["item"]), waiting


def unbroken(program, settings, lines, folder):
    """The rows that one `gated deliver` of all lines leaves, and the seconds that it takes a line."""
    file = f"{folder}/unbroken"
    made(program, settings, file)
    talk = Talk([program, "deliver", settings, file])
    start = time.monotonic()
    for line in lines:
        talk.ask(line)
    taken = (time.monotonic() - start) / len(lines)
    assert talk.end() == b""
    return rows_in(file), taken


def main():
    program, way, kills, count, seed, folder = sys.argv[1:]
    kills, count = int(kills), int(count)
    chances = random.Random(int(seed))
    settings, file = f"{folder}/settings.toml", f"{folder}/gate"
    with open(settings, "w") as kept:
        kept.write(SETTINGS)
    lines, wanted, status = conversation(program, settings, int(seed), count)
    rows, taken = unbroken(program, settings, lines, folder)
    made(program, settings, file)
    start = {"deliver": Deliver, "serve": Serve}[way]
    client = Client(way, lines, folder)
    for kill in range(kills):
        gate = start(program, settings, file)
        last = count * (kill + 1) // kills
        steps = last - len(client.answers)
        client.tell_until(gate, None, len(client.answers) + chances.randrange(max(steps, 1)))
        client.kill(gate, client.tell_until(gate, time.monotonic() + chances.random() * 2 * taken, count))
    gate = start(program, settings, file)
    client.tell_until(gate, None, count)
    client.kill(gate, False)
    if way == "deliver":
        gate = start(program, settings, file)
        assert gate.talk.end() == b""
        assert rows_in(file) == rows, "the tables differ from those of a run that nobody stopped"
    differing = [place for place in range(count) if client.answers[place] != wanted[place]]
    assert not differing, f"line {differing[0]}: {client.answers[differing[0]]}, wanted {wanted[differing[0]]}"
    final = client.rows()
    assert final == rows, "the tables differ from those of a run that nobody stopped"
    assert answers_kept(final) == accepted(lines, wanted), "the kept replies differ"
    assert table_rows(final) == status_rows(status), "the status differs"
    told = ", ".join(f"{times} {name}" for name, times in client.kills.items())
    print(f"{way}: {count} lines, {len(final['delivery'])} accepted, {kills + 1} kills: {told}; {page_of(file)} a page")
    print("ok")


main()
