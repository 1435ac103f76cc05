"""A seeded conversation with a gate in memory, and how `gated` is run and read; for `kill.py` and `hostile.py`."""
import json
import random
import re
import select
import sqlite3
import subprocess
import time

SETTINGS = """[forge]
base = "https://forge/c/"

[[queue]]
name = "core"
window = 4
floor = 1

[[queue]]
name = "web"
window = 2
floor = 1
increase = "exponential"
increase_by = 2

[[project]]
name = "lib"
queue = "core"
fail_fast = true
[[project.job]]
name = "unit"
[[project.job]]
name = "docs"
voting = false

[[project]]
name = "app"
queue = "core"
[[project.job]]
name = "unit"

[[project]]
name = "site"
queue = "web"
[[project.job]]
name = "unit"
"""

PROJECTS = ["lib", "app", "site"]

TABLES = ["meta", "counter", "queue", "change", "need", "item", "build", "landing", "report", "delivery", "item_job",
          "item_fast"]

KINDS = ["revision", "approved", "withdrawn", "closed", "landed", "refused", "take", "result"]

WORKERS = {"take", "result"}


class Ended(Exception):
    """The program ended, or closed its output, where an answer was due."""


def line_of(members):
    return json.dumps(members, separators=(",", ":")).encode()


class Talk:
    """`gated replay` or `gated deliver`, a line at a time."""

    def __init__(self, words):
        self.program = subprocess.Popen(
            words, stdin=subprocess.PIPE, stdout=subprocess.PIPE, stderr=subprocess.PIPE, bufsize=0
        )
        self.got = b""

    def send(self, line):
        try:
            self.program.stdin.write(line + b"\n")
        except BrokenPipeError:
            raise Ended(f"status {self.program.wait()}: {self.program.stderr.read()}") from None

    def answer(self, deadline=None):
        """The next answer without its LF; None where it isn't there whole at the deadline."""
        while b"\n" not in self.got:
            if deadline is not None:
                left = deadline - time.monotonic()
                if left <= 0 or not select.select([self.program.stdout], [], [], left)[0]:
                    return None
            more = self.program.stdout.read(65536)
            if not more:
                raise Ended(f"status {self.program.wait()}: {self.program.stderr.read()}")
            self.got += more
        answer, self.got = self.got.split(b"\n", 1)
        return answer

    def ask(self, line):
        self.send(line)
        return self.answer()

    def end(self):
        """Ends the input; what was written after the last answer, and all of the error output."""
        self.program.stdin.close()
        rest = self.got + self.program.stdout.read()
        errors = self.program.stderr.read()
        status = self.program.wait()
        assert status == 0 and errors == b"", f"status {status}: {errors}"
        return rest

    def kill(self):
        """Kills it by SIGKILL; what it had written after the last answer."""
        self.program.kill()
        self.program.wait()
        self.program.stdin.close()
        rest = self.got + self.program.stdout.read()
        self.program.stdout.close()
        self.program.stderr.close()
        return rest


class Forge:
    """What a forge and its workers know, and what they send next."""

    def __init__(self, seed):
        self.random = random.Random(seed)
        self.sent = []
        self.known = {}
        self.orders = []
        self.running = []
        self.numbers = 0

    def new_id(self):
        self.numbers += 1
        return f"{self.random.getrandbits(32):08x}-0000-4000-8000-{self.numbers:012x}"

    def any_change(self):
        return self.random.choice(list(self.known)) if self.known else 1

    def message(self):
        """Sometimes with footers that name needed changes."""
        needs = [self.random.randint(1, len(self.known) + 1) for _ in range(self.random.choice([0, 0, 0, 1, 2]))]
        return "A change\n\n" + "".join(f"Depends-On: https://forge/c/{need}\n" for need in needs)

    def members(self, kind):
        if kind == "revision":
            change = len(self.known) + 1 if self.random.random() < 0.85 else self.any_change()
            number, project = self.known.get(change, (0, self.random.choice(PROJECTS)))
            return {"change": change, "project": project, "revision": number + 1, "message": self.message()}
        if kind in ("approved", "withdrawn", "closed"):
            change = self.any_change()
            return {"change": change, "revision": self.known.get(change, (1, ""))[0]}
        if kind in ("landed", "refused"):
            return {"order": self.random.choice(self.orders[:4] or [1])}
        if kind == "take":
            return {"worker": f"w{self.random.randint(1, 3)}"}
        build = self.random.choice(self.running or [1])
        return {"build": build, "outcome": self.random.choice(["success"] * 8 + ["failure", "lost"])}

    def next_line(self):
        """A delivery; now and then one that was sent, its id with another delivery, or what is none."""
        chance = self.random.random()
        if self.sent and chance < 0.05:
            return line_of(self.random.choice(self.sent))
        if self.sent and chance < 0.07:
            return line_of({**self.members("take"), "kind": "take", "id": self.random.choice(self.sent)["id"]})
        if chance < 0.09:
            return self.random.choice([b"nul", b"{}", b"[1]", b'{"id":7}', b"\xff"])
        kind = self.random.choices(KINDS, [3, 5, 0.3, 0.3, 3, 0.4, 5, 5])[0]
        members = {"id": self.new_id(), "kind": kind, **self.members(kind)}
        self.sent.append(members)
        return line_of(members)

    def hear(self, line, answer):
        """Learns from the answer to a line."""
        reply = json.loads(answer).get("reply")
        if reply is None:
            return
        said = json.loads(line)
        kind = said["kind"]
        if kind == "revision" and reply == "recorded":
            self.known[said["change"]] = (said["revision"], said["project"])
        elif reply == "queued":
            self.orders.append(json.loads(answer)["order"])
        elif kind in ("landed", "refused") and said["order"] in self.orders:
            self.orders.remove(said["order"])
        elif reply == "build":
            self.running.append(json.loads(answer)["build"])
        elif kind == "result" and said["build"] in self.running:
            self.running.remove(said["build"])
        if len(self.orders) > 6 and self.random.random() < 0.2:
            self.orders.pop(0)


def conversation(program, settings, seed, count):
    """So many lines, the answers of one unbroken `gated replay`, and the status text at its end."""
    forge = Forge(seed)
    talk = Talk([program, "replay", settings, "--status"])
    lines, answers = [], []
    for _ in range(count):
        line = forge.next_line()
        answer = talk.ask(line)
        forge.hear(line, answer)
        lines.append(line)
        answers.append(answer)
    return lines, answers, talk.end().decode()


def accepted(lines, answers):
    """The id and the reply of each accepted delivery, in order."""
    kept = {}
    for line, answer in zip(lines, answers):
        if b'"reply":' in answer:
            kept.setdefault(bytes.fromhex(json.loads(line)["id"].replace("-", "")), answer.decode())
    return list(kept.items())


def rows_in(path):
    """All rows of a gate's file, which any SQLite has found whole."""
    file = sqlite3.connect(path)
    found = file.execute("PRAGMA integrity_check").fetchall()
    assert found == [("ok",)], f"integrity_check: {found}"
    rows = {table: file.execute(f'SELECT * FROM "{table}" ORDER BY rowid').fetchall() for table in TABLES}
    file.close()
    return rows


def answers_kept(rows):
    return [(row[0], row[2]) for row in rows["delivery"]]


REPLIES = [
    rb'\{"reply":"(recorded|stale|waiting|already|removed|noted)"\}',
    rb'\{"order":[1-9][0-9]*,"reply":"queued"\}',
    rb'\{"n":[1-9][0-9]*,"reply":"landed"\}',
    rb'\{"after":[0-9]+,"ahead":\[(\[[0-9]+,[0-9]+\](,\[[0-9]+,[0-9]+\])*)?\],"build":[1-9][0-9]*,"change":[1-9][0-9]*,'
    rb'"job":"[^"]+","queue":"[^"]+","reply":"build","revision":[1-9][0-9]*\}',
]

REPLY = re.compile(b"|".join(REPLIES))

REFUSALS = {
    "E1": ("bad-json", 400),
    "E2": ("bad-delivery", 422),
    "E3": ("wrong-door", 404),
    "E4": ("id-reused", 409),
    "E5": ("unknown-change", 404),
    "E6": ("unknown-revision", 404),
    "E7": ("unknown-project", 422),
    "E8": ("project-changed", 409),
    "E9": ("submitting", 409),
    "E10": ("no-order", 404),
    "E11": ("unknown-build", 404),
    "E12": ("idle", 404),
    "E13": ("too-many-needs", 422),
    "E14": ("exhausted", 507),
    "E15": ("unavailable", 503),
}

TOO_LARGE = b'{"error":"too-large"}'


def refusal(number):
    return f'{{"code":"{number}","error":"{REFUSALS[number][0]}"}}'.encode()


STATUSES = {refusal(number): status for number, (_, status) in REFUSALS.items()}
