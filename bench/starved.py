"""Refuses `gated` each of its requests for memory in turn, one a run, and sees what it does then.

starved.py PROGRAM SHIM FOLDER MOST JOBS [COMMAND..]: SHIM is `refuse.c`, built. Of a command with over MOST places
about so many are tried, JOBS at a time. COMMAND names some of the commands, by default each that the program has.

A run either does what it does with ample memory, or tells want of memory where that is documented: the command ends
with a fault before it has read anything, a line or a request is answered `unavailable`, a history breaks off. What was
answered so, or never, has changed nothing, and when it is told again it gets its answer, and leaves the rows that it
leaves with ample memory.
"""
import os
import re
import sys

from deliveries import DELIVERIES, ENTERED, ENTERING, HISTORY, LEAVING, QUEUED_FIRST, told
from paged import made, page_of, paged
from starving import AMPLE, Case, Files, Program, Sweep, copy
from talk import SETTINGS, refusal

UNAVAILABLE = refusal("E15")

BEFORE = "before any line"

COMMANDS = ["check", "replay", "init", "deliver", "serve", "migrate"]

MORE = ["status", "history"]

NOT_SHUT = "done, but the file was not closed"

EARLIER = os.path.join(os.path.dirname(os.path.abspath(__file__)), "earlier")

OTHERS = """
[[queue]]
name = "docs"
window = 3
floor = 1

[[project]]
name = "book"
queue = "docs"
[[project.job]]
name = "unit"
"""

STORE = b"gated: I7 store\n"


def head(status, kind, length):
    fields = [f"HTTP/1.1 {status}", f"Content-Type: {kind}", length, "Connection: close", "", ""]
    return "\r\n".join(field for field in fields if field is not None).encode()


LENGTH = f"Content-Length: {len(UNAVAILABLE)}"

SERVED_UNAVAILABLE = head("503 Service Unavailable", "application/json", LENGTH) + UNAVAILABLE


def texts(lines):
    return b"".join(line + b"\n" for line in lines)


class Check(Case):
    name = "check"

    def __init__(self, gate):
        self.gate = gate
        self.words = ["check", gate.settings]

    def run(self, folder, place):
        return self.gate.program.run(self.words, b"", place)

    def judge(self, folder, done):
        if done.is_done(b"ok: 2 queues, 3 projects, 4 jobs\n"):
            return AMPLE
        return "told" if done.is_early() else None


class Replay(Case):
    """Of the lines one may be answered `unavailable`, and the others then as if it weren't there."""

    def __init__(self, gate, name, lines, answers):
        """The answers are those of the last lines."""
        self.name = f"replay, {name}"
        self.gate = gate
        self.words = ["replay", gate.settings, "--status"]
        self.lines = lines
        self.ample = self.run(None, None).output
        said = self.ample.split(b"\n")[: len(lines)]
        assert said[-len(answers) :] == answers, self.ample
        self.answers = texts(said)
        self.marked = {self.without(place) for place in range(len(lines))}

    def run(self, _, place, lines=None):
        return self.gate.program.run(self.words, texts(self.lines if lines is None else lines), place)

    def without(self, place):
        others = self.run(None, None, self.lines[:place] + self.lines[place + 1 :]).output.split(b"\n")
        return b"\n".join(others[:place] + [UNAVAILABLE] + others[place:])

    def judge(self, folder, done):
        if done.is_done(self.ample):
            return AMPLE
        if done.output in self.marked and done.is_done(done.output):
            return "a line unavailable"
        if (done.status, done.output, done.errors) == (1, self.answers, b"gated: E15 unavailable\n"):
            return "no status"
        return BEFORE if done.is_early() else None


class Init(Case):
    name = "init"

    def __init__(self, gate):
        self.gate = gate
        self.wanted_rows = gate.files.rows(gate.empty)

    def run(self, folder, place):
        file = f"{folder}/file"
        copy(self.gate.none, file)
        return self.gate.program.run(["init", self.gate.settings, file], b"", place)

    def judge(self, folder, done):
        file, files = f"{folder}/file", self.gate.files
        if done.is_done(b""):
            return AMPLE if files.rows(file) == self.wanted_rows else None
        if (done.status, done.output, done.errors) == (1, b"", STORE):
            return NOT_SHUT if files.rows(file) == self.wanted_rows else None
        if not done.is_early() or files.tables(file) != []:
            return None
        again = self.gate.program.run(["init", self.gate.settings, file])
        return "told" if again.is_done(b"") and files.rows(file) == self.wanted_rows else None


class Taken(Case):
    """A command that gives a file other tables or settings: all or none, and all when it is asked again."""

    wanted = "told, and all as before"
    # what a fault behind that comes to, where the command goes on
    behind = None

    def __init__(self, gate, folder, start):
        """Over copies of this file."""
        self.gate = gate
        self.start = start
        self.before = gate.files.whole(start)
        copy(start, f"{folder}/file")
        assert self.is_taken(folder)
        self.after = gate.files.whole(f"{folder}/file")
        assert self.after != self.before

    def is_taken(self, folder):
        return self.ask(folder, None).is_done(self.ample)

    def run(self, folder, place):
        copy(self.start, f"{folder}/file")
        return self.ask(folder, place)

    def judge(self, folder, done):
        left = self.gate.files.whole(f"{folder}/file")
        if done.is_done(self.ample):
            return AMPLE if left == self.after else None
        if (done.status, done.output, done.errors) == (1, self.ample, STORE):
            return NOT_SHUT if left == self.after else None
        if not done.is_early():
            return None
        word = self.wanted if left == self.before else self.behind if left == self.after else None
        is_taken = word and self.is_taken(folder) and self.gate.files.whole(f"{folder}/file") == self.after
        return word if is_taken else None


class Migrate(Taken):
    """A file of schema 1 that an earlier program made."""

    name = "migrate"
    ample = b"migrated 1 2\n"

    def ask(self, folder, place):
        return self.gate.program.run(["migrate", f"{EARLIER}/settings.toml", f"{folder}/file"], b"", place)


class Adopt(Taken):
    """A file of three items takes a queue more, and another window."""

    name = "deliver, other settings"
    behind = "told, with the settings taken"
    ample = b""

    def ask(self, folder, place):
        return self.gate.program.run(["deliver", self.gate.others, f"{folder}/file"], b"", place)


class OverFile(Case):
    """A delivery over a file."""

    def __init__(self, gate, folder, name):
        self.gate = gate
        self.start = f"{folder}/{name}"
        before, line, answer = told(name)
        self.line, self.answer = line + b"\n", answer + b"\n"
        gate.make(self.start, before)
        self.rows_before = gate.files.rows(self.start)
        copy(self.start, f"{folder}/file")
        assert self.is_answered(f"{folder}/file")
        self.rows_after = gate.files.rows(f"{folder}/file")

    def is_answered(self, file):
        """The delivery is told, and gets its answer."""
        return self.gate.program.run(["deliver", self.gate.settings, file], self.line).is_done(self.answer)

    def is_taken(self, folder):
        return self.gate.files.rows(f"{folder}/file") == self.rows_after

    def is_as_before(self, folder):
        """Nothing has changed, and the delivery gets its answer when it is told again."""
        file = f"{folder}/file"
        return self.gate.files.rows(file) == self.rows_before and self.is_answered(file) and self.is_taken(folder)


class Deliver(OverFile):
    def __init__(self, gate, folder, name):
        super().__init__(gate, folder, name)
        self.name = f"deliver, {name}"

    def run(self, folder, place):
        copy(self.start, f"{folder}/file")
        words = ["deliver", self.gate.settings, f"{folder}/file"]
        return self.gate.program.run(words, self.line, place)

    def judge(self, folder, done):
        if done.is_done(self.answer):
            return AMPLE if self.is_taken(folder) else None
        if (done.status, done.output, done.errors) == (1, self.answer, STORE):
            return NOT_SHUT if self.is_taken(folder) else None
        word = BEFORE if done.is_early() else "unavailable" if done.is_done(UNAVAILABLE + b"\n") else None
        return word if word and self.is_as_before(folder) else None


def word_of_connection(done, answer):
    """What became of a client that gets this with ample memory, where it doesn't change what is kept."""
    if done.is_told(0, SERVED_UNAVAILABLE, b""):
        return "unavailable"
    if done.is_told(0, b"", b"gated: I3 no-memory\n"):
        return "nothing sent, and told"
    if done.is_early() or (done.status, done.output, done.errors) == (1, b"", b"gated: I4 listen\n"):
        return "before it listened"
    return None


class Post(OverFile):
    """One client posts an approval."""

    def __init__(self, gate, folder):
        super().__init__(gate, folder, "approved")
        self.name = "serve, approved"
        body = self.line[:-1]
        self.request = f"POST /forge HTTP/1.1\r\nHost: gate\r\nContent-Length: {len(body)}\r\n\r\n".encode() + body
        self.ample = head("200 OK", "application/json", f"Content-Length: {len(QUEUED_FIRST)}") + QUEUED_FIRST

    def run(self, folder, place):
        copy(self.start, f"{folder}/file")
        return self.gate.program.serve(self.gate.settings, f"{folder}/file", self.request, place)

    def judge(self, folder, done):
        if done.is_told(0, self.ample, b""):
            return AMPLE if self.is_taken(folder) else None
        if done.is_told(1, self.ample, STORE):
            return NOT_SHUT if self.is_taken(folder) else None
        word = word_of_connection(done, self.ample)
        return word if word and self.is_as_before(folder) else None


class OfHistory(Case):
    """A question over a file from which many items have left."""

    def __init__(self, gate):
        self.gate = gate
        self.rows = gate.files.rows(gate.left)

    def is_kept(self, folder):
        """Nothing has changed, and the question gets its answer when it is asked again."""
        if self.gate.files.rows(f"{folder}/file") != self.rows:
            return False
        return self.judge_whole(self.ask(folder, None)) == AMPLE

    def run(self, folder, place):
        copy(self.gate.left, f"{folder}/file")
        return self.ask(folder, place)

    def judge(self, folder, done):
        word = self.judge_whole(done) or self.word_of(done)
        return word if word and self.is_kept(folder) else None


class GetHistory(OfHistory):
    """One client asks for the history: a beginning never has the last line, and its fault is told."""

    name = "serve, a history"
    wanted = "a beginning, and told"
    ample = head("200 OK", "text/plain", None) + HISTORY

    def ask(self, folder, place):
        request = b"GET /history/core HTTP/1.1\r\nHost: gate\r\n\r\n"
        return self.gate.program.serve(self.gate.settings, f"{folder}/file", request, place)

    def judge_whole(self, done):
        return AMPLE if done.is_told(0, self.ample, b"") else None

    def word_of(self, done):
        is_begun = b"" != done.answer != self.ample and self.ample.startswith(done.answer)
        if is_begun and done.is_told(0, done.answer, STORE):
            return self.wanted
        if done.is_told(1, self.ample, STORE):
            return NOT_SHUT
        return word_of_connection(done, self.ample)


class ShowHistory(OfHistory):
    name = "history"
    wanted = "a beginning, and told"

    def ask(self, folder, place):
        return self.gate.program.run(["history", self.gate.settings, f"{folder}/file", "core"], b"", place)

    def judge_whole(self, done):
        return AMPLE if done.is_done(HISTORY) else None

    def word_of(self, done):
        told = done.status, done.errors
        if told == (1, STORE) and HISTORY.startswith(done.output):
            return NOT_SHUT if done.output == HISTORY else self.wanted
        if done.output == b"" and told == (1, b"gated: E15 unavailable\n"):
            return "unavailable"
        return "before it was asked" if done.is_early() else None


class ShowStatus(OfHistory):
    name = "status"

    text = b"queue core window 4 landed 0\nqueue web window 2 landed 0\nend\n"

    def ask(self, folder, place):
        return self.gate.program.run(["status", self.gate.settings, f"{folder}/file"], b"", place)

    def judge_whole(self, done):
        return AMPLE if done.is_done(self.text) else None

    def word_of(self, done):
        if (done.status, done.output, done.errors) == (1, self.text, STORE):
            return NOT_SHUT
        if (done.status, done.output, done.errors) == (1, b"", b"gated: E15 unavailable\n"):
            return "unavailable"
        return "before it was asked" if done.is_early() else None


class Gate:
    """The program, its settings, and its files: an empty one, and one that many items have left."""

    def __init__(self, program, folder):
        self.program = program
        self.files = Files()
        self.settings = f"{folder}/settings.toml"
        self.others = f"{folder}/others.toml"
        with open(self.settings, "w") as kept:
            kept.write(SETTINGS)
        with open(self.others, "w") as kept:
            kept.write(SETTINGS.replace("window = 4", "window = 5") + OTHERS)
        self.none, self.empty, self.left = f"{folder}/none", f"{folder}/empty", f"{folder}/left"
        paged(self.none)
        made(program.path, self.settings, self.empty)
        self.make(self.left, LEAVING)

    def make(self, file, lines):
        """A file that was told these lines."""
        copy(self.empty, file)
        filled = self.program.run(["deliver", self.settings, file], texts(lines))
        assert filled.status == 0 and b"code" not in filled.output, filled

    def commands(self):
        """The commands that the program has, of those that are known here."""
        _, _, listed = self.program.run(["--help"]).output.decode().partition("\nCommands:\n")
        named = re.findall(r"^  ([a-z]+) ", listed, re.M)
        assert set(COMMANDS) <= set(named), named
        return COMMANDS + [name for name in MORE if name in named]


def cases(gate, folder, command):
    if command == "check":
        yield Check(gate)
    elif command == "init":
        yield Init(gate)
    elif command == "replay":
        yield Replay(gate, "four lines", ENTERING, ENTERED)
        for name in DELIVERIES:
            before, line, answer = told(name)
            yield Replay(gate, name, [*before, line, line], [answer, answer])
    elif command == "deliver":
        for name in DELIVERIES:
            yield Deliver(gate, folder, name)
        gate.make(f"{folder}/queued", told("take")[0])
        yield Adopt(gate, folder, f"{folder}/queued")
    elif command == "migrate":
        copy(f"{EARLIER}/gate.db", f"{folder}/earlier")
        paged(f"{folder}/earlier")
        yield Migrate(gate, folder, f"{folder}/earlier")
    elif command == "serve":
        yield Post(gate, folder)
        yield GetHistory(gate)
    elif command == "status":
        yield ShowStatus(gate)
    elif command == "history":
        yield ShowHistory(gate)


def main():
    path, shim, folder, most, jobs, *chosen = sys.argv[1:]
    gate = Gate(Program(path, shim), folder)
    sweep = Sweep(folder, int(most), int(jobs))
    print(f"{page_of(gate.empty)} a page", flush=True)
    for command in chosen or gate.commands():
        for case in cases(gate, folder, command):
            sweep.over(case)
    print("ok")


if __name__ == "__main__":
    main()
