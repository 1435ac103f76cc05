"""Runs of `gated` that are refused one request for memory each, at each place of a command in turn."""
import collections
import hashlib
import multiprocessing
import os
import re
import shutil
import socket
import sqlite3
import subprocess
import tempfile

from talk import rows_in

LISTENING = re.compile(rb"listening 127\.0\.0\.1:([1-9]\d*)\n")

AMPLE = "as with ample memory"

EARLY = {(1, b"gated: I3 no-memory\n"), (1, b"gated: C11 no-memory\n"), (1, b"gated: O4 unavailable\n")}


class Place:
    """The request that a run is refused, by its number, and whether the run met it. None refuses nothing."""

    def __init__(self, shim, number):
        self.number = number
        self.options = {}
        if number is not None:
            self.reads, self.writes = os.pipe()
            refused = {"LD_PRELOAD": shim, "REFUSED": str(number), "MET": str(self.writes)}
            self.options = {"env": {**os.environ, **refused}, "pass_fds": [self.writes]}

    def is_met(self):
        """After the run."""
        if self.number is None:
            return False
        os.close(self.writes)
        is_met = os.read(self.reads, 1) == b"!"
        os.close(self.reads)
        return is_met


class Run:
    """How a run ended, what it wrote, what its client got, and whether the refused request was met."""

    def __init__(self, status, output, errors, is_met, answer=None):
        self.status, self.output, self.errors, self.is_met, self.answer = status, output, errors, is_met, answer

    def is_early(self):
        """Whether it ended for want of memory before it read or printed anything, in a documented way."""
        is_usage = self.status == 2 and self.errors != b""
        return self.output == b"" and (is_usage or (self.status, self.errors) in EARLY)

    def is_done(self, output):
        return (self.status, self.output, self.errors) == (0, output, b"")

    def is_told(self, status, answer, errors):
        """Whether it served, its client got this, and it told this."""
        return (self.status, self.answer, self.errors) == (status, answer, errors) and LISTENING.fullmatch(self.output)

    def __str__(self):
        said = f"status {self.status}, output {self.output[-300:]}, errors {self.errors[:300]}"
        return said if self.answer is None else f"{said}, answer {self.answer[-300:]}"


def ask(port, request):
    """What a connection gets, to its end, which may be a reset."""
    answer = b""
    try:
        with socket.create_connection(("127.0.0.1", port), timeout=60) as stream:
            stream.sendall(request)
            while more := stream.recv(65536):
                answer += more
    except ConnectionError:
        pass
    return answer


class Program:
    """`gated`, and the library that refuses it memory."""

    def __init__(self, path, shim):
        self.path = path
        self.shim = shim

    def run(self, words, given=b"", place=None):
        refused = Place(self.shim, place)
        done = subprocess.run([self.path, *words], input=given, capture_output=True, **refused.options)
        return Run(done.returncode, done.stdout, done.stderr, refused.is_met())

    def serve(self, settings, file, request, place=None):
        """Serves one client, which sends this once the port is printed."""
        refused = Place(self.shim, place)
        words = [self.path, "serve", settings, file, "--port", "0", "--count", "1"]
        program = subprocess.Popen(words, stdout=subprocess.PIPE, stderr=subprocess.PIPE, **refused.options)
        line = program.stdout.readline()
        listening = LISTENING.fullmatch(line)
        answer = ask(int(listening[1]), request) if listening else b""
        output, errors = program.communicate()
        return Run(program.returncode, line + output, errors, refused.is_met(), answer)


def copy(old, new):
    """A gate's file and its log."""
    for end in ("", "-wal"):
        if os.path.exists(old + end):
            shutil.copyfile(old + end, new + end)
        elif os.path.exists(new + end):
            os.remove(new + end)


class Files:
    """What gates' files hold, read once for the same bytes."""

    def __init__(self):
        self.known = {}

    def rows(self, file):
        """The rows, read from a copy, since a reader may write there."""
        return self.read(file, rows_in)

    def tables(self, file):
        return self.read(file, tables_in)

    def whole(self, file):
        """All tables and indexes, and the rows, whatever the schema."""
        return self.read(file, whole_in)

    def read(self, file, reader):
        copy(file, f"{file}.read")
        bytes_of = hashlib.sha256()
        for end in ("", "-wal"):
            if os.path.exists(f"{file}.read{end}"):
                with open(f"{file}.read{end}", "rb") as kept:
                    bytes_of.update(kept.read())
            bytes_of.update(b"|")
        key = reader, bytes_of.digest()
        if key not in self.known:
            if len(self.known) > 100:
                self.known.clear()
            self.known[key] = reader(f"{file}.read")
        return self.known[key]


def tables_in(path):
    file = sqlite3.connect(path)
    names = file.execute("SELECT name FROM sqlite_master").fetchall()
    file.close()
    return names


def whole_in(path):
    file = sqlite3.connect(path)
    listed = file.execute("SELECT type, name, sql FROM sqlite_master ORDER BY name").fetchall()
    names = [name for kind, name, _ in listed if kind == "table"]
    rows = {name: sorted(file.execute(f"SELECT * FROM {name}"), key=repr) for name in names}
    file.close()
    return listed, rows


class Case:
    """A command that is refused memory: how it is run in a folder, and what became of it there."""

    # what at least one run has to come to
    wanted = None

    def run(self, folder, place):
        raise NotImplementedError

    def judge(self, folder, done):
        """A word for how it went, or None where it went wrong."""
        raise NotImplementedError


def count_of(case, folder):
    """How many requests a command makes: the first place that no run meets, less one."""
    low, high = 0, 1
    while case.run(folder, high).is_met:
        low, high = high, high * 2
        assert high < 10_000_000, f"{case.name}: the sweep has no end"
    while high - low > 1:
        middle = (low + high) // 2
        low, high = (middle, high) if case.run(folder, middle).is_met else (low, middle)
    return low


def enter(case, work):
    """Gives a worker of a sweep its case, and a folder of its own."""
    global CASE, FOLDER
    CASE, FOLDER = case, tempfile.mkdtemp(dir=work)


def try_place(place):
    done = CASE.run(FOLDER, place)
    word = CASE.judge(FOLDER, done) if done.is_met else None
    return word, f"place {place}{'' if done.is_met else ', which is not met'}: {done}"


class Sweep:
    """The places of a command, each in turn or some of them, up to the first that no run meets."""

    def __init__(self, work, most, jobs):
        self.work = work
        self.most = most
        self.jobs = jobs

    def over(self, case):
        folder = tempfile.mkdtemp(dir=self.work)
        count = count_of(case, folder)
        tried = range(1, count + 1, max(1, -(-count // self.most)))
        words = collections.Counter()
        with multiprocessing.get_context("fork").Pool(self.jobs, enter, (case, self.work)) as pool:
            for word, said in pool.imap_unordered(try_place, tried, 8):
                assert word, f"{case.name}: {said}"
                words[word] += 1
        assert words.total() > words[AMPLE], f"{case.name}: no refusal is told"
        assert case.wanted is None or words[case.wanted], f"{case.name}: none came to {case.wanted}"
        told = ", ".join(f"{number} {word}" for word, number in sorted(words.items()))
        print(f"{case.name}: {count} places, {len(tried)} tried: {told}", flush=True)
