"""Tells `gated` what nobody should send, and sees that each answer is one of those that docs/FORMATS.md has.

hostile.py PROGRAM SEED FOLDER PART..: the parts are replay, deliver, check, file and serve; COUNT, in the environment,
is how many lines each of the first two is told. A third as many settings files are checked and requests served, and a
thirtieth as many gate's files are damaged.
"""
import collections
import json
import os
import random
import re
import socket
import struct
import subprocess
import sys

from judge import refused
from paged import made, page_in, page_of
from talk import (
    PROJECTS,
    REFUSALS,
    REPLY,
    SETTINGS,
    STATUSES,
    TOO_LARGE,
    WORKERS,
    Forge,
    Talk,
    accepted,
    answers_kept,
    line_of,
    refusal,
    rows_in,
)

MOST_BYTES = 65_536

# what memory may grow by in a part, in KiB
MOST_GROWTH = 1_024

# what one accepted delivery may keep in memory, on the average, in KiB
MOST_KEPT = 1

HARMLESS = {refusal(number) for number in REFUSALS if number not in ("E14", "E15")} | {TOO_LARGE}

BAD_TEXTS = [
    b"\xff", b"\xc0\x80", b"\xed\xa0\x80", b"\xf5\x80\x80\x80", b"\\ud800", b"\\u0000", b"\xef\xbb\xbf", b"\x00",
]

BAD_VALUES = [None, True, [], {}, "", "x" * 65, "..", 1.5, -1, "\ud800", "é"]

NUMBERS = [
    b"0", b"-0", b"-1", b"1.0", b"1e2", b"1e400", b"1e-400", b"9" * 400, b"1000000000", b"10000000000000001",
    b"18446744073709551616", b"01", b"+1", b"0x1", b"NaN", b"Infinity", b"1e", b"true", b"null", b'"1"', b"[1]", b"{}",
]


def cut(chances, line):
    return line[: chances.randrange(len(line))]


def doubled(chances, line):
    start = chances.randrange(len(line))
    end = chances.randrange(start, len(line)) + 1
    return line[:end] + line[start:end] * chances.choice([1, 1, 2, 50]) + line[end:]


def flipped(chances, line):
    bytes_now = bytearray(line)
    for _ in range(chances.choice([1, 1, 2, 8])):
        bytes_now[chances.randrange(len(line))] ^= 1 << chances.randrange(8)
    return bytes(bytes_now)


def recoded(chances, line):
    if chances.random() < 0.2:
        return line.decode("utf-8", "replace").encode(chances.choice(["utf-16", "utf-16-le", "utf-32", "utf-7"]))
    at = chances.randrange(len(line))
    return line[:at] + chances.choice(BAD_TEXTS) + line[at:]


def nested(chances, line):
    deep = chances.choice([1, 125, 126, 127, 128, 500, 20_000])
    left, right = chances.choice([(b"[", b"]"), (b'{"a":', b"}"), (b"[", b""), (b'{"a":[', b"]}")])
    inner = left * min(deep, 65_000 // len(left)) + b"1" + right * deep
    return inner if chances.random() < 0.3 else line[:-1] + b',"x":' + inner + b"}"


def renumbered(chances, line):
    return re.sub(rb"(?<=:)[0-9]+", lambda _: chances.choice(NUMBERS), line, count=1)


def lengthened(chances, line):
    wanted = chances.choice([16_384, 16_385, 65_535, 65_536, 65_537, 70_000, 200_000])
    filler = chances.choice([b" ", b"\t", b"a", b"[", b"\x00", b"\r"])
    if chances.random() < 0.5:
        return line + filler * max(wanted - len(line), 0)
    return line[:-1] + b',"message":"' + filler * max(wanted - len(line) - 15, 0) + b'"}'


def swapped(chances, line):
    """Members that are missing, doubled, of another kind, or in another place."""
    try:
        members = list(json.loads(line).items())
    except (ValueError, AttributeError):
        members = []
    if not members:
        return line + line
    change = chances.randrange(4)
    at = chances.randrange(len(members))
    if change == 0:
        members.pop(at)
    elif change == 1:
        members[at] = (members[at][0], chances.choice(BAD_VALUES))
    elif change == 2:
        members.append((members[at][0], chances.choice([members[at][1], 0, "", "take"])))
    else:
        chances.shuffle(members)
    return b"{" + b",".join(line_of({name: value})[1:-1] for name, value in members) + b"}"


def noise(chances, _):
    return chances.randbytes(chances.choice([0, 1, 10, 100, 5_000]))


WAYS = [cut, doubled, flipped, recoded, nested, renumbered, lengthened, swapped, noise]


def broken(chances, line):
    """One hostile line, and the name of the way in which it is hostile."""
    way = chances.choice(WAYS)
    return way.__name__, way(chances, line or b"{}").replace(b"\n", b" ")


def documented(answer, line, door=None):
    """Whether a line may be answered so, with ample memory and a good disk."""
    if len(line) > MOST_BYTES:
        return answer == TOO_LARGE
    wanted = refused(line, door)
    if wanted is not None:
        return answer == wanted
    early = {TOO_LARGE, refusal("E1"), refusal("E2"), refusal("E3")}
    return bool(REPLY.fullmatch(answer)) or (answer in HARMLESS and answer not in early)


def memory(pid):
    """What a process has in memory, and the most that it had, in KiB."""
    with open(f"/proc/{pid}/status") as status:
        rows = dict(line.split(":", 1) for line in status)
    return int(rows["VmRSS"].split()[0]), int(rows["VmHWM"].split()[0])


class Memory:
    """What a process had once it was warm, and what it may have at the end, with so many deliveries kept there."""

    def __init__(self, pid):
        self.pid = pid
        self.rss, self.most = memory(pid)

    def check(self, kept):
        rss, most = memory(self.pid)
        limit = MOST_GROWTH + MOST_KEPT * kept
        assert rss - self.rss <= limit, f"memory grew from {self.rss} to {rss} KiB, with {kept} deliveries kept"
        assert most - self.most <= limit, f"the most memory grew from {self.most} to {most} KiB"
        return f"VmRSS {self.rss} to {rss} KiB, VmHWM {self.most} to {most} KiB"


def good_delivery(number):
    """A delivery that any gate of the settings accepts, once."""
    members = {"id": f"ffffffff-0000-4000-8000-{number:012x}", "kind": "revision", "change": 999_000_000 + number}
    return line_of({**members, "project": PROJECTS[number % 3], "revision": 1, "message": ""})


RECORDED = b'{"reply":"recorded"}'


def tell_hostile(words, chances, count, is_kept):
    """Hostile lines, good ones among them; a good one at the end is answered. What was sent, and the answers."""
    talk = Talk(words)
    forge = Forge(chances.randrange(2**32))
    counts = collections.Counter()
    sent, answers = [], []
    warm = None
    for number in range(count):
        line = forge.next_line()
        name, hostile = ("good", line) if chances.random() < 0.1 else broken(chances, line)
        answer = talk.ask(hostile)
        assert documented(answer, hostile), f"{name}: {hostile[:300]} is answered {answer}"
        if name == "good":
            forge.hear(hostile, answer)
        counts[name] += 1
        sent.append(hostile if answer.startswith(b'{"') and b'"reply":' in answer else b"")
        answers.append(answer)
        if number == count // 10:
            warm, warm_kept = Memory(talk.program.pid), sum(1 for line in sent if line)
    good = good_delivery(1)
    assert talk.ask(good) == RECORDED, "a good delivery isn't recorded"
    sent.append(good)
    answers.append(RECORDED)
    used = warm.check(sum(1 for line in sent if line) - warm_kept if is_kept else 0)
    assert talk.end() == b""
    return sent, answers, counts, used


def told(part, counts, more):
    kinds = ", ".join(f"{number} {name}" for name, number in sorted(counts.items()))
    print(f"{part}: {sum(counts.values())}: {kinds}; {more}")


def replay(program, settings, chances, count, _):
    _, answers, counts, used = tell_hostile([program, "replay", settings], chances, count, True)
    told("replay", counts, f"{sum(1 for answer in answers if REPLY.fullmatch(answer))} accepted; {used}")
    ends(program, settings, chances, count // 50)


def ends(program, settings, chances, count):
    """Inputs that are cut anywhere, a line's end or not, each to a program of its own."""
    forge = Forge(chances.randrange(2**32))
    for _ in range(count):
        whole = b"\n".join(broken(chances, forge.next_line())[1] for _ in range(chances.randrange(1, 4)))
        given = whole[: chances.randrange(len(whole) + 1)] if whole else b""
        done = subprocess.run([program, "replay", settings], input=given, capture_output=True)
        lines = given.split(b"\n")
        lines = lines if lines[-1] else lines[:-1]
        answers = done.stdout.split(b"\n")[:-1]
        assert done.returncode == 0 and done.stderr == b"", f"{given[:300]}: {done}"
        assert done.stdout.endswith(b"\n") or not lines, f"{given[:300]}: {done.stdout}"
        assert len(answers) == len(lines), f"{given[:300]}: {done.stdout}"
        for line, answer in zip(lines, answers):
            assert documented(answer, line), f"{line[:300]} is answered {answer}"
    print(f"replay: {count} inputs that end anywhere")


def deliver(program, settings, chances, count, folder):
    file = f"{folder}/gate"
    made(program, settings, file)
    sent, answers, counts, used = tell_hostile([program, "deliver", settings, file], chances, count, False)
    rows = rows_in(file)
    wanted = accepted_in(sent, answers)
    assert answers_kept(rows) == wanted, "the kept replies aren't those that were given"
    told("deliver", counts, f"{len(wanted)} kept; {used}; {page_of(file)} a page")


def accepted_in(sent, answers):
    """As `accepted`, where an id may have any of its forms."""
    lines = []
    for line, answer in zip(sent, answers):
        if line:
            digits = re.sub(r"[^0-9a-fA-F]", "", re.sub("(?i)^urn:uuid:", "", json.loads(line)["id"]))
            lines.append((line_of({"id": digits}), answer))
    return accepted([line for line, _ in lines], [answer for _, answer in lines])


SETTINGS_FAULTS = re.compile(
    rb"gated: (C1 not-toml|C2 missing-member|C3 wrong-kind|C4 unknown-member|C5 bad-name|C6 double-name"
    rb"|C7 unknown-queue|C8 bad-window|C9 no-voting-job|C10 limit|I5 settings-file)\n"
)

COUNTS = re.compile(rb"ok: ([1-9]|[12][0-9]|3[0-2]) queues, [1-9][0-9]{0,2} projects, [1-9][0-9]{0,3} jobs\n")

# a change of the settings, and the fault that it makes
FAULTY = [
    ('base = "https://forge/c/"', "", "C2"),
    ('[[queue]]\nname = "web"', "[[queue]]", "C2"),
    ("window = 4\n", "window = true\n", "C3"),
    ("window = 4\n", "window = 4.0\n", "C3"),
    ("voting = false", 'voting = "false"', "C3"),
    ("floor = 1", "floor = 1\ncolour = 1", "C4"),
    ("[forge]", '[forge]\n"" = 1', "C4"),
    ('base = "https://forge/c/"', 'base = "https://forge /c/"', "C5"),
    ('name = "docs"', 'name = "do/cs"', "C5"),
    ('name = "site"', 'name = "lib"', "C6"),
    ('name = "docs"', 'name = "unit"', "C6"),
    ('queue = "web"', 'queue = "core2"', "C7"),
    ("window = 4\n", "window = 1001\n", "C8"),
    ("floor = 1", "floor = 0", "C8"),
    ("window = 4\n", "window = -1\n", "C8"),
    ("window = 4\n", 'window = 4\nincrease = "fast"\n', "C8"),
    ("window = 4\n", "window = 4\ndecrease_by = 1001\n", "C8"),
    ("window = 4\n", 'window = 4\nincrease_by = "2"\n', "C3"),
    ('queue = "web"\n', 'queue = "web"\nfail_fast = 1\n', "C3"),
    ('name = "site"\nqueue = "web"\n[[project.job]]\nname = "unit"', 'name = "site"\nqueue = "web"', "C9"),
]


def faulty(chances):
    """Settings with one to three faults, and the least of these."""
    text, faults = SETTINGS, []
    for old, new, fault in chances.sample(FAULTY, chances.choice([1, 2, 3])):
        if old in text:
            text = text.replace(old, new, 1)
            faults.append(fault)
    # more jobs of the last project, which are voting ones
    if "C9" not in faults and chances.random() < 0.1:
        text += "".join(f'[[project.job]]\nname = "more{number}"\n' for number in range(40))
        faults.append("C10")
    if chances.random() < 0.1:
        return text + "\n[forge\n", "C1"
    return text, min(faults, key=lambda fault: int(fault[1:]))


def checked(program, path, given):
    """The answer of `check`, or that it ended in another way than one of the documented."""
    with open(path, "wb") as kept:
        kept.write(given)
    done = subprocess.run([program, "check", path], capture_output=True)
    if done.returncode == 0:
        assert COUNTS.fullmatch(done.stdout) and done.stderr == b"", f"{given[:500]}: {done}"
        return b"ok"
    is_told = done.returncode == 1 and done.stdout == b"" and SETTINGS_FAULTS.fullmatch(done.stderr)
    assert is_told, f"{given[:500]}: {done}"
    return done.stderr.split(b" ")[1]


def check(program, settings, chances, count, folder):
    path = f"{folder}/hostile.toml"
    counts = collections.Counter()
    found = collections.Counter()
    for _ in range(count):
        if chances.random() < 0.3:
            text, fault = faulty(chances)
            answer = checked(program, path, text.encode())
            assert answer == fault.encode(), f"{text}: {answer}, wanted {fault}"
            counts["with a known fault"] += 1
        else:
            way = chances.choice(WAYS)
            given = way(chances, SETTINGS.encode())
            if chances.random() < 0.01:
                given += b" " * (1_048_577 - len(given)) if len(given) < 1_048_577 else b""
            answer = checked(program, path, given)
            assert (answer == b"I5") == (len(given) > 1_048_576), f"{len(given)} bytes: {answer}"
            counts[way.__name__] += 1
        found[answer.decode()] += 1
    assert checked(program, settings, SETTINGS.encode()) == b"ok"
    told("check", counts, ", ".join(f"{number} {answer}" for answer, number in sorted(found.items())))


FILE_FAULTS = re.compile(rb"gated: (O1 wrong-file|O2 other-schema|O3 other-settings|O4 unavailable|I7 store)\n")


def damaged(chances, good):
    """A gate's file that somebody broke."""
    bytes_now = bytearray(good)
    way = chances.randrange(4)
    if way == 0:
        for _ in range(chances.choice([1, 4, 64])):
            bytes_now[chances.randrange(len(good))] ^= 1 << chances.randrange(8)
    elif way == 1:
        bytes_now = bytes_now[: chances.randrange(len(good))]
    elif way == 2:
        at = chances.randrange(len(good))
        bytes_now[at : at + 512] = chances.randbytes(512)
    else:
        at, other, page = chances.randrange(len(good)), chances.randrange(len(good)), page_in(good)
        bytes_now[at : at + page] = good[other : other + page]
    return bytes(bytes_now)


def file(program, settings, chances, count, folder):
    """Files that are no longer a gate's. The answers are nowhere promised, but the program ends as it says."""
    whole = f"{folder}/whole"
    made(program, settings, whole)
    forge = Forge(chances.randrange(2**32))
    talk = Talk([program, "deliver", settings, whole])
    for _ in range(400):
        line = forge.next_line()
        forge.hear(line, talk.ask(line))
    second = subprocess.run([program, "deliver", settings, whole], input=good_delivery(1), capture_output=True)
    assert (second.returncode, second.stdout, second.stderr) == (1, b"", b"gated: O4 unavailable\n"), second
    assert talk.ask(good_delivery(2)) == RECORDED, "a second program disturbs the first"
    talk.end()
    with open(whole, "rb") as kept:
        good = kept.read()
    counts = collections.Counter()
    path = f"{folder}/damaged"
    for _ in range(count):
        with open(path, "wb") as kept:
            kept.write(damaged(chances, good))
        lines = [forge.next_line() for _ in range(5)]
        done = subprocess.run(
            [program, "deliver", settings, path], input=b"\n".join(lines) + b"\n", capture_output=True, timeout=60
        )
        answers = done.stdout.split(b"\n")[:-1]
        for answer in answers:
            assert REPLY.fullmatch(answer) or answer in HARMLESS or answer == refusal("E15"), answer
        if done.returncode == 0:
            assert len(answers) == 5 and done.stderr == b"", done
            counts["answered, with E15" if refusal("E15") in answers else "answered"] += 1
        else:
            assert done.returncode == 1 and FILE_FAULTS.fullmatch(done.stderr), done
            assert len(answers) in (0, 5), done
            counts[done.stderr.split(b" ")[1].decode()] += 1
        for end in ("", "-wal"):
            if os.path.exists(path + end):
                os.remove(path + end)
    told("file", counts, f"damaged files of {len(good)} bytes, {page_in(good)} a page; a second program is refused")


OF_HTTP = {
    b'{"error":"head-too-large"}': 431,
    b'{"error":"cut"}': 400,
    b'{"error":"bad-request"}': 400,
    b'{"error":"no-route"}': 404,
    b'{"error":"no-queue"}': 404,
    b'{"error":"no-queue"}': 404,
    b'{"error":"method"}': 405,
    b'{"error":"length"}': 411,
    b'{"error":"too-large"}': 413,
}

RESPONSE = re.compile(
    rb"HTTP/1\.1 (\d{3}) [A-Za-z ]+\r\nContent-Type: (application/json|text/plain)\r\nContent-Length: (\d+)\r\n"
    rb"(Allow: (?:GET|POST)\r\n)?Connection: close\r\n\r\n(.*)\Z",
    re.DOTALL,
)


# a history has no length, and is whole with its last line
HISTORY = re.compile(
    rb"HTTP/1\.1 200 OK\r\nContent-Type: text/plain\r\nConnection: close\r\n\r\n"
    rb"history [A-Za-z0-9._-]+\n(?:[ 0-9]+ [a-z]+ +[0-9-]+\n)*end \d+\n\Z"
)


def judged(response, is_head):
    """The status of a response that docs/FORMATS.md has."""
    if HISTORY.match(response):
        return 200
    found = RESPONSE.match(response)
    assert found, response[:500]
    status, kind, length, allow, body = found.groups()
    assert len(body) == int(length) or (is_head and body == b""), response[:500]
    assert (allow is not None) == (status == b"405"), response[:500]
    if kind == b"application/json" and body and int(status) != 200:
        wanted = OF_HTTP.get(body) or STATUSES.get(body)
        assert wanted == int(status) and body != refusal("E15"), response[:500]
    else:
        assert int(status) == 200 or is_head, response[:500]
    return int(status)


TARGETS = ["/status", "/orders", "/builds/1", "/builds/0", "/history/core", "/history/nope", "/nowhere", "/status?a=b"]

FIELDS = [
    b"Content-Length: 5",
    b"Content-Length: +5",
    b"Content-Length: ",
    b"Content-Length: 99999999999999999999",
    b"Transfer-Encoding: chunked",
    b"X: " + b"y" * 9_000,
    b"a b: c",
    b" folded",
    b"\x00: 1",
    b"\r\n".join(b"F%d: 1" % number for number in range(70)),
]

HEADS = [
    b"a" * 8_192,
    b"a" * 9_000,
    b"\n" * 70,
    b"\r\n\r\n",
    b"GET / HTTP/2.0\r\n\r\n",
    b"get /status HTTP/1.1\r\n\r\n",
]


class Port:
    """A `gated serve`, and clients of it."""

    def __init__(self, words):
        self.program = subprocess.Popen(words, stdout=subprocess.PIPE, stderr=subprocess.PIPE)
        listening = self.program.stdout.readline()
        assert re.fullmatch(rb"listening 127\.0\.0\.1:\d+\n", listening), listening
        self.address = ("127.0.0.1", int(listening.rsplit(b":", 1)[1]))

    def send(self, request, is_closed):
        """The response to a request, and whether the connection broke: bytes that nobody reads may do that."""
        with socket.create_connection(self.address) as stream:
            response, is_broken = b"", False
            try:
                stream.sendall(request)
                if is_closed:
                    stream.shutdown(socket.SHUT_WR)
            except OSError:
                is_broken = True
            try:
                while more := stream.recv(65536):
                    response += more
            except OSError:
                is_broken = True
            return response, is_broken

    def leave(self, request, is_reset):
        """A client that goes without reading; by a reset, if so."""
        with socket.create_connection(self.address) as stream:
            stream.sendall(request)
            if is_reset:
                stream.setsockopt(socket.SOL_SOCKET, socket.SO_LINGER, struct.pack("ii", 1, 0))


def request_of(chances, line):
    """A good request with this delivery, or a question."""
    if chances.random() < 0.2:
        method = chances.choice(["GET", "GET", "HEAD", "POST"])
        return f"{method} {chances.choice(TARGETS)} HTTP/1.1\r\nHost: gate\r\n\r\n".encode()
    door = "worker" if any(b'"' + kind.encode() + b'"' in line for kind in WORKERS) else "forge"
    if chances.random() < 0.05:
        door = "forge" if door == "worker" else "worker"
    return f"POST /{door} HTTP/1.1\r\nHost: gate\r\nContent-Length: {len(line)}\r\n\r\n".encode() + line


def hostile_request(chances, forge):
    """A hostile request, and the name of the way in which it is hostile."""
    line = forge.next_line()
    request = request_of(chances, line)
    way = chances.randrange(6)
    if way == 0:
        name, body = broken(chances, line)
        return f"body {name}", request_of(chances, body)
    if way == 1:
        return "pipelined", request + request_of(chances, forge.next_line())
    if way == 2:
        head, _, body = request.partition(b"\r\n\r\n")
        field = chances.choice(FIELDS)
        return "field", head + b"\r\n" + field + b"\r\n\r\n" + body
    if way == 3:
        return "head", chances.choice(HEADS)
    if way == 4:
        return "flipped", flipped(chances, request)
    return "cut", cut(chances, request)


def serve(program, settings, chances, count, folder):
    """Each client ends its side, so that no request is waited for; those that go early read nothing."""
    kept = f"{folder}/served"
    made(program, settings, kept)
    silent, number, connections = 200, 0, 200 + count + 1
    port = Port([program, "serve", settings, kept, "--port", "0", "--count", str(connections)])
    forge = Forge(chances.randrange(2**32))
    counts, statuses = collections.Counter(), collections.Counter()
    for _ in range(silent):
        assert port.send(b"", True) == (b"", False), "a client that said nothing got an answer"
    counts["silent"] = silent
    warm = None
    for number in range(count):
        name, request = hostile_request(chances, forge)
        if chances.random() < 0.05:
            port.leave(request, chances.random() < 0.5)
            counts["gone"] += 1
        else:
            response, is_broken = port.send(request, True)
            counts[name] += 1
            if request and not is_broken:
                statuses[judged(response, request.startswith(b"HEAD"))] += 1
            elif is_broken:
                statuses["broken"] += 1
            else:
                assert response == b"", response
        if number == count // 10:
            warm = Memory(port.program.pid)
    used = warm.check(0)
    body = good_delivery(1)
    request = f"POST /forge HTTP/1.1\r\nHost: gate\r\nContent-Length: {len(body)}\r\n\r\n".encode() + body
    response, _ = port.send(request, False)
    assert response.startswith(b"HTTP/1.1 200 OK\r\n") and response.endswith(RECORDED), response
    errors = port.program.stderr.read()
    assert re.fullmatch(rb"(gated: I[12] (read|write)\n)*", errors), errors[:500]
    assert port.program.wait() == 0
    rows_in(kept)
    told("serve", counts, f"answers {dict(sorted(statuses.items(), key=repr))}; {used}; {page_of(kept)} a page")


PARTS = {"replay": (replay, 1), "deliver": (deliver, 1), "check": (check, 3), "file": (file, 30), "serve": (serve, 3)}


def main():
    program, seed, folder, *parts = sys.argv[1:]
    settings = f"{folder}/settings.toml"
    with open(settings, "w") as kept:
        kept.write(SETTINGS)
    for part in parts:
        run, share = PARTS[part]
        run(program, settings, random.Random(f"{seed} {part}"), int(os.environ.get("COUNT", "45000")) // share, folder)
    print("ok")


main()
