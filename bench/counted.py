"""Runs a program under callgrind: its instructions, and how often it called some functions."""
import http.client
import re
import subprocess

CALLED = re.compile(r"^cfn=\((\d+)\)(?: (.*))?$")
NAMED = re.compile(r"^c?fn=\((\d+)\) (.*)$")
CALLS = re.compile(r"^calls=(\d+) ")

# A read is a statement that is asked for rows, a write one that is executed within a transaction.
READS = re.compile(r"Connection::query_near(::|$)")
WRITES = re.compile(r"Transaction::execute(::|$)")


class Counted:
    """Instructions, reads and writes of a run, or of the difference of two."""

    def __init__(self, instructions, reads, writes):
        self.instructions, self.reads, self.writes = instructions, reads, writes

    def over(self, other, lines):
        """A line's part of what this run has more than the other."""
        return Counted((self.instructions - other.instructions) / lines,
                       (self.reads - other.reads) / lines, (self.writes - other.writes) / lines)

    def part(self, count):
        """What one of so many comes to."""
        return Counted(self.instructions / count, self.reads / count, self.writes / count)

    def __str__(self):
        return f"{self.instructions / 1e6:.3f} million ({self.reads:.1f} reads, {self.writes:.1f} writes)"


def names(lines):
    """The functions that a profile speaks of, by the numbers that it gives them."""
    found = (NAMED.match(line) for line in lines)
    return {match.group(1): match.group(2) for match in found if match}


def calls(lines):
    """Pairs of a function that is called and how often, as they stand in a profile."""
    known = names(lines)
    called = None
    for line in lines:
        if match := CALLED.match(line):
            called = known[match.group(1)]
        elif match := CALLS.match(line):
            yield called, int(match.group(1))


def callgrind(words: list[str], profile: str, *options: str) -> list[str]:
    return ["valgrind", "--tool=callgrind", f"--callgrind-out-file={profile}", *options, *words]


def read(profile):
    """What a profile counts."""
    with open(profile, encoding="utf-8") as file:
        told = file.read().splitlines()
    total = next(line for line in told if line.startswith(("summary:", "totals:")))
    reads = writes = 0
    for name, count in calls(told):
        reads += count if READS.search(name) else 0
        writes += count if WRITES.search(name) else 0
    return Counted(int(total.split()[1]), reads, writes)


def counted(words, lines, profile, status=0):
    """What the program that is run by these words, and ends with this status, makes of lines on its input."""
    done = subprocess.run(callgrind(words, profile), input=lines, capture_output=True, check=False)
    if done.returncode != status:
        raise SystemExit(f"{words} ended with {done.returncode}: {done.stderr[-500:]}")
    return read(profile), done.stdout


def counted_behind(words: list[str], before: list[bytes], lines: bytes, profile: str) -> tuple[Counted, bytes]:
    """What the program makes of lines on its input, and of its end, once it has answered each line before. Until then
    nothing is counted, which is much faster. It refuses the very first line when the file is open."""
    with subprocess.Popen(callgrind(words, profile, "--instr-atstart=no"), stdin=subprocess.PIPE,
                          stdout=subprocess.PIPE, stderr=subprocess.PIPE) as program:
        assert program.stdin and program.stdout
        for line in [b"no delivery\n", *before]:
            program.stdin.write(line)
            program.stdin.flush()
            program.stdout.readline()
        subprocess.run(["vgdb", f"--pid={program.pid}", "instrumentation", "on"], check=True, capture_output=True)
        output, errors = program.communicate(lines)
        if program.returncode != 0:
            raise SystemExit(f"{words} ended with {program.returncode}: {errors[-500:]}")
    return read(profile), output


def serving(words, requests, profile):
    """What the program that serves by these words makes of requests, each a method, a path and a body."""
    with subprocess.Popen(callgrind([*words, "--port", "0", "--count", str(len(requests))], profile), text=True,
                          stdout=subprocess.PIPE, stderr=subprocess.PIPE) as program:
        host, port = program.stdout.readline().split()[1].split(":")
        for method, path, body in requests:
            connection = http.client.HTTPConnection(host, int(port))
            connection.request(method, path, body)
            connection.getresponse().read()
            connection.close()
        if program.wait() != 0:
            raise SystemExit(f"{words} ended with {program.returncode}: {program.stderr.read()[-500:]}")
    return read(profile)
