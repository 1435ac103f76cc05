"""Times Python's reader and writer of JSON on the lines, and puts the program's times beside them."""
import json
import subprocess
import sys
import time

from lines import reply

ROUNDS = 5


def best(work):
    """The least time of some rounds, in seconds, and what the work gave."""
    times = []
    for _ in range(ROUNDS):
        start = time.perf_counter()
        given = work()
        times.append(time.perf_counter() - start)
    return min(times), given


def main():
    program, path = sys.argv[1:]
    with open(path, "rb") as given:
        lines = given.read().splitlines()
    replies = [reply(number) for number in range(len(lines))]
    reading, _ = best(lambda: [json.loads(line) for line in lines])
    # `json.dumps` makes its encoder anew at each call where the separators aren't its own
    encode = json.JSONEncoder(separators=(",", ":")).encode
    writing, texts = best(lambda: [encode(it) for it in replies])
    with open(path, "rb") as given:
        done = subprocess.run([program], stdin=given, stdout=subprocess.PIPE, check=True, text=True)
    ours = dict(line.split() for line in done.stdout.splitlines())
    # the program did the same work
    assert int(ours["deliveries"]) == len(lines), ours
    assert int(ours["bytes"]) == sum(len(text) for text in texts), ours
    for name, call, nanoseconds, python in [
        ("read_delivery", "json.loads", int(ours["reading"]), reading),
        ("write_reply", "json.JSONEncoder", int(ours["writing"]), writing),
    ]:
        mine, other = nanoseconds / len(lines), python * 1e9 / len(lines)
        print(f"{name}: {mine:.0f} ns a line, {call}: {other:.0f} ns, ratio {mine / other:.2f}")


main()
