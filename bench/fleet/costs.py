"""What the gate takes for the deliveries of a run, over a file in memory beneath which each sync takes a given time."""
import os
import resource
import subprocess
import tempfile
import time

SYNCS = [0, 100, 1000, 5000]


def library(folder):
    """The library that counts and slows syncs, built with the system's compiler."""
    source = os.path.join(os.path.dirname(os.path.abspath(__file__)), "syncs.c")
    built = os.path.join(folder, "syncs.so")
    subprocess.run(["cc", "-O2", "-Wall", "-shared", "-fPIC", "-o", built, source], check=True)
    return built


def delivered(program, text, lines, microseconds):
    """The lines through `gated deliver`: the seconds, those of a processor, and the syncs."""
    memory = "/dev/shm" if os.path.isdir("/dev/shm") else None
    with tempfile.TemporaryDirectory(prefix="fleet-", dir=memory) as folder:
        settings, file, count = (os.path.join(folder, name) for name in ("gate.toml", "gate", "syncs"))
        with open(settings, "w", encoding="utf-8") as to:
            to.write(text)
        subprocess.run([program, "init", settings, file], check=True)
        slowed = {"LD_PRELOAD": library(folder), "SYNCS": count, "SYNC_MICROSECONDS": str(microseconds)}
        before = resource.getrusage(resource.RUSAGE_CHILDREN)
        begun = time.monotonic()
        done = subprocess.run(
            [program, "deliver", settings, file], input=b"".join(line + b"\n" for line in lines),
            stdout=subprocess.PIPE, env={**os.environ, **slowed}, check=True,
        )
        taken = time.monotonic() - begun
        after = resource.getrusage(resource.RUSAGE_CHILDREN)
        with open(count, "rb") as told:
            syncs = int.from_bytes(told.read(8), "little")
    answers = done.stdout.splitlines()
    assert len(answers) == len(lines), f"{len(answers)} answers to {len(lines)} deliveries"
    return {
        "microseconds": microseconds,
        "lines": len(lines),
        "accepted": sum(b'"reply":' in answer for answer in answers),
        "landings": sum(b'"reply":"landed"' in answer for answer in answers),
        "seconds": taken,
        "processor": after.ru_utime + after.ru_stime - before.ru_utime - before.ru_stime,
        "syncs": syncs,
    }


def measured(program, text, lines):
    """At each speed of a disk; the syncs of opening and closing the file are left out of the count."""
    opened = delivered(program, text, [], 0)["syncs"]
    runs = [delivered(program, text, lines, microseconds) for microseconds in SYNCS]
    return [{**run, "syncs": run["syncs"] - opened} for run in runs]
