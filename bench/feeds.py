"""Prints the deliveries and the history of an old gate: seconds, and the most memory, beside opening its file alone."""
import json
import os
import subprocess
import sys
import time

# Each change comes, is approved, built and landed: five deliveries and a report.
OF_A_CHANGE = 5


def deliveries(changes):
    """The lines of so many changes, one behind another."""
    sent = 0
    for number in range(1, changes + 1):
        for said in ({"kind": "revision", "change": number, "project": "lib", "revision": 1, "message": ""},
                     {"kind": "approved", "change": number, "revision": 1}, {"kind": "take", "worker": "w"},
                     {"kind": "result", "build": number, "outcome": "success"}, {"kind": "landed", "order": number}):
            sent += 1
            yield json.dumps({"id": f"00000000-0000-4000-8000-{sent:012}", **said}) + "\n"


def timed(words, output):
    """The seconds and the most memory in MB of a run that writes its output to a file."""
    with open(output, "wb") as file:
        begun = time.monotonic()
        process = subprocess.Popen(words, stdout=file, stderr=subprocess.DEVNULL)
        _, _, usage = os.wait4(process.pid, 0)
        return time.monotonic() - begun, usage.ru_maxrss / 1024


def main(program, settings, folder, count):
    file, output = os.path.join(folder, "gate.db"), os.path.join(folder, "output")
    subprocess.run([program, "init", settings, file], check=True)
    text = "".join(deliveries(int(count) // OF_A_CHANGE)).encode()
    subprocess.run([program, "deliver", settings, file], input=text, check=True, stdout=subprocess.DEVNULL)
    for name, words in {"opening": ["get", settings, file, "/"], "deliveries": ["deliveries", settings, file],
                        "history": ["history", settings, file, "core"]}.items():
        seconds, memory = min(timed([program, *words], output) for _ in range(3))
        with open(output, "rb") as printed:
            lines = sum(1 for _ in printed)
        print(f"{name:12} {seconds:6.2f} s {memory:6.0f} MB {lines:8} lines", flush=True)


main(*sys.argv[1:])
