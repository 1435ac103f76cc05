#!/bin/sh
# Deliveries a second of `gated replay`, over a queue of LENGTH changes, at LINES lines: for each pair LINES:LENGTH.
set -eu
. "$(dirname "$0")/program.sh"
if [ $# -eq 0 ]; then
    set -- 1000:10 10000:10 100000:10 10000:100 10000:1000
fi
work=$(mktemp -d)
trap 'rm -rf "$work"' EXIT
for pair; do
    python3 "$top/bench/mix.py" "$program" "$settings" "${pair%:*}" "${pair#*:}" "$work/lines"
    python3 - "$program" "$settings" "$work/lines" "${pair#*:}" <<'PYTHON'
import subprocess
import sys
import time

program, settings, lines, length = sys.argv[1:]
count = sum(1 for _ in open(lines, "rb"))
with open(lines, "rb") as given:
    start = time.monotonic()
    done = subprocess.run([program, "replay", settings], stdin=given, stdout=subprocess.PIPE, check=True)
    taken = time.monotonic() - start
answered = done.stdout.count(b"\n")
assert answered == count, f"{answered} answers to {count} lines"
print(f"{count} lines, {length} changes in the queue: {taken:.2f} s, {count / taken:.0f} lines a second")
PYTHON
done
