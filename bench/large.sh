#!/bin/sh
# What a file with very many landings (LANDINGS, by default 200,000) takes to open, and how long it takes to begin a new
# one by the steps of docs/OPERATING.md: seconds of the clock and of processors, and the most memory, for each step.
set -eu
. "$(dirname "$0")/program.sh"
if [ -d /dev/shm ]; then
    TMPDIR=${TMPDIR:-/dev/shm}
    export TMPDIR
fi
work=$(mktemp -d)
trap 'rm -rf "$work"' EXIT
python3 -B "$top/bench/large.py" "$program" "$settings" "$work" "${LANDINGS:-200000}"
