#!/bin/sh
# What `gated deliveries` and `gated history` take of a file with so many accepted deliveries (DELIVERIES, by default
# 100,000): seconds and the most memory, beside those of opening the file alone.
set -eu
. "$(dirname "$0")/program.sh"
if [ -d /dev/shm ]; then
    TMPDIR=${TMPDIR:-/dev/shm}
    export TMPDIR
fi
work=$(mktemp -d)
trap 'rm -rf "$work"' EXIT
python3 -B "$top/bench/feeds.py" "$program" "$settings" "$work" "${DELIVERIES:-100000}"
