#!/bin/sh
# Kills `gated deliver`, or `gated serve`, at KILLS random moments of a conversation of LINES lines, starts it again,
# and sees that each accepted delivery is there once. SEED makes another conversation, and other moments. PAGE is the
# bytes of a page of the file, by default the program's.
set -eu
. "$(dirname "$0")/program.sh"
work=$(mktemp -d)
trap 'rm -rf "$work"' EXIT
python3 -B "$top/bench/kill.py" "$program" "${1:-deliver}" "${KILLS:-100}" "${LINES:-1500}" "${SEED:-1}" "$work"
