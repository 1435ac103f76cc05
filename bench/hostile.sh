#!/bin/sh
# Tells `gated` what nobody should send, in the parts that are named: replay, deliver, check, file, serve; by default
# all but `serve`. COUNT says how much, SEED what, and PAGE the bytes of a page of the files, by default the program's.
set -eu
. "$(dirname "$0")/program.sh"
if [ $# -eq 0 ]; then
    set -- replay deliver check file
fi
work=$(mktemp -d)
trap 'rm -rf "$work"' EXIT
python3 -B "$top/bench/hostile.py" "$program" "${SEED:-1}" "$work" "$@"
