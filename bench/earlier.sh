#!/bin/sh
# Carries the gate's file in bench/earlier, which an earlier program made, over to the tables of now, and sees that
# nothing is lost by it and that the gate goes on.
set -eu
. "$(dirname "$0")/program.sh"
work=$(mktemp -d)
trap 'rm -rf "$work"' EXIT
python3 -B "$top/bench/earlier.py" "$program" "$top/bench/earlier" "$work"
