#!/bin/sh
# Refuses the program each of its requests for memory in turn, one a run, by a library that is loaded into it: in each
# command, or in those that are named. PLACES is how many places of each are tried at most, and JOBS how many at a time.
# PAGE is the bytes of a page of the files, by default the program's: `init` then begins with an empty database.
set -eu
. "$(dirname "$0")/program.sh"
if [ -d /dev/shm ]; then
    TMPDIR=${TMPDIR:-/dev/shm}
    export TMPDIR
fi
work=$(mktemp -d)
trap 'rm -rf "$work"' EXIT
cc -O2 -Wall -shared -fPIC -o "$work/refuse.so" "$top/bench/starved/refuse.c"
python3 -B "$top/bench/starved.py" "$program" "$work/refuse.so" "$work" "${PLACES:-10000000}" "${JOBS:-$(nproc)}" "$@"
