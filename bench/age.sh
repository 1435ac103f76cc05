#!/bin/sh
# What a delivery of each kind costs as a gate ages, a queue grows or changes wait, in instructions of the processor and
# in statements, counted by valgrind's callgrind: no clock, and so the same whatever else the machine does. CASES names
# some of: day (a line of bench/mix.py), opening, age, length, waiting, needs (changes with an unknown need), chain,
# asked (what `gated get` costs), running (polls while builds run); by default all. SIZES=small is a short run of each.
# PAGE is the bytes of a page of a file, by default the program's.
set -eu
. "$(dirname "$0")/program.sh"
if [ -d /dev/shm ]; then
    TMPDIR=${TMPDIR:-/dev/shm}
    export TMPDIR
fi
# Clearing a page must not count as a step a byte.
GLIBC_TUNABLES=glibc.cpu.x86_rep_stosb_threshold=1000000000:glibc.cpu.x86_rep_movsb_threshold=1000000000
export GLIBC_TUNABLES
work=$(mktemp -d)
trap 'rm -rf "$work"' EXIT
python3 -B "$top/bench/ages.py" "$program" "$settings" "$work" "${SIZES:-whole}" \
    ${CASES:-day opening age length waiting needs chain asked running}
