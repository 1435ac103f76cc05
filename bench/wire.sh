#!/bin/sh
# Time a line of `read_delivery` and `write_reply` against Python's `json`, by default over 100,000 lines.
set -eu
. "$(dirname "$0")/scratch.sh"
count=${1:-100000}
scratch "$top/bench/wire/timed" gate_types gate_wire
run_timed
python3 "$top/bench/wire/lines.py" "$count" >"$work/lines"
python3 "$top/bench/wire/times.py" "$work/crates/timed/out/timed" "$work/lines"
