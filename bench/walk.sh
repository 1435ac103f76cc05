#!/bin/sh
# The time of a walk, and the rows that it visits, in queues with 10, 100 and 1,000 items: after a failure at the
# head, in the middle and at the end, and after a landing.
set -eu
. "$(dirname "$0")/scratch.sh"
scratch "$top/bench/walk/timed" gate_types gate_laws gate_queue_rules gate_walk
run_timed
python3 "$top/bench/walk/times.py" "$work/told"
