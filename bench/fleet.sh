#!/bin/sh
# What a gate does for a forge, by simulation around the real program: over the default forge, over one of one's own
# (`fleet.sh SETTINGS.json`), or each figure and plot of docs/CAPACITY.md anew (`fleet.sh capacity`).
# PLOT names the file of its plot; JOBS is how many runs `capacity` makes at a time, by default one a processor, and
# HOURS how long they are, by default 12.
set -eu
. "$(dirname "$0")/program.sh"
PLOT=${PLOT:-${TMPDIR:-/tmp}/fleet.svg}
export PLOT
exec python3 -B "$top/bench/fleet/main.py" "$program" "$@"
