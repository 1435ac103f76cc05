#!/bin/sh
# What the gate costs, in processor seconds by crate and kind of work: runs `rt ci --anew`, over the crates that are named
# and those below them or over all, while bench/gate.py looks on. RUN names the file that keeps what was seen (by default
# a new one in the folder for temporary files); with KEPT=1 what earlier runs proved isn't proved again. Then the table
# and the longest chain of crates, of this run and of the files in MORE, the oldest first. Other work beside it makes each
# second worth less.
set -eu
top=$(cd "$(dirname "$0")/.." && pwd)
run=${RUN:-$(mktemp "${TMPDIR:-/tmp}/gate-XXXXXX.json")}
cd "$top"
anew=--anew
[ -z "${KEPT:-}" ] || anew=
RT_JOBS=${RT_JOBS:-$(nproc)} rt ci $anew "$@" >"$run.log" 2>&1 &
python3 "$top/bench/gate.py" watch $! "$run"
tail -n 1 "$run.log"
echo "$run.log has what it printed"
python3 "$top/bench/gate.py" table ${MORE:-} "$run"
echo
python3 "$top/bench/gate.py" chain ${MORE:-} "$run"
