#!/bin/sh
# Deliveries a second of `gated deliver`, against a C program over the system's SQLite that writes the same rows in the
# same transactions, each commit synced: for each pair LINES:LENGTH, over a queue of LENGTH changes, at LINES lines.
set -eu
. "$(dirname "$0")/scratch.sh"
. "$(dirname "$0")/program.sh"
if [ $# -eq 0 ]; then
    set -- 1000:10 10000:10
fi
scratch "$top/bench/deliver/noted" gate_types gate_laws gate_config gate_queue_rules gate_walk gate_wire \
    gate_book_trait gate_memory gate_book gate_reads gate_settling gate_admission gate_ruling gate_texts gate_core
run_timed
noted=$work/crates/timed/out/timed
cc -O2 -Wall -o "$work/written" "$top/bench/deliver/written.c" -lsqlite3
for pair; do
    python3 "$top/bench/mix.py" "$program" "$settings" "${pair%:*}" "${pair#*:}" "$work/lines"
    "$noted" "$settings" <"$work/lines" >"$work/edits" 2>"$work/replies"
    rm -f "$work"/ours* "$work"/theirs*
    "$program" init "$settings" "$work/ours"
    "$program" init "$settings" "$work/theirs"
    python3 "$top/bench/deliver/times.py" "$program" "$settings" "$work"
done
