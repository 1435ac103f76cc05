#!/bin/sh
# Refuses memory at each place of some calls, one place a run: of a delivery of each kind, two that let more than one
# item leave and two that cut an item, over a book in memory and over tables; of a conversation, a request, a history,
# reading settings, making a gate's file, opening it with its settings and with others, migrating one of schema 1, and
# two visits of a walk. Each answers that memory is wanting, leaves all as it was, and gives its answer when it is made
# again; or gives its answer at once. PLACES is how many places of each call but the histories are tried at most, by
# default all; CASES names some of the cases, by their numbers in bench/refused/sweep.py.
set -eu
. "$(dirname "$0")/scratch.sh"
LIBRARIES=sqlite
scratch "$top/bench/refused" gate_types gate_laws gate_config gate_kept_settings gate_queue_rules gate_walk gate_wire \
    gate_book_trait gate_archive gate_memory gate_book gate_reads gate_settling gate_admission gate_ruling gate_texts gate_core gate_schema \
    gate_rows gate_found_rows gate_item_queries gate_build_queries gate_change_queries gate_queue_queries \
    gate_table_laws gate_archive_queries gate_file_changes gate_file_meta gate_migration gate_sql gate_http
cp "$top/crates/worked_tests/src/stored/first_schema.rt" "$work/crates/timed/src"
cp "$top/HANDLES" "$work"
last=$(python3 -B "$top/bench/refused/sweep.py" last)

sweep() {
    python3 -B "$top/bench/refused/sweep.py" "$@"
}

# Runs the program for each of the cases in a folder.
try() {
    (cd "$work/crates/timed" && rt try --steps 1 --fail-alloc "$last" --cases "$1" >"$1.told" 2>"$1.ends") || {
        tail -3 "$1.ends"
        [ -s "$1.told" ]
    }
}

rm -rf "$work/first" "$work/places"
sweep first "$work/first" ${CASES:-}
try "$work/first"
sweep places "$work/first" "$work/places" "${PLACES:-100000}"
try "$work/places"
sweep judge "$work/first" "$work/places"
