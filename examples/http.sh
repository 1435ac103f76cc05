#!/bin/sh
# Plays the day of deliveries.jsonl over HTTP, and prints what comes: a line an answer, then the status text. What has to
# be printed stands in expected.txt. GATED is the program, by default the one that `rt run` leaves.
set -eu
top=$(cd "$(dirname "$0")/.." && pwd)
program=${GATED:-$top/crates/gated/out/gated}
settings=$top/examples/settings.toml
day=$top/examples/deliveries.jsonl
if [ ! -x "$program" ]; then
    echo "no program at $program: name one by GATED, or run" \
        "(cd crates/gated && rt run -- replay ../../examples/settings.toml </dev/null) at the top of the repository" >&2
    exit 1
fi
work=$(mktemp -d)
server=
finish() {
    [ -z "$server" ] || kill "$server" 2> /dev/null || true
    rm -rf "$work"
}
trap finish EXIT
trap 'exit 1' INT TERM HUP

"$program" init "$settings" "$work/gate"

# a connection for each delivery, and one for the status
count=$(($(wc -l < "$day") + 1))
mkfifo "$work/says"
"$program" serve "$settings" "$work/gate" --port 0 --count "$count" > "$work/says" &
server=$!
read -r _ address < "$work/says"

while read -r line; do
    case $line in
    *'"kind":"take"'* | *'"kind":"result"'*) door=worker ;;
    *) door=forge ;;
    esac
    printf '%s' "$line" | curl -s --data-binary @- "http://$address/$door"
    echo
done < "$day"
curl -s "http://$address/status"
wait "$server"
server=
