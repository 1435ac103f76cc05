#!/bin/sh
# Deliveries a second over loopback, a connection each, to `gated serve` and to Python's `http.server`: COUNT of them.
set -eu
. "$(dirname "$0")/program.sh"
work=$(mktemp -d)
trap 'rm -rf "$work"' EXIT
"$program" init "$settings" "$work/gate"
python3 "$top/bench/serve.py" "$program" "$settings" "$work/gate" "${1:-3000}"
