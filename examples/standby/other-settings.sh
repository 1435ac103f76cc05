#!/usr/bin/env bash
# A gate that has a standby gets other settings. It ends with `ok`, or says what differs.
set -eu
here=$(cd "$(dirname "$0")" && pwd)
FORGE_SETTINGS=$here/../forge/settings.toml
. "$here/../forge/stage.sh"
export GATED
old=$FORGE_SETTINGS new=$FORGE/new.toml
# By the new settings `core` tests fewer changes at once, and each change of `app` has one more job.
sed --expression '0,/window = 4/s//window = 2/' \
  --expression '/^name = "app"/,/^name = "unit"/s/^name = "unit"/&\n[[project.job]]\nname = "lint"/' "$old" >"$new"

# A change is told and approved.
add() {
  local said="\"kind\":\"revision\",\"change\":$2,\"project\":\"$1\",\"revision\":1,\"message\":\"\""
  post forge "{\"id\":\"$(id_of revision "$2" 1)\",$said}"
  post forge "{\"id\":\"$(id_of approved "$2" 1)\",\"kind\":\"approved\",\"change\":$2,\"revision\":1}"
}

start_both() {
  FORGE_SETTINGS=$1 start_gate
  start follow env TMPDIR="$FORGE" PAUSE=0.2 \
    "$here/../../companions/service/follow" "http://127.0.0.1:$(cat "$FORGE/port")" "$1" "$FORGE/standby.gate"
}

# What the follower has told is the same on both sides, up to the approval of a change.
is_followed() {
  grep -q "both show the same at $(id_of approved "$1" 1 | tr -d -)" "$FORGE/follow.log"
}

# Two files show the same under these settings.
are_equal() {
  cmp -s <("$GATED" status "$1" "$2") <("$GATED" status "$1" "$3")
}

"$GATED" init "$old" "$FORGE/day.gate"
"$GATED" init "$old" "$FORGE/standby.gate"
start_both "$old"
add lib 101
await is_followed 101
stop follow
add app 102
stop gate

# What the standby hasn't yet, and both files before that.
last=$("$GATED" deliveries "$old" "$FORGE/standby.gate" | tail -n 1 | sed 's/.*"id":"\([0-9a-f]*\)".*/\1/')
"$GATED" deliveries "$old" "$FORGE/day.gate" --after "$last" >"$FORGE/rest"
cp "$FORGE/day.gate" "$FORGE/day.copy"
cp "$FORGE/standby.gate" "$FORGE/standby.copy"

"$GATED" deliver "$new" "$FORGE/standby.copy" <"$FORGE/rest" >"$FORGE/replies"
are_equal "$new" "$FORGE/day.copy" "$FORGE/standby.copy" && fail "the rest makes the same gate under other settings"
echo "told under the new settings, 102 has a job at the standby that it hasn't at the gate"

"$GATED" deliver "$old" "$FORGE/standby.gate" <"$FORGE/rest" >"$FORGE/replies"
are_equal "$old" "$FORGE/day.gate" "$FORGE/standby.gate" || fail "the rest makes another gate"
are_equal "$new" "$FORGE/day.gate" "$FORGE/standby.gate" || fail "the new settings make two gates of one"
start_both "$new"
add app 103
await is_followed 103
stop follow
stop gate
are_equal "$new" "$FORGE/day.gate" "$FORGE/standby.gate" || fail "the gates differ"
"$GATED" status "$new" "$FORGE/standby.gate"
echo ok
