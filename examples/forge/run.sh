#!/usr/bin/env bash
# A day of a forge that is gated, with real repositories, hooks, a lander and two workers, on this machine alone. It
# ends by itself, and says `ok`, or what differs.
set -eu
FORGE_SETTINGS=$(cd "$(dirname "$0")" && pwd)/settings.toml
. "$(dirname "$0")/stage.sh"
. "$FORGE_SCRIPTS/developer.sh"

# Kills the worker at which the slow job is, and starts it again.
lose_a_worker() {
  local worker
  worker=$(cat "$FORGE/signs/slow") && worker=${worker#*/worker/} && worker=${worker%%/*}
  stop "$worker"
  start_worker "$worker"
}

"$GATED" init "$FORGE_SETTINGS" "$FORGE/day.gate"
start_gate
"$FORGE_SCRIPTS/forge.sh"
start_lander
start_worker w1
start_worker w2

propose lib 101 'Add three' numbers/3=three
propose app 102 'Use three' uses/3=once
propose lib 103 'Add four, slowly' numbers/4=four slow=
propose app 104 'Use a number that is not there' uses/99=once
propose lib 105 'Add five, and say nothing of it' numbers/5=
propose site 201 $'Show three\n\nDepends-On: https://forge/c/101' three=3
propose site 202 'Greet' page='Good day'
propose site 203 $'Greet otherwise,\rby "hand"\tand a \\\x01' page=Hello
propose site 204 'Add a style' style=plain
propose site 205 'Add a title' title=Gate
approve 201 101 102 103 104 105 202 203 204

await test -s "$FORGE/signs/slow"
lose_a_worker
touch "$FORGE/signs/goes-on"
await has_landed lib core/1
stop gate
start_gate
await is_quiet

# Somebody pushes past the gate. The lander stops the queue and says so, until the push is taken back.
kept=$(git -C "$FORGE/repos/site.git" rev-parse main)
git clone --quiet "$FORGE/repos/site.git" "$FORGE/past"
echo Mine >"$FORGE/past/title"
git -C "$FORGE/past" add .
git -C "$FORGE/past" commit --quiet --message 'A title past the gate'
FORGE_LANDER=yes git -C "$FORGE/past" push --quiet origin HEAD:main
approve 205
await grep -q 'take back what was pushed past the gate' "$FORGE/lander.log"
FORGE_LANDER=yes git -C "$FORGE/past" push --quiet --force origin "$kept:main"
await is_quiet

check_queue core '101 102 103 105' '104 failed'
check_queue web '201 202 204 205' '203 failed'
check_projects
check_evidence core web
grep -q 'lost' "$FORGE"/w1.log "$FORGE"/w2.log || fail "no build was lost"
echo ok
