#!/usr/bin/env bash
# A day of a forge in Gitea's form that is connected to a gate by the companions: adapter, lander and two workers, with
# real repositories. The forge's API and hooks are a stand-in (forge.py). All runs on this machine alone. It ends by
# itself, and says `ok`, or what differs.
#
#   run.sh [--page]
#
# With `--page` people can look at it: nginx shows the page at the address that is printed first. Jobs take SLOW seconds
# then, and when the day is over the page stays until somebody presses Return. PORT is the page's port, or a free one.
set -eu
shows= slow=
case ${1-} in
  '') ;;
  --page) shows=yes slow="sleep ${SLOW:-6}; " PATIENCE=${PATIENCE:-900} ;;
  *) echo "usage: run.sh [--page]" >&2 && exit 2 ;;
esac
here=$(cd "$(dirname "$0")" && pwd)
FORGE_SETTINGS=$here/settings.toml
. "$here/../forge/stage.sh"
. "$here/requests.sh"
export GIT_CONFIG_GLOBAL=/dev/null GIT_CONFIG_NOSYSTEM=1

adapter_settings() {
  cat "$FORGE/companions.toml"
  cat <<TOML
[adapter]
form = "gitea"
url = "$api"
web = "https://forge.example"
token = "a token"
secret = "a secret"
listen = "127.0.0.1:$hooks"
base = "https://gate.example/c/"
approvers = ["ann", "cy"]
look = 1.0
TOML
  [ -z "$shows" ] || printf 'page = "%s"\nlogs = "%s#/builds/{build}"\n' "$FORGE/page" "$(cat "$FORGE/address")"
}

# The page, behind nginx's part of companions/service.
start_page() {
  local nginx
  nginx=$(PATH="$PATH:/usr/sbin" command -v nginx) || fail "nginx isn't there: install it (apt-get install nginx-light)"
  python3 "$here/page.py" "$FORGE" "$(cat "$GATE_PORT")" ${PORT:+"$PORT"} >"$FORGE/address"
  start page "$nginx" -g 'daemon off;' -c "$FORGE/proxy/nginx.conf"
  await curl -sf "$(cat "$FORGE/address")status"
  echo "look at $(cat "$FORGE/address")"
}

start_adapter() {
  start adapter python3 -m companions.adapter "$FORGE/adapter.toml"
}

# Whether a delivery of this kind of a change waits for an answer of the gate.
is_kept() {
  python3 - "$FORGE/companions/adapter/adapter.db" "$1" "$2" <<'PYTHON'
import json, sqlite3, sys
file, change, kind = sys.argv[1:]
rows = sqlite3.connect(file).execute("SELECT said FROM delivery WHERE lane = ?", (change,))
sys.exit(kind not in [json.loads(said)["kind"] for said, in rows])
PYTHON
}

shows_what_is_expected() {
  at_forge show >"$FORGE/shown"
  cmp "$FORGE/shown" "$here/expected.txt"
}

"$GATED" init "$FORGE_SETTINGS" "$FORGE/day.gate"
start_gate
make acme/lib one=1 unit.sh="$slow"'! cat one two three four 2>/dev/null | grep -q broken'
make acme/app use=one unit.sh="$slow"'for use in $(cat use); do [ -e "../lib/$use" ] || exit 1; done'
make acme/site page=Welcome unit.sh="$slow"'grep -q . page'
[ -z "$shows" ] || start_page
hooks=$(python3 -c 'import socket; print(socket.create_server(("127.0.0.1", 0)).getsockname()[1])')
coproc forge { exec python3 "$here/forge.py" "$FORGE/repos" "http://127.0.0.1:$hooks/hook" 2>>"$FORGE/forge.log"; }
read -r -u "${forge[0]}" api
adapter_settings >"$FORGE/adapter.toml"
start_lander
await git -C "$FORGE/repos/acme/site.git" rev-parse --verify refs/landings/web/000000
start_adapter
for part in w1 w2; do
  start_worker "$part"
done
await grep -q 'hooks come in' "$FORGE/adapter.log"

# Change 1, whose hook comes twice; change 2, which needs it in the same queue; change 3, which needs it from another.
# Each is awaited, since the adapter numbers changes in the order in which it looks at them.
push acme/lib 1 'Add two' two=2
at_forge twice open acme/lib main 'Add two' ''
# It is the first that the gate's file is told, so it is told once more.
await has_said 1 2 'revision: recorded'
propose acme/app 1 'Use two' use=two 'Depends-On: https://forge.example/acme/lib/pulls/1'
await has_said 2 1 'revision: recorded'
propose acme/site 1 'Show two' page=Two 'See there.\n\nDepends-On: acme/lib#1'
await has_said 3 1 'revision: recorded'
at_forge approve acme/app 1 ann
at_forge approve acme/site 1 ann
await has_said 3 1 'approved: waiting'
at_forge approve acme/lib 1 ann
await has_landed acme/site web/1
await is_quiet

# Change 4 is broken. The hook of its approval comes twice, which approves once. A hook that is signed by somebody else
# says that it is closed.
propose acme/lib 2 'Add three' three=broken
at_forge twice approve acme/lib 2 ann
await has_said 4 1 'approved: queued'
await is_quiet
[ "$(at_forge forged closed acme/lib 2)" = 403 ] || fail "a hook that nobody signed wasn't refused"

# It is mended by a new revision, whose approval's hook is lost: nobody listens. The adapter sees it when it starts.
push acme/lib 2 'Add three' three=3
at_forge push acme/lib 2
await has_said 4 2 'revision: recorded'
stop adapter
[ "$(at_forge approve acme/lib 2 cy)" = nobody ] || fail "a hook came in"
start_adapter
await has_landed acme/lib core/3
await is_quiet

# Change 5 needs change 6, whose own hook is lost, so that the gate doesn't know it. Bob may not approve; Ann does, and
# takes it back.
push acme/lib 3 'Add four' four=4
at_forge lost open acme/lib main 'Add four' ''
propose acme/site 2 'Show four' page=Four 'Depends-On: https://forge.example/acme/lib/pulls/3'
at_forge approve acme/site 2 bob
at_forge approve acme/site 2 ann
await has_said 5 1 'approved: waiting'
at_forge reject acme/site 2 ann
await has_said 5 1 'withdrawn: recorded'

# While the gate is away the adapter is killed. Change 7 conflicts with change 2, and a line of its text can't be read.
stop gate
propose acme/app 2 'Use nine' use=nine 'Depends-On: the weather'
at_forge approve acme/app 2 ann
stop adapter
start_adapter
start_gate
await has_said 6 1 'revision: recorded'
await has_said 7 1 'approved: queued'
await is_quiet

# Change 8 has a new commit before the hook of its first one comes, and is approved by a comment that names it.
push acme/lib 4 'Add five' five=4
at_forge late open acme/lib main 'Add five' ''
push acme/lib 4 'Add five' five=5
at_forge push acme/lib 4
await has_said 8 1 'revision: recorded'
at_forge release
at_forge comment acme/lib 4 ann "/gate approve $(git -C "$FORGE/repos/acme/lib.git" rev-parse refs/pull/4/head)"
await has_landed acme/lib core/4
await is_quiet

# A request to a branch that isn't gated is no change. Change 9 gets such a branch as its target.
propose acme/lib 5 'Add six to what comes next' six=6 '' next
at_forge approve acme/lib 5 ann
propose acme/lib 6 'Add seven' seven=7
await has_said 9 1 'revision: recorded'
at_forge retarget acme/lib 6 next
await has_said 9 1 'closed: recorded'

# Change 6 is closed while its order is shown. Until the lander has answered that, the gate takes no closing of it, and
# a change of another queue is told nevertheless. The lander refuses the order then.
stop lander
at_forge approve acme/lib 3 ann
await has_order 6
at_forge close acme/lib 3
await is_kept 6 closed
propose acme/site 3 'Greet' greeting=Hello
at_forge approve acme/site 3 cy
await has_said 10 1 'approved: queued'
is_kept 6 closed || fail "the order of change 6 was answered"
start_lander
await has_said 6 1 'closed: recorded'
await is_quiet

check_queue core '1 2 4 8' '4 failed 6 refused 7 failed'
check_queue web '3 10' ''
for project in acme/lib acme/app; do
  check_branch "$project" core
  check_trees "$project" core
done
check_branch acme/site web
check_trees acme/site web
check_evidence core web
[ "$(grep -c 'revision: recorded$' "$FORGE/adapter.log")" -eq 12 ] || fail "not twelve revisions were told"
[ "$(grep -c 'change 4, .*: approved: queued$' "$FORGE/adapter.log")" -eq 2 ] || fail "a doubled hook approved twice"
await shows_what_is_expected
cat "$FORGE/shown"
echo ok
if [ -n "$shows" ]; then
  echo "the day is over, and the page stays: press Return to end it"
  read -r _ || true
fi
