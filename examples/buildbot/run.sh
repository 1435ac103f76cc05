#!/usr/bin/env bash
# A team's Buildbot runs the jobs of a gate: a real master with a real worker. It polls the branches that companions.ci
# pushes, and sets statuses at a forge in GitHub's form. That forge's API and hooks are a stand-in. All runs on this
# machine alone. It ends by itself, and says `ok`, or what differs.
set -eu
PATIENCE=${PATIENCE:-240}
here=$(cd "$(dirname "$0")" && pwd)
FORGE_SETTINGS=$here/../gitea/settings.toml
UPDATE=$here/update
. "$here/../forge/stage.sh"
. "$here/../gitea/requests.sh"
export GIT_CONFIG_GLOBAL=/dev/null GIT_CONFIG_NOSYSTEM=1

# The companions' settings: each project's job is the status that Buildbot sets.
companions_settings() {
  local queue project
  cat <<TOML
folder = "$FORGE/companions"
[gate]
url = "http://127.0.0.1:$(cat "$GATE_PORT")"
pause = 0.2
[worker]
look = 1.0
[ci]
form = "github"
url = "$api"
token = "a token"
trusted = ["buildbot"]
look = 1.0
TOML
  for queue in core web; do
    for project in $(projects_of "$queue"); do
      printf '[[project]]\nname = "%s"\nqueue = "%s"\nrepository = "%s"\n' \
        "$project" "$queue" "$FORGE/repos/$project.git"
      printf '[[project.job]]\nname = "unit"\nstatus = "ci/unit"\nlimit = 3600.0\n'
    done
  done
}

adapter_settings() {
  cat "$FORGE/companions.toml"
  cat <<TOML
[adapter]
form = "github"
url = "$api"
web = "https://forge.example"
token = "a token"
secret = "a secret"
listen = "127.0.0.1:$hooks"
base = "https://gate.example/c/"
approvers = ["ann"]
look = 1.0
TOML
}

start_ci() {
  start ci env FORGE_CI=yes python3 -m companions.ci "$FORGE/companions.toml" ci
}

# What was left when Buildbot was killed goes first: locks of git, and a number that may be another process's by now.
start_master() {
  rm -f "$FORGE/master/twistd.pid" "$FORGE/master/twistd.log"
  find "$FORGE/master" -name '*.lock' -delete
  start master env FORGE_API="$api" BUILDBOT_PORT="$port" BUILDBOT_TOKEN='a token of buildbot' \
    buildbot start --nodaemon "$FORGE/master"
  await grep -q 'BuildMaster is running' "$FORGE/master/twistd.log"
}

start_builder() {
  rm -f "$FORGE/builder/twistd.pid"
  start builder buildbot-worker start --nodaemon "$FORGE/builder"
}

# A poller builds nothing of what it sees at its first look. This is over, up to what was pushed before.
has_looked() {
  git -C "$FORGE/master/poller-${1/\//-}" for-each-ref | grep -q 'refs/buildbot/.*/main$'
}

# A job is a group of its own, so it goes on when Buildbot's worker is killed.
stop_jobs() {
  python3 -c 'import sys
from companions.job import kill_marked
kill_marked("SIGNS=" + sys.argv[1])' "$FORGE/signs"
}

# So many times the job of change 6 has begun.
has_begun() {
  [ "$(wc -l <"$FORGE/signs/began")" -ge "$1" ]
}

# Buildbot's success of a change was noted by companions.ci.
has_passed() {
  grep -q "\"change\": $1, .*\"outcome\": \"success\"" "$FORGE/companions/ci/ci/builds.jsonl"
}

# The branch of a run of this project is there.
is_pushed() {
  [ -n "$(git -C "$FORGE/repos/$1.git" for-each-ref refs/heads/gate)" ]
}

# Nothing is left of runs in a project.
is_clean() {
  [ -z "$(git -C "$FORGE/repos/$1.git" for-each-ref refs/heads/gate refs/gate)" ]
}

# Each landed commit of a project has a success that Buildbot has set at the forge, as a branch's protection may ask.
check_statuses() {
  local place commit change
  landings_of "$1" "$2" |
    while read -r place commit change; do
      curl --silent --fail -H 'Authorization: token a token' "$api/repos/$1/commits/$commit/statuses" |
        python3 -c 'import json, sys
sys.exit(("ci/unit", "success", "buildbot") not in
         [(it["context"], it["state"], it["creator"]["login"]) for it in json.load(sys.stdin)])' ||
        fail "$change landed as $place, and Buildbot set no success of $commit"
    done
}

# What people read, without the numbers of builds, which may be others each time.
shows_what_is_expected() {
  at_forge show >"$FORGE/said"
  sed 's/\bbuild [0-9]*/build/g; s!/builds/[0-9]*!/builds!g' "$FORGE/said" >"$FORGE/shown"
  cmp "$FORGE/shown" "$here/expected.txt"
}

free_port() {
  python3 -c 'import socket; print(socket.create_server(("127.0.0.1", 0)).getsockname()[1])'
}

for program in buildbot buildbot-worker; do
  command -v "$program" >/dev/null || fail "$program is missing: apt-get install buildbot buildbot-worker"
done
make acme/lib one=1 unit.sh='! cat one two three four 2>/dev/null | grep -q broken &&
  { [ ! -e slow ] || { echo began >>"$SIGNS/began"; until [ -e "$SIGNS/go" ]; do sleep 0.1; done; }; }'
make acme/app use=one unit.sh='for use in $(cat use); do [ -e "../acme/lib/$use" ] || exit 1; done'
make acme/site page=Welcome unit.sh='grep -q . page'
hooks=$(free_port) port=$(free_port)
coproc forge { exec python3 "$here/../gitea/forge.py" "$FORGE/repos" "http://127.0.0.1:$hooks/hook" github \
  2>>"$FORGE/forge.log"; }
read -r -u "${forge[0]}" api
"$GATED" init "$FORGE_SETTINGS" "$FORGE/day.gate"
start_gate
adapter_settings >"$FORGE/adapter.toml"
buildbot create-master "$FORGE/master" >"$FORGE/create.log" 2>&1
cp "$here/master.cfg" "$FORGE/master"
buildbot-worker create-worker "$FORGE/builder" "127.0.0.1:$port" builder 'a password' >>"$FORGE/create.log" 2>&1
start_master
start_builder
for project in acme/lib acme/app acme/site; do
  await has_looked "$project"
done
start_lander
for project in acme/lib acme/app; do
  await has_landed "$project" core/0
done
await has_landed acme/site web/0
start adapter python3 -m companions.adapter "$FORGE/adapter.toml"
await grep -q 'hooks come in' "$FORGE/adapter.log"
start_ci

# Change 1; change 2, which needs it in the same queue; change 3, which needs it from another queue. Nobody lands until
# change 2 has been tested on the commit of change 1, which is on no branch till then.
stop lander
push acme/lib 1 'Add two' two=2
at_forge open acme/lib main 'Add two' ''
# It is the first that the gate's file is told, so it is told once more.
await has_said 1 2 'revision: recorded'
propose acme/app 1 'Use two' use=two 'Depends-On: https://forge.example/acme/lib/pull/1'
await has_said 2 1 'revision: recorded'
propose acme/site 1 'Show two' page=Two 'Depends-On: acme/lib#1'
await has_said 3 1 'revision: recorded'
at_forge approve acme/app 1 ann
at_forge approve acme/site 1 ann
await has_said 3 1 'approved: waiting'
at_forge approve acme/lib 1 ann
await has_passed 2
start_lander
await has_landed acme/app core/2
await has_landed acme/site web/1

# Change 4 is broken. Change 5 conflicts with change 1.
propose acme/lib 2 'Add three' three=broken
await has_said 4 1 'revision: recorded'
propose acme/lib 3 'Add another two' two=two
await has_said 5 1 'revision: recorded'
at_forge approve acme/lib 2 ann
at_forge approve acme/lib 3 ann
await has_said 5 1 'approved: queued'
await is_quiet

# Buildbot's worker is killed in the middle of change 6. Once the worker is back, Buildbot builds that again.
propose acme/lib 4 'Take time' slow=yes
await has_said 6 1 'revision: recorded'
at_forge approve acme/lib 4 ann
await has_begun 1
stop builder
start_builder
await has_begun 2
touch "$FORGE/signs/go"
await has_landed acme/lib core/3

# Buildbot is away while the commit of change 7 is pushed for it, and companions.ci is killed meanwhile.
stop master
propose acme/site 2 'Greet' greeting=Hello
await has_said 7 1 'revision: recorded'
at_forge approve acme/site 2 ann
await is_pushed acme/site
stop ci
start_ci
start_master
await has_landed acme/site web/2
await is_quiet

# Nobody but companions.ci pushes branches of runs.
git -C "$FORGE/seed/acme/site" push --quiet "$FORGE/repos/acme/site.git" HEAD:refs/heads/gate/web/mine 2>/dev/null &&
  fail "somebody pushed gate/*"
check_queue core '1 2 6' '4 failed 5 failed'
check_queue web '3 7' ''
for project in acme/lib acme/app; do
  check_branch "$project" core
  check_statuses "$project" core
done
check_branch acme/site web
check_statuses acme/site web
check_evidence core web
for project in acme/lib acme/app acme/site; do
  await is_clean "$project"
done
await shows_what_is_expected
cat "$FORGE/shown"
echo ok
