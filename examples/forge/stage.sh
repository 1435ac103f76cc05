# What a day on this machine needs: parts that are started, stopped and waited for, and a look at what git has in the
# end. GATED is the program, by default the one that `rt run` leaves.
FORGE_SCRIPTS=$(cd "$(dirname "${BASH_SOURCE[0]}")" && pwd)
FORGE_TOP=$(cd "$FORGE_SCRIPTS/../.." && pwd)
GATED=${GATED:-$FORGE_TOP/crates/gated/out/gated}
if [ ! -x "$GATED" ]; then
  echo "no program at $GATED: name one by GATED, or run" \
    "(cd crates/gated && rt run -- replay ../../examples/settings.toml </dev/null) at the top of the repository" >&2
  exit 1
fi
FORGE=$(mktemp -d)
mkdir "$FORGE/signs" "$FORGE/logs"
export FORGE FORGE_SCRIPTS FORGE_SETTINGS PYTHONPATH="$FORGE_TOP" PYTHONDONTWRITEBYTECODE=1
. "$FORGE_SCRIPTS/common.sh"
declare -A running=()

# Starts a part of the forge as a group of processes of its own, which `stop` ends as a power cut would.
start() {
  local part=$1
  shift
  setsid "$@" >>"$FORGE/$part.log" 2>&1 &
  running[$part]=$!
}

stop() {
  kill -9 -- "-${running[$1]}" 2>/dev/null || true
  wait "${running[$1]}" 2>/dev/null || true
  unset "running[$1]"
}

# A job is a group of its own, so it goes on when its worker is killed: the worker ends it once it is started again.
stop_jobs() {
  python3 -c 'import sys
from companions.job import kill_marked
for folder in sys.argv[1:]:
    kill_marked("GATED_WORKER=" + folder.rstrip("/"))' "$FORGE"/companions/worker/*/
}

finish() {
  local status=$? part
  for part in "${!running[@]}"; do
    stop "$part"
  done
  stop_jobs
  [ "$status" -eq 0 ] && rm -rf "$FORGE" || echo "what was left lies in $FORGE" >&2
}
trap finish EXIT
trap 'exit 1' INT TERM HUP

fail() {
  echo "differs: $*" >&2
  exit 1
}

# Waits until a command succeeds, as long as PATIENCE says, in seconds of the whole day.
await() {
  until "$@" >/dev/null 2>&1; do
    [ "$SECONDS" -lt "${PATIENCE:-110}" ] || fail "waited too long for: $*"
    sleep 0.1
  done
}

# Serves the day's file as the gate, always at the same port, which a first start takes and the companions are told.
start_gate() {
  local port=0
  [ ! -e "$GATE_PORT" ] || port=$(cat "$GATE_PORT")
  : >"$FORGE/gate.log"
  start gate "$GATED" serve "$FORGE_SETTINGS" "$FORGE/day.gate" --port "$port" --count 1000000000
  await grep -q '^listening' "$FORGE/gate.log"
  sed -n 's/^listening 127.0.0.1://p' "$FORGE/gate.log" >"$GATE_PORT.new"
  mv "$GATE_PORT.new" "$GATE_PORT"
  # Written beside and renamed: a worker that is started just now must not read half of it.
  companions_settings >"$FORGE/companions.toml.new"
  mv "$FORGE/companions.toml.new" "$FORGE/companions.toml"
}

# The companions' settings, by those of the gate: each job is the script of its name in its project. It has a sandbox,
# where the kernel grants one, and has a folder for signs besides.
companions_settings() {
  python3 - "$FORGE_SETTINGS" "$FORGE" "$(cat "$GATE_PORT")" <<'PYTHON'
import sys, tomllib
from companions import sandbox
settings, forge, port = sys.argv[1:]
refused = sandbox.refused()
if refused:
    print(f"jobs run without sandboxes: {refused}", file=sys.stderr)
print(f'folder = "{forge}/companions"\n[gate]\nurl = "http://127.0.0.1:{port}"\npause = 0.2\n[worker]\nlook = 1.0')
print(f'logs = "{forge}/logs"')
print(f'sandbox = {str(not refused).lower()}')
for project in tomllib.load(open(settings, "rb"))["project"]:
    print(f'[[project]]\nname = "{project["name"]}"\nqueue = "{project["queue"]}"\nbranch = "main"')
    print(f'repository = "{forge}/repos/{project["name"]}.git"')
    for job in project["job"]:
        print(f'[[project.job]]\nname = "{job["name"]}"\nlimit = 100.0\nwrite = ["{forge}/signs"]')
        print(f'command = "SIGNS={forge}/signs sh {job["name"]}.sh"')
PYTHON
}

# Who lands may move the branches; who is told to is known by this word alone.
start_lander() {
  start lander env FORGE_LANDER=yes python3 -m companions.lander "$FORGE/companions.toml"
}

start_worker() {
  start "$1" python3 -m companions.worker "$FORGE/companions.toml" "$1"
}

# Nothing stands in a queue, nothing waits, and each landing is noted.
is_quiet() {
  local shown queue landed
  shown=$(page status)
  [ -z "$(grep -v '^queue \|^end$' <<<"$shown")" ] || return
  while read -r _ queue _ _ _ landed; do
    [ "$(landings_by_git "$queue" | wc -l)" -eq "$landed" ] || return
  done < <(grep '^queue ' <<<"$shown")
}

# Whether a landing is noted: its project, and its queue and place, as core/1.
has_landed() {
  git -C "$FORGE/repos/$1.git" rev-parse --quiet --verify "$(printf 'refs/landings/%s/%06d' "${2%/*}" "${2#*/}")"
}

# The landings of a project as git has them: place, commit, change and revision. The note of the first head is none.
landings_of() {
  local repository=$FORGE/repos/$1.git place commit
  git -C "$repository" for-each-ref --format='%(refname:lstrip=3)' "refs/landings/$2" |
    while read -r place; do
      commit=$(git -C "$repository" rev-parse "refs/landings/$2/$place^{commit}")
      [ "$place" = 000000 ] || echo "$((10#$place)) $commit $(git -C "$repository" log -1 --format=%B "$commit" |
        sed -n 's/^Gate-Change: //p; s/^Gate-Revision: //p' | paste -s -d ,)"
    done
}

# The landings of a queue as git has them: place, change and revision.
landings_by_git() {
  local project
  for project in $(projects_of "$1"); do
    landings_of "$project" "$1" | cut -d ' ' -f 1,3
  done | sort -n
}

# The branch of a project is its first commit and then the landings that are noted, in their order.
check_branch() {
  local project=$1 queue=$2 branch
  branch=$(git -C "$FORGE/repos/$project.git" log --first-parent --reverse --format=%H base..main)
  [ "$branch" = "$(landings_of "$project" "$queue" | cut -d ' ' -f 2)" ] ||
    fail "the branch of $project isn't its landings"
}

# What the workers noted of their builds: project, change and revision, job, outcome, and the tree of the project.
builds_by_workers() {
  cat "$FORGE"/companions/worker/*/builds.jsonl | python3 -c '
import json, sys
for it in map(json.loads, sys.stdin):
    tree = it["trees"].get(it["project"])
    print(it["project"], "%s,%s" % (it["change"], it["revision"]), it["job"], it["outcome"], tree)'
}

# Each voting job passed on the tree that a landing left.
check_trees() {
  local project=$1 queue=$2 place change commit tree
  builds_by_workers >"$FORGE/builds"
  landings_of "$project" "$queue" |
    while read -r place commit change; do
      tree=$(git -C "$FORGE/repos/$project.git" rev-parse "$commit^{tree}")
      grep -q "^$project $change unit success $tree\$" "$FORGE/builds" ||
        fail "$change landed as $place on a tree that passed no unit job"
    done
}

# What became of the changes of a queue: its landings in order, and what left without landing.
check_queue() {
  local queue=$1 landed=$2 left=$3 history
  history=$(page "history/$queue")
  [ "$(awk '$5 == "landed" { print $6, $3 "," $4 }' <<<"$history" | sort -n)" = "$(landings_by_git "$queue")" ] ||
    fail "the gate and git tell other landings of $queue"
  [ "$(awk '$5 == "landed" { print $3 }' <<<"$history" | sort -n | tr '\n' ' ')" = "${landed:+$landed }" ] ||
    fail "not $landed landed in $queue"
  [ "$(awk 'NF == 6 && $5 != "landed" { print $3, $5 }' <<<"$history" | sort -n | tr '\n' ' ')" = "${left:+$left }" ] ||
    fail "not $left left $queue"
  printf '%s\n' "$history"
}

# Whoever checks the landings of these queues afterwards accepts them all.
check_evidence() {
  local queue
  for queue in "$@"; do
    python3 -m companions.evidence "$FORGE/companions.toml" "$queue" >"$FORGE/evidence.log" 2>&1 ||
      fail "what landed in $queue isn't what was tested: $(cat "$FORGE/evidence.log")"
  done
}

# Of each project, the branch is the landed changes in the gate's order, and each landed tree passed its jobs.
check_projects() {
  local project
  for project in lib app; do
    check_branch "$project" core
    check_trees "$project" core
  done
  check_branch site web
  check_trees site web
}
