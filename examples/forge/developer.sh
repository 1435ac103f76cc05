# What developers do.

# A developer pushes a change: its project, number, message, and files as NAME=TEXT. All begin at the first commit.
propose() {
  local project=$1 change=$2 message=$3 file said clone=$FORGE/developer/$1
  shift 3
  [ -d "$clone" ] || git clone --quiet "$FORGE/repos/$project.git" "$clone"
  git -C "$clone" checkout --quiet --detach refs/remotes/origin/base
  for file in "$@"; do
    printf '%s\n' "${file#*=}" >"$clone/${file%%=*}"
  done
  git -C "$clone" add .
  git -C "$clone" commit --quiet --message "$message"
  said=$(git -C "$clone" push --quiet origin "HEAD:refs/changes/$change/1" 2>&1)
  echo "$said" >>"$FORGE/developer.log"
  [[ $said == *'gate: {"reply":"recorded"}'* ]] || { echo "change $change wasn't taken: $said" >&2 && return 1; }
}

# Somebody approves these changes at their first revision.
approve() {
  local change
  for change in "$@"; do
    python3 "$FORGE_SCRIPTS/adapter.py" "$FORGE/companions.toml" approve "$change" 1
  done
}
