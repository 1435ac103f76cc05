# What people do at the stand-in of a forge (forge.py), and what the adapter has said of it. `forge` is the coprocess of
# forge.py, and UPDATE the hook of each repository, by default that of examples/forge.

# A project that holds these files: NAME=TEXT.
make() {
  local project=$1 file seed=$FORGE/seed/$1 bare=$FORGE/repos/$1.git
  shift
  git init --quiet --initial-branch=main "$seed"
  for file in "$@"; do
    printf '%s\n' "${file#*=}" >"$seed/${file%%=*}"
  done
  git -C "$seed" add .
  git -C "$seed" commit --quiet --message Begin
  git clone --quiet --bare "$seed" "$bare"
  git -C "$bare" branch base main
  git -C "$bare" branch next main
  cp "${UPDATE:-$FORGE_SCRIPTS/update}" "$bare/hooks/update"
}

# Somebody pushes to a request, from the first commit: its project, number, message and a file as NAME=TEXT.
push() {
  local seed=$FORGE/seed/$1
  git -C "$seed" checkout --quiet --detach main
  printf '%s\n' "${4#*=}" >"$seed/${4%%=*}"
  git -C "$seed" add .
  git -C "$seed" commit --quiet --message "$3"
  git -C "$seed" push --quiet --force "$FORGE/repos/$1.git" "HEAD:refs/pull/$2/head"
}

# A command to the forge, in its words; what it prints of it.
at_forge() {
  local IFS=$'\t' line
  printf '%s\n' "$*" >&"${forge[1]}"
  while IFS= read -r -u "${forge[0]}" line && [ "$line" != "done" ]; do
    printf '%s\n' "$line"
  done
}

# Somebody opens a request: its project, number, title, a file as NAME=TEXT, its text, and its branch.
propose() {
  push "$1" "$2" "$3" "$4"
  at_forge open "$1" "${6-main}" "$3" "${5-}"
}

# Whether the adapter has said this of a change at a revision.
has_said() {
  grep -qxF -- "adapter: change $1, revision $2: $3" "$FORGE/adapter.log"
}

has_order() {
  page orders | grep -q "\"change\":$1,"
}
