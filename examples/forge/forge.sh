#!/usr/bin/env bash
# Makes three bare repositories, each with a first commit on `main`, which `base` keeps, and the hooks.
set -eu
FORGE_SCRIPTS=$(cd "$(dirname "$0")" && pwd)
. "$FORGE_SCRIPTS/common.sh"

# A project that holds these files: NAME=TEXT.
make() {
  local file seed=$FORGE/seed/$1 bare=$FORGE/repos/$1.git
  shift
  git init --quiet --initial-branch=main "$seed"
  for file in "$@"; do
    mkdir -p "$(dirname "$seed/${file%%=*}")"
    printf '%s\n' "${file#*=}" >"$seed/${file%%=*}"
  done
  git -C "$seed" add .
  git -C "$seed" commit --quiet --message "Begin"
  git clone --quiet --bare "$seed" "$bare"
  git -C "$bare" branch base main
  cp "$FORGE_SCRIPTS/update" "$bare/hooks"
  # The adapter is told of each push that stands.
  printf '#!/bin/sh\nexec python3 "%s/adapter.py" "%s/companions.toml" post-receive\n' "$FORGE_SCRIPTS" "$FORGE" \
    >"$bare/hooks/post-receive"
  chmod +x "$bare/hooks/post-receive"
}

# `unit` of lib: no number is above 100; a slow one says where it is, and waits until it may go on. `docs`: each is said
# in words. `unit` of app: what it uses is a number of lib.
make lib numbers/1=one numbers/2=two \
  unit.sh='if [ -e slow ]; then
  echo "$GATED_TREES" >"$SIGNS/slow.new"
  mv "$SIGNS/slow.new" "$SIGNS/slow"
  until [ -e "$SIGNS/goes-on" ]; do sleep 0.1; done
fi
[ "$(ls numbers | sort -n | tail -n 1)" -le 100 ]' \
  docs.sh='[ -z "$(grep -L . numbers/*)" ]'
make app uses/1=once unit.sh='for use in uses/*; do [ -e "$GATED_TREES/lib/numbers/${use##*/}" ] || exit 1; done'
make site page=Welcome unit.sh='grep -q . page'
