#!/usr/bin/env bash
# Makes the archive that one takes to a machine without the toolchain, and checks it.
#
#   release.sh [FOLDER [LOG]]
#
# It writes gated-VERSION.tar.gz into FOLDER, by default `out` at the top of the repository, which git ignores. LOG is
# what `.ci/run` printed for this very revision. Without it the script runs `.ci/run`, which takes hours, and leaves the
# log in FOLDER. PROGRAM names the proved program, by default the one that `rt` has left. It has to be the one of the
# log, by its hash. Two archives of a revision with the same program and log are the same, byte by byte, where tar and
# gzip are.
#
# Run it as root: the check installs on an empty stage, with mounts and users of its own.
set -euo pipefail
export LC_ALL=C TZ=UTC
umask 022
# What of the repository is in the archive, beside the program.
parts=(README.md CHANGES.md pyproject.toml .flake8 companions docs examples)
place=crates/gated/out/gated
top=$(cd "$(dirname "$0")/.." && pwd)
given=$PWD
cd "$top"

halt() {
  echo "release: $*" >&2
  exit 1
}

sum_of() {
  sha256sum <"$1" | cut -d ' ' -f 1
}

# The last line of the log that begins so, without this beginning.
told() {
  sed -n "s/^$1//p" "$log" | tail -n 1
}

refuse_changes() {
  local changes
  changes=$(git status --porcelain | sed 5q)
  [ -z "$changes" ] || halt "the tree has changes that aren't committed, so an archive of it would have no revision:" \
    "commit them, or put them aside by 'git stash --include-untracked'"$'\n'"$changes"
}

# Runs the gate, and keeps what it printed.
run_gate() {
  log=$folder/gate-$version.log
  .ci/run 2>&1 | tee "$log" || halt ".ci/run failed: $log has what it printed"
  refuse_changes
  [ "$(git rev-parse HEAD)" = "$revision" ] || halt "HEAD has moved meanwhile: begin again"
}

# Whether the log is of this revision and this program, and all passed.
judge() {
  proved=$(told 'rt: ok; ') tests=$(tail -n 1 "$log") of=$(told 'gate: revision ')
  kit=$(sed -n 's/.*, kit \(.*\), program .*/\1/p' <<<"$of")
  [ -n "$of" ] || halt "$log has no line 'gate: revision ..': take what .ci/run of this revision printed, or no LOG"
  [ -n "$proved" ] || halt "$log has no line 'rt: ok; ..': the proofs weren't done"
  [[ $tests =~ ^[1-9][0-9]*\ passed,\ 0\ failed$ ]] || halt "$log ends with '$tests': something failed"
  [ "$of" = "$revision, kit $kit, program ${of##* }" ] && [ -n "$kit" ] ||
    halt "$log is of revision ${of%%, *}, and this is $revision: check that one out, or run .ci/run for this one"
  [ "${of##* }" = "$(sum_of "$program")" ] ||
    halt "$program has the SHA-256 $(sum_of "$program"), and the program of $log has ${of##* }: name it by PROGRAM"
}

# What was proved, and of what.
proof() {
  cat <<PROVED
version $version
revision $revision
kit $kit
program $(sum_of "$program")
proofs $proved
tests $tests
PROVED
}

# Fills the folder that is packed.
fill() {
  mkdir "$work/$name"
  git archive HEAD "${parts[@]}" | tar -x -C "$work/$name"
  install -D -m 755 "$program" "$work/$name/$place"
  echo "$version" >"$work/$name/VERSION"
  proof >"$work/$name/PROVED"
  (cd "$work/$name" && find . -type f ! -name SHA256SUMS -printf '%P\0' | sort -z | xargs -0 sha256sum) >"$work/sums"
  mv "$work/sums" "$work/$name/SHA256SUMS"
}

pack() {
  tar -C "$work" --create --format=gnu --sort=name --owner=0 --group=0 --numeric-owner --mode=u=rwX,go=rX \
    --mtime="@$(git log -1 --format=%ct)" "$name" | gzip --no-name --best >"$work/$name.tar.gz"
}

# Unpacks it where nothing else is, and runs the README's example there.
try_example() {
  mkdir "$work/empty"
  tar -C "$work/empty" -xzf "$work/$name.tar.gz"
  cd "$work/empty/$name"
  sha256sum --check --quiet --strict SHA256SUMS || halt "the unpacked files aren't those that were packed"
  env -i PATH=/usr/bin:/bin "./$place" replay examples/settings.toml --status <examples/deliveries.jsonl \
    >"$work/said" || halt "the program doesn't run here"
  diff "$work/said" examples/expected.txt || halt "the program doesn't print what examples/expected.txt has"
  cd "$top"
}

# Installs it on a stage, which is empty but for the archive, then once more.
try_install() {
  local stage=$work/stage
  mkdir -p "$stage/bin"
  mv "$work/empty/$name" "$stage/checkout"
  cp companions/tests/operating/stage.sh "$stage/"
  cp companions/tests/operating/{systemctl,journalctl} "$stage/bin/"
  : >"$stage/checks.py"
  cat >"$stage/page.sh" <<'PAGE'
set -euo pipefail
companions/service/install
echo "== again"
companions/service/install
runuser -u gated -- gated init /etc/gated/gate.toml /var/lib/gated/gate.db
runuser -u gated -- gated status /etc/gated/gate.toml /var/lib/gated/gate.db
(cd /usr/local/lib/gated && python3 -m companions.check) || true
PAGE
  chmod 755 "$work" "$stage"
  (cd "$stage" && unshare --mount --net --pid --fork --kill-child --mount-proc bash stage.sh) \
    >"$work/said" 2>&1 </dev/null || halt "$(cat "$work/said")"$'\n'"release: it can't be installed"
  for line in "install: /usr/local/lib/gated/VERSION: $version" "install: done, version $version" \
    "check: version $version" "queue core window 3 landed 0"; do
    grep -qxF "$line" "$work/said" || halt "$(cat "$work/said")"$'\n'"release: nothing said '$line'"
  done
  [ "$(sed -n '/^== again$/,/^install: done/p' "$work/said" | wc -l)" -eq 2 ] ||
    halt "$(cat "$work/said")"$'\n'"release: install isn't done after its first run"
}

[ $# -le 2 ] || { echo "usage: release.sh [FOLDER [LOG]]" >&2 && exit 2; }
[ "$(id -u)" -eq 0 ] || halt "run this as root: the check installs on a stage of its own"
revision=$(git rev-parse --verify HEAD 2>/dev/null) || halt "$top is no checkout of git"
refuse_changes
version=$(companions/service/version)
name=gated-$version
folder=$(cd "$given" && mkdir -p "${1:-$top/out}" && cd "${1:-$top/out}" && pwd)
program=$(cd "$given" && realpath -m "${PROGRAM:-$top/$place}")
if [ $# -eq 2 ]; then
  log=$(cd "$given" && realpath -e "$2") || halt "$2 isn't there"
else
  run_gate
fi
[ -x "$program" ] || halt "$program isn't there: name the program of the log by PROGRAM"
judge
work=$(mktemp -d)
trap 'rm -rf "$work"' EXIT
fill
pack
try_example
try_install
mv "$work/$name.tar.gz" "$folder/"
echo "release: $folder/$name.tar.gz, $(stat --format=%s "$folder/$name.tar.gz") bytes, SHA-256" \
  "$(sum_of "$folder/$name.tar.gz")"
