#!/bin/sh
# Tests the companions: their types and names by Debian's mypy and flake8, their units, days by seeds, and scenes in
# which one part is wrong and has to be found; and what bench/ checks of pages and code, which a release doesn't have.
# The last line counts, and the status is 0 only if nothing failed. GATED is the program, by default the one that
# `rt run` leaves; SEEDS are the days' seeds, FORGE_SEEDS those of the days with a forge of each form, JOBS how many
# tests run at once, by default one a processor and at most four, PATIENCE the seconds that one may take. RECORDED is a
# folder in which the sources of recorded answers are kept for later runs; what can't be had of them is skipped, and the
# last line says so.
set -u
script=$(cd "$(dirname "$0")" && pwd)/$(basename "$0")
cd "$(dirname "$script")/.."

# Runs one test, a module of Python with its words, keeps what it says, and says how it ended. Debian's packages are
# modules of its own Python.
if [ "${1-}" = --one ]; then
  shift
  python=python3
  case $1 in mypy | flake8) python=${DEBIANS_PYTHON:-/usr/bin/python3} ;; esac
  name=$(printf '%s' "$*" | tr -c 'a-z0-9' _)
  if timeout "${PATIENCE:-1200}" "$python" -m "$@" >"$work/$name.said" 2>&1; then
    echo "passed: $*" >"$work/$name.end"
  else
    { echo "FAILED: $*" && tail -n 40 "$work/$name.said"; } >"$work/$name.end"
  fi
  exec cat "$work/$name.end"
fi

export GATED="${GATED:-$PWD/crates/gated/out/gated}" PYTHONDONTWRITEBYTECODE=1
if [ ! -x "$GATED" ]; then
  echo "no program at $GATED: name one by GATED, or run" \
    "(cd crates/gated && rt run -- replay ../../examples/settings.toml </dev/null) at the top of the repository"
  echo "0 passed, 1 failed"
  exit 1
fi
jobs=$(nproc)
[ "$jobs" -le 4 ] || jobs=4
work=$(mktemp -d)
export work RECORDED="${RECORDED:-$work/recorded}" MYPY_CACHE_DIR="$work/mypy_cache"
trap 'rm -rf "$work"' EXIT

forms=$(sed -n 's/^FORMS = (\(.*\))$/\1/p' companions/settings.py | tr -d '",')
# The longest first.
{
  for seed in ${SEEDS:-1 2}; do
    echo "companions.tests.day $seed"
  done
  for seed in ${FORGE_SEEDS:-1}; do
    for form in $forms; do
      echo "companions.tests.day $seed --forge $form"
    done
  done
  echo "companions.tests.day 1 --forge github --ci"
  for scene in worker-keeps lander-back lander-past worker-hastes unit \
    "adapter-holds --forge gitea" "adapter-fresh --forge github" "adapter-believes --forge gitlab" \
    "lander-blind --forge gitea" "lander-merges --forge github" "worker-merges --forge gitlab" \
    "ci-trusts --forge github" "ci-strays --forge github"; do
    echo "companions.tests.day --turn $scene"
  done
  echo mypy
  echo flake8 companions
  for file in companions/tests/test_*.py; do
    echo "unittest companions.tests.$(basename "$file" .py)"
  done
  for file in bench/test_*.py; do
    [ ! -e "$file" ] || echo "unittest bench.$(basename "$file" .py)"
  done
} | xargs -P "${JOBS:-$jobs}" -L 1 sh "$script" --one

# Unit tests say how many ran, and how many of these failed or had errors. A module that says nothing of that, or was
# ended, counts as one that failed.
for said in "$work"/unittest*.said; do
  units=$(sed -n 's/^Ran \([0-9]*\) tests\{0,1\} .*/\1/p' "$said" | tail -n 1)
  bad=$(sed -n '/^FAILED (/{s/skipped=[0-9]*//; s/[^0-9][^0-9]*/ /gp;}' "$said" | tail -n 1 |
    awk '{ for (at = 1; at <= NF; at++) sum += $at } END { print sum + 0 }')
  grep -q '^passed: ' "${said%.said}.end" || [ "$bad" -gt 0 ] || bad=1
  [ "${units:-0}" -ge "$bad" ] || units=$bad
  echo "$((units - bad)) $bad"
done >"$work/counts"
for end in "$work"/companions_tests_day*.end "$work"/mypy*.end "$work"/flake8*.end; do
  grep -q '^passed: ' "$end" && echo "1 0" || echo "0 1"
done >>"$work/counts"
skipped=$(sed -n 's/^skipped: //p' "$work"/*.said | sort -u | paste -s -d ';' - | sed 's/;/; /g')
awk -v skipped="$skipped" '
    { passed += $1; failed += $2 }
    END { print passed " passed, " failed " failed" (skipped ? ", skipped: " skipped : ""); exit failed > 0 }' \
  "$work/counts"
