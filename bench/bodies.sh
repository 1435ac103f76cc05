#!/bin/sh
# Tries the wrong bodies of `bench/bodies`, in all crates or in those that are named: the prover must refuse each, as it
# does those of `crates/*/must-fail`, which every `rt ci` tries. Run it for each crate whose contract or body you change.
# What `rt ci` has proved on this machine isn't proved again, and a body that was refused over the same crate isn't tried
# again. Fails if one is accepted, can't be applied or read, or wasn't tried. Lists those that say little of a contract:
# refused only because a proof file names what the edit took away, or by a limit of the prover. Those that no contract
# refuses name a test that fails on them (`test:`): bench/tested.py tries these.
set -eu
top=$(cd "$(dirname "$0")/.." && pwd)
[ $# -gt 0 ] || set -- $(ls "$top/bench/bodies")
work=$(mktemp -d)
trap 'rm -rf "$work"' EXIT
cd "$top"
# The crates without what was built of them, and without the wrong bodies of the gate.
tar -c --exclude='crates/*/out' --exclude='crates/*/must-fail' crates crates.txt HANDLES | tar -x -C "$work"
for crate; do
    cp -R "$top/bench/bodies/$crate" "$work/crates/$crate/must-fail"
    grep -l '^test: ' "$work/crates/$crate/must-fail"/* | xargs -r rm
done
cd "$work"
git init -q
wanted=$(find crates/*/must-fail -name '*.edit' | wc -l)
{ rt ci "$@" 2>&1 && echo 0 >status || echo $? >status; } >said
grep -E 'must-fail .*(BAD EDIT|NOT TRIED|NOT REFUSED|refused, as it must be \(only)' said || true
refused=$(grep -c 'must-fail .*refused, as it must be' said || true)
if [ "$refused" -ne "$wanted" ] || [ "$(cat status)" -ne 0 ]; then
    tail -n 5 said
    echo "$refused of $wanted wrong bodies were refused"
    exit 1
fi
echo "$refused wrong bodies were refused"
