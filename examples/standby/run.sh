#!/usr/bin/env bash
# A day of a forge whose gate has a standby, which is lost twice with its file: first it is restored from a backup and
# from what the standby has, then the standby takes its place. The first word is the day's seed, by default chance. It
# ends by itself, and says `ok` and the seed, or what differs.
set -eu
cd "$(dirname "$0")/../.."
export GATED=${GATED:-$PWD/crates/gated/out/gated}
exec python3 -m companions.tests.day "${1:-$RANDOM}"
