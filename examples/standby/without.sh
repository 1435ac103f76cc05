#!/usr/bin/env bash
# What goes wrong where a standby takes over and a rule is left out: a scene for each, over two files. It ends with
# `ok`, or says what differs.
set -eu
FORGE_SETTINGS=$(cd "$(dirname "$0")" && pwd)/../forge/settings.toml
. "$(dirname "$0")/../forge/stage.sh"

# Tells a file a delivery, and prints the reply.
say() {
  "$GATED" deliver "$FORGE_SETTINGS" "$FORGE/$1" <<<"$2"
}

revision() {
  local said="\"kind\":\"revision\",\"change\":$3,\"project\":\"$2\",\"revision\":1,\"message\":\"\""
  say "$1" "{\"id\":\"$(id_of revision "$3" 1)\",$said}"
}

approved() {
  say "$1" "{\"id\":\"$(id_of approved "$2" 1)\",\"kind\":\"approved\",\"change\":$2,\"revision\":1}"
}

# A worker asks for a build, under the id of its n-th question.
take() {
  say "$1" "{\"id\":\"0000000$3-0000-4000-9000-0000000000${2#w}0\",\"kind\":\"take\",\"worker\":\"$2\"}"
}

success() {
  say "$1" "{\"id\":\"$(id_of result "$2")\",\"kind\":\"result\",\"build\":$2,\"outcome\":\"success\"}"
}

# What a file answers to a question, refusals too.
get() {
  "$GATED" get "$FORGE_SETTINGS" "$FORGE/$1" "$2" 2>/dev/null || true
}

# What has to come, and what came.
is() {
  [ "$2" = "$1" ] || fail "$2, and not $1"
}

# A gate, and its standby, which has two changes, and not their approvals any more. At the standby 102's approval is
# told again before that of 101: it has the order that 101 had.
begin() {
  rm -f "$FORGE"/first* "$FORGE"/standby*
  "$GATED" init "$FORGE_SETTINGS" "$FORGE/first"
  "$GATED" init "$FORGE_SETTINGS" "$FORGE/standby"
  revision first lib 101 >"$FORGE/replies"
  revision first app 102 >>"$FORGE/replies"
  "$GATED" deliveries "$FORGE_SETTINGS" "$FORGE/first" |
    "$GATED" deliver "$FORGE_SETTINGS" "$FORGE/standby" >>"$FORGE/replies"
  is '{"order":1,"reply":"queued"}' "$(approved first 101)"
  is '{"order":2,"reply":"queued"}' "$(approved first 102)"
}

approve_again() {
  is '{"order":1,"reply":"queued"}' "$(approved standby 102)"
  is '{"order":2,"reply":"queued"}' "$(approved standby 101)"
}

# At the gate w1 has a build of 101; at the standby w2 has one of 102, under the same number.
share_a_number() {
  begin
  held=$(take first w1 1)
  is 'build 1 of unit of 101' "build $(member "$held" build) of $(member "$held" job) of $(member "$held" change)"
  approve_again
  local other
  other=$(take standby w2 1)
  is 'build 1 of unit of 102' "build $(member "$other" build) of $(member "$other" job) of $(member "$other" change)"
}

keep_a_build() {
  share_a_number
  is '{"reply":"noted"}' "$(success standby 1)"
  is '[{"change":102,"order":1,"project":"app","queue":"core","revision":1}]' "$(get standby /orders)"
  echo "a worker that keeps its build: what it says of build 1, unit of 101, is noted for unit of 102, which nobody" \
    "has run to its end, and 102 is to land"
}

ask_again() {
  local again
  share_a_number
  again=$(take standby w1 1)
  [ "$again" != "$held" ] || fail "the same reply: $again"
  is 'build 2 of unit of 101' "build $(member "$again" build) of $(member "$again" job) of $(member "$again" change)"
  is '[]' "$(get standby /orders)"
  echo "a worker that asks again under its id, before it says how build 1 ended: it is given build 2, so it throws" \
    "away what it has, and runs that"
}

# The lander has put 101 into the branch by order 1, and hasn't told. By the standby order 1 is 102.
share_an_order() {
  local build
  begin
  for build in 1 2; do
    take first w1 "$build" >>"$FORGE/replies"
    success first "$build" >>"$FORGE/replies"
  done
  is '[{"change":101,"order":1,"project":"lib","queue":"core","revision":1}]' "$(get first /orders)"
  echo 'Land 101,1 by order 1 of core' >"$FORGE/branch"
  approve_again
  take standby w2 1 >>"$FORGE/replies"
  success standby 1 >>"$FORGE/replies"
  order=$(get standby /orders)
  is 'order 1 of 102' "order $(member "$order" order) of $(member "$order" change)"
}

look_at_orders_alone() {
  share_an_order
  grep -q "^Land [^ ]* by order $(member "$order" order) of core\$" "$FORGE/branch" || fail "no landing by order 1"
  is '{"n":1,"reply":"landed"}' "$(say standby "{\"id\":\"$(id_of landed 1)\",\"kind\":\"landed\",\"order\":1}")"
  is '102 landed' "$(get standby /history/core | awk '$1 == 1 { print $3, $5 }')"
  echo "a lander that looks for the number of an order alone: it finds order 1 in the branch, and tells that it" \
    "landed; by the standby 102 has landed, and the branch has 101"
}

compare_changes() {
  share_an_order
  grep -q "^Land $(member "$order" change),$(member "$order" revision) by order 1 of core\$" "$FORGE/branch" &&
    fail "102 is in the branch"
  is '102 open' "$(member "$(get standby /changes/102)" change) $(member "$(get standby /changes/102)" state)"
  echo "a lander that compares change and revision: it doesn't find order 1 in the branch, and lands 102"
}

tell_nothing_again() {
  local unknown='{"code":"E5","error":"unknown-change"}'
  begin
  revision first site 201 >>"$FORGE/replies"
  approved first 201 >>"$FORGE/replies"
  is "$unknown" "$(get standby /changes/201)"
  is "$unknown" "$(approved standby 201)"
  is '' "$(get standby /status | grep -v '^queue \|^end$' || true)"
  echo "clients that tell nothing again: 201 is unknown to the standby, and 101 and 102, which were queued, are not"
}

tell_again() {
  approve_again
  revision standby site 201 >>"$FORGE/replies"
  approved standby 201 >>"$FORGE/replies"
  is '102 101 201' "$(get standby /status | awk '/=/ { print $2 }' | xargs)"
  echo "clients that tell their revisions and approvals again: all three are queued"
}

keep_a_build
ask_again
look_at_orders_alone
compare_changes
tell_nothing_again
tell_again
echo ok
