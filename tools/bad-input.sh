#!/usr/bin/env bash
# Runs the built program on bad input, and compares status, standard output and standard error with what docs/REPORT.md says.
# Not part of the gate: it needs crates/patrol/out/patrol, as .ci/run leaves it.
set -u
top=$(cd "$(dirname "$0")/.." && pwd) || exit 1
program=$top/crates/patrol/out/patrol
[ -x "$program" ] || { echo "no built program: run .ci/run first" >&2; exit 1; }
folder=$(mktemp -d)
trap 'rm -rf "$folder"' EXIT
cd "$folder" || exit 1
passed=0
failed=0

# expect STATUS LINE WORD..: this status, this line on standard error, and nothing on standard output
expect() {
  local status=$1 line=$2
  shift 2
  "$program" "$@" >out 2>err </dev/null
  local got=$?
  if [ "$got" -eq "$status" ] && [ ! -s out ] && [ "$(cat err)" = "$line" ]; then
    passed=$((passed + 1))
  else
    failed=$((failed + 1))
    echo "failed: $* gave $got, '$(cat err)', $(wc -c <out) bytes"
  fi
}

game=$top/examples/two-targets.toml
printf '\377\376' >not-utf8.toml
printf 'version = \n' >not-toml.toml
: >empty.toml
mkdir folder
head -c 4194305 /dev/zero | tr '\0' '#' >long.toml
head -c 4194304 /dev/zero | tr '\0' '#' >comment.toml

expect 2 'words refused'
expect 2 'words refused' solve
expect 2 'words refused' "$game"
expect 2 'words refused' solve "$game" extra
expect 2 'words refused' solve -x "$game"
expect 2 'words refused' check "$game"
expect 2 'words refused' show "$game" "$game" "$game"
expect 2 'words refused' solve $'\377'
for words in '--seed=3 --seed=3' '--seed 3 --seed 3' '--seed -1' '--seed=-1' '--seed 01' '--seed=' '--seed' '--see 3' '--seed 18446744073709551616' '-s 3' '3'; do
  # shellcheck disable=SC2086
  expect 2 'words refused' roster "$game" "$game" $words
done
expect 4 'game not read' solve missing.toml
expect 4 'game not read' solve folder
expect 5 'game too long' solve long.toml
expect 6 'game refused 1 at document' solve not-utf8.toml
expect 6 'game refused 1 at document' solve not-toml.toml
expect 6 'game refused 3 at document' solve empty.toml
expect 6 'game refused 3 at document' solve comment.toml
printf 'version = 1\nform = "security"\npatrols = 13\ntargets = ["gate"]\n\n[[type]]\nname = "thief"\nprior = 1\npayoffs = [[1, -1, 0, 1]]\n' >many-plays.toml
expect 3 'not yet' solve many-plays.toml
for words in '--nodes 0' '--nodes 1000001' '--pivots 0' '--looks x' '--family priced' '--order depth' '--lanes 9' '--lanes 0' '--nodes=1 --nodes=2'; do
  # shellcheck disable=SC2086
  expect 2 'words refused' solve "$game" $words
done

"$program" solve "$game" >right.report
sed 's/^value 2 3/value 1 1/' right.report >wrong.report
for command in check show roster; do
  expect 4 'game not read' "$command" missing.toml missing.report
  expect 6 'game refused 3 at document' "$command" empty.toml missing.report
  expect 4 'report not read' "$command" "$top/examples/two-attackers.toml" missing.report
  expect 4 'report not read' "$command" "$game" missing.report
  expect 4 'report not read' "$command" "$game" folder
  expect 7 'report refused 2 at line 1' "$command" "$game" empty.toml
  expect 7 'report refused 1 at line 1' "$command" "$game" "$game"
  expect 7 'no 3 at line 5' "$command" "$game" wrong.report
done

# a standard output that fails
"$program" solve "$game" >/dev/full 2>err
if [ $? -eq 9 ] && [ "$(cat err)" = 'write failed' ]; then passed=$((passed + 1)); else failed=$((failed + 1)); echo 'failed: a full device'; fi
# a pipe whose reader has gone
(trap '' PIPE; sleep 1; "$program" solve "$game" 2>err; echo $? >status) | true
if [ "$(cat status)" = 9 ] && [ "$(cat err)" = 'write failed' ]; then passed=$((passed + 1)); else failed=$((failed + 1)); echo "failed: a broken pipe gave $(cat status)"; fi

echo "$passed passed, $failed failed"
[ "$failed" -eq 0 ]
