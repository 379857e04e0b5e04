#!/bin/sh
# first_minute.sh COMMAND: the README's first minute, as it stands there.
set -u
[ $# -eq 1 ] || { echo "usage: first_minute.sh COMMAND" >&2; exit 2; }
# shellcheck disable=SC2034
name=first_minute command=$(realpath "$1")
top=$(realpath "$(dirname "$0")/../..")
# shellcheck source=lib.sh disable=SC2154
. "$(dirname "$0")/lib.sh"

sed -n '/^## The first minute/,/^## For/p' "$top/README.md" | sed -n 's/^    //p' | sed "s|build/mortarsedge|$command|" | put minute
(cd "$scratch" && sh -e minute > stdout 2> stderr) || fail "it fails: $(cat "$scratch/stderr")"
[ -s "$scratch/stderr" ] && fail "it says: $(cat "$scratch/stderr")"
[ "$(head -n 2 "$scratch/stdout" | tr '\n' ' ')" = 'accepted yes 8 ' ] || fail "it begins: $(head -n 2 "$scratch/stdout")"
head -n 14 "$top/crates/trace_program/stdout" | put trace
sed -n '3,16p' "$scratch/stdout" | cmp -s - "$scratch/trace" || fail "another trace"
grep -q '^end: at rest$' "$scratch/stdout" || fail 'nothing is explained'
grep -q '^     end .* at rest$' "$scratch/stdout" || fail 'no chart for a terminal'
grep -q '^<svg ' "$scratch/chart.svg" || fail 'no chart'
[ "$(tail -n 1 "$scratch/stdout")" = 'task 2 (lamp): done at desk 2; word 8 0 0 0; no living children' ] || fail 'no view'
printf '.......' >> "$scratch/.calls"
finish
