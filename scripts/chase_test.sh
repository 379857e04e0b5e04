#!/usr/bin/env bash
# The chase program's files, traced on three desks: every step is accepted, the rig is at rest, and the count is the one asked for.
#
#   scripts/chase_test.sh CHASE_PROGRAM TRACE_PROGRAM
set -eu
chase=$(realpath "$1")
trace=$(realpath "$2")
work=$(mktemp -d)
trap 'rm -rf "$work"' EXIT
cd "$work"

fail() {
    echo "chase: $1" >&2
    exit 1
}

# INPUT M: both files are written, for m forwards
accepted() {
    rm -f rig.plan rig.steps
    printf '%b' "$1" | "$chase" >count || fail "'$1' failed"
    [ "$(cat count)" = "$2" ] || fail "'$1' printed $(cat count) and not $2"
    [ "$(stat -c %s rig.plan)" = 32 ] || fail "'$1': the plan's length"
    [ "$(stat -c %s rig.steps)" = $((4 * (3 * $2 + 11))) ] || fail "'$1': the number of steps"
    echo 3 | "$trace" >lines
    [ "$(grep -c -v '^end' lines)" = $((3 * $2 + 11)) ] || fail "'$1': the number of lines"
    awk '$1 != "end" && $2 != 0 { exit 1 }' lines || fail "'$1': a step is refused"
    [ "$(tail -n 1 lines)" = "end 1 0" ] || fail "'$1': not at rest"
    [ "$(ls)" = "$(printf 'count\nlines\nrig.plan\nrig.steps')" ] || fail "'$1': other files"
}

# INPUT: refused, and files that are there stay as they are
refused() {
    echo plan >rig.plan
    echo steps >rig.steps
    printf '%b' "$1" | "$chase" >count || fail "'$1' failed"
    [ "$(cat count)" = "refused 26" ] || fail "'$1' printed $(cat count)"
    [ "$(cat rig.plan rig.steps)" = "$(printf 'plan\nsteps')" ] || fail "'$1': files are changed"
    rm -f rig.plan rig.steps
    printf '%b' "$1" | "$chase" >count
    [ ! -e rig.plan ] && [ ! -e rig.steps ] || fail "'$1': files are made"
}

accepted '0\n' 0
accepted '1\n' 1
accepted '2' 2
accepted '499\n' 499
accepted '500\n' 500
accepted '' 0
accepted 'x7' 0
accepted '-3' 0
accepted '3 4\n' 3
accepted '12x9\n' 12
accepted '7\0008' 7
accepted "$(printf '%01000d' 0)5\\n" 5
accepted "$(printf '%070000d' 0)500" 500
refused '501\n'
refused '0501'
refused '5000'
refused '18446744073709551621'
refused '65541'
refused "1$(printf '%070000d' 0)"
refused "$(printf '%070000d' 0)501"

# what cannot be written is said, and no part of a file is left
mkdir rig.steps
if echo 4 | "$chase" 2>errors | grep -q .; then fail "printed a count without its files"; fi
grep -q '^rig.steps: ' errors || fail "no message"
[ ! -e rig.plan.new ] && [ ! -e rig.steps.new ] || fail "half a file is left"
rmdir rig.steps
echo "chase: 20 numbers are as they should be"
