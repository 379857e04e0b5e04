#!/usr/bin/env bash
# The finish program on a plan that finishes, on one that does not, and without a plan, which it refuses.
#
#   scripts/finish_test.sh FINISH_PROGRAM DATA
set -eu
finish=$(realpath "$1")
data=$(realpath "$2")
work=$(mktemp -d)
trap 'rm -rf "$work"' EXIT

# expect NAME TEXT: what the program prints in the folder.
expect() {
    if [ "$(cd "$work" && "$finish")" != "$2" ]; then
        echo "finish test: $1: another text than $2" >&2
        exit 1
    fi
}

expect "no plan" "refused 2"
cp "$data/finishes.plan" "$work/rig.plan"
expect "a plan that finishes" "yes 8"
cp "$data/rig.plan" "$work/rig.plan"
expect "a plan that does not" $'no 9\n1 2\n2 5\n3 4\n4 5\n5 3'
echo "finish test: 3 texts are right"
