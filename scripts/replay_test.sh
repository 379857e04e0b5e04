#!/usr/bin/env bash
# The trace program replays what the dispatch program chose: the same trace, on 1 to 6 desks.
#
#   scripts/replay_test.sh DISPATCH_PROGRAM TRACE_PROGRAM PLAN..
set -eu
dispatch=$(realpath "$1")
trace=$(realpath "$2")
shift 2
work=$(mktemp -d)
trap 'rm -rf "$work"' EXIT
runs=0
for plan in "$@"; do
    cp "$plan" "$work/rig.plan"
    for desks in 1 2 3 4 5 6; do
        rm -f "$work/rig.steps"
        (cd "$work" && echo "$desks" | "$dispatch" >chosen && echo "$desks" | "$trace" >replayed)
        if ! cmp -s "$work/chosen" "$work/replayed" || ! [ -s "$work/rig.steps" ]; then
            echo "replay: $plan on $desks desks differs" >&2
            exit 1
        fi
        runs=$((runs + 1))
    done
done
echo "replay: $runs traces are the same"
