#!/bin/sh
# make.sh COMMAND FROM TO: the trace, the charts, the views along it and the finish check of each show of FROM/shows.txt, written into TO/SHOW.
set -eu
[ $# -eq 3 ] || { echo "usage: make.sh COMMAND FROM TO" >&2; exit 2; }
while read -r show desks; do
    plan=$2/$show/plan.txt steps=$2/$show/steps.txt to=$3/$show
    mkdir -p "$to"
    "$1" run --quiet -o "$to/trace.txt" "$desks" "$plan" "$steps"
    "$1" run --explain -o "$to/explained.txt" "$desks" "$plan" "$steps"
    "$1" chart -o "$to/chart.svg" "$desks" "$plan" "$steps"
    "$1" chart --text -o "$to/chart.txt" "$desks" "$plan" "$steps"
    "$1" view --along --explain --quiet -o "$to/views.txt" "$desks" "$plan" "$steps"
    "$1" finish --explain -o "$to/finish.txt" "$plan" || [ $? -eq 1 ]
done < "$2/shows.txt"
