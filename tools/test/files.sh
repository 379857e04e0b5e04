#!/bin/sh
# files.sh COMMAND WRONG: files that cannot be read or written, and outputs whole or not at all. WRONG is the command with a
# simulator that is wrong.
set -u
[ $# -eq 2 ] || { echo "usage: files.sh COMMAND WRONG" >&2; exit 2; }
# shellcheck disable=SC2034
name=files command=$(realpath "$1") wrong=$(realpath "$2")
top=$(realpath "$(dirname "$0")/../..")
# shellcheck source=lib.sh disable=SC2154
. "$(dirname "$0")/lib.sh"

worked=$top/examples/worked
data=$top/crates/trace_program/data
cp "$worked/plan.txt" "$worked/steps.txt" "$data/rig.plan" "$data/rig.steps" "$scratch"

# Files: missing, a directory, too large, not to be written. What was there stays.
mkdir "$scratch/folder"
head -c 1048577 /dev/zero > "$scratch/huge"
for file in missing folder huge /dev/zero; do
    for sub in 'check 2' finish convert plan unplan; do
        # shellcheck disable=SC2086
        call $sub "$file"
        status_is 2 "$sub $file"; says "mortarsedge: $file: " "$sub $file"
    done
    for sub in run steps unsteps panel view chart; do
        call "$sub" 2 plan.txt "$file"
        status_is 2 "$sub $file"; says "mortarsedge: $file: " "$sub $file"
    done
    call logs "$file" rig.plan
    status_is 2 "logs $file"; says "mortarsedge: $file: " "logs $file"
done
call plan -o folder plan.txt
status_is 2 'into a folder'; says 'mortarsedge: folder: Is a directory' 'into a folder'
call plan -o missing/out plan.txt
status_is 2 'into a missing folder'; says 'mortarsedge: missing/out: No such file' 'into a missing folder'
if [ -w /dev/full ]; then
    call plan -o /dev/full plan.txt
    status_is 2 'a full device'; says 'mortarsedge: /dev/full: ' 'a full device'
    (cd "$scratch" && "$command" plan plan.txt > /dev/full 2> stderr)
    [ $? -eq 2 ] || fail 'standard output is full: status'
fi
call plan -o /dev/null plan.txt
status_is 0 'into /dev/null'; [ -c /dev/null ] || fail '/dev/null is replaced'

# Whole or not at all: a refused call leaves the file, an accepted one keeps its mode and its link.
echo old > "$scratch/out"; chmod 640 "$scratch/out"; ln -s out "$scratch/link"
call run -o out 9 plan.txt steps.txt
status_is 1 'nine desks'
[ "$(cat "$scratch/out")" = old ] || fail 'a refused run has written'
call chart -o link 2 plan.txt steps.txt
status_is 0 'chart into a link'
if [ ! -L "$scratch/link" ] || [ "$(stat -c %a "$scratch/out")" != 640 ]; then fail 'the link or the mode is lost'; fi
cmp -s "$scratch/out" "$worked/chart.svg" || fail 'chart into a link: another chart'
(cd "$scratch" && umask 027 && "$command" plan -o new plan.txt) || fail 'a new file'
[ "$(stat -c %a "$scratch/new")" = 640 ] || fail "a new file has mode $(stat -c %a "$scratch/new")"
# A disk without room: files may have no bytes.
(cd "$scratch" && trap '' XFSZ && ulimit -f 0 && "$command" plan -o link plan.txt 2> stderr) && fail 'no room: accepted'
cmp -s "$scratch/out" "$worked/chart.svg" || fail 'no room: the file is changed'
[ -z "$(find "$scratch" -name '*.??????' ! -name '*.*.*' -type f -newer "$scratch/link" ! -name 'stdout' ! -name 'stderr')" ] ||
    fail 'files are left'

# A simulator that is wrong is noticed, and nothing is told of that run. The library's own trace does not need it.
cp "$top/examples/late-offer/plan.txt" "$scratch/late.txt"
cp "$top/examples/late-offer/steps.txt" "$scratch/late.steps"
call steps -o late.bytes 3 late.txt late.steps
right=$command
command=$wrong
echo old > "$scratch/out"
for sub in chart 'chart --text' 'run --explain' run view 'view --along' unsteps; do
    # shellcheck disable=SC2086
    call $sub -o out 3 late.txt late.bytes
    status_is 2 "$sub, wrong simulator"
    says 'the simulator does not agree with the proved trace' "$sub, wrong simulator"
    [ "$(cat "$scratch/out")" = old ] || fail "$sub, wrong simulator: something is written"
done
call run --quiet 3 late.txt late.steps
status_is 2 'run --quiet of a text, wrong simulator'
call run --quiet 3 late.txt late.bytes
status_is 0 'run --quiet, wrong simulator'
cmp -s "$scratch/stdout" "$top/examples/late-offer/trace.txt" || fail 'run --quiet, wrong simulator: another trace'
command=$right

finish
