#!/bin/sh
# finish_mutants.sh VECTORS: shows that the records of the finish check can fail. Each line below is a
# wrong check, compiled in by -DMUTANT=number; finish_vectors has to find it and exit with 1. Run from
# the repository's top; it needs no archive. ONLY="60 64" tries those two.
set -u
: "${CC:=cc}" "${CFLAGS:=-O2}"
[ $# -eq 1 ] || { echo "usage: finish_mutants.sh VECTORS" >&2; exit 2; }
sources='bench/finish_vectors.c bench/sim_finish.c
    bench/simulator.c bench/sim_plan.c bench/sim_start.c bench/sim_step.c
    bench/sim_run.c bench/sim_deliver.c bench/sim_move.c'
missed=0
tried=0

mkdir -p build
while read -r number rule; do
    case " ${ONLY:-$number} " in *" $number "*) ;; *) continue ;; esac
    # shellcheck disable=SC2086
    $CC -std=c11 $CFLAGS -DMUTANT="$number" -Iinclude -o build/finish_mutant $sources || exit 2
    build/finish_mutant "$1" > build/finish_mutant.out 2> build/finish_mutant.err
    status=$?
    tried=$((tried + 1))
    if [ "$status" -eq 1 ] && grep -q 'differs$' build/finish_mutant.err; then
        echo "found   $number $rule ($(sed 's/^finish_vectors: //' build/finish_mutant.err))"
    else
        echo "MISSED  $number $rule (exit status $status)"
        missed=$((missed + 1))
    fi
done <<'RULES'
60 the highest living child is named
61 the lowest child of the plan is named, living or not
62 a sending task depends on its channel's sender
63 a task that 12 refuses is left out
64 unborn tasks are listed
65 the check stops after 64 passes
66 all instructions are reported
67 a send that blocks is not counted
68 a run refused by 12 is counted
69 a waiting task is left out, and may get a yes
70 a receiving task depends on its channel's receiver
71 the tasks are listed by falling number
72 an output that is just long enough is too short
73 a line is cut where the output ends
74 a byte behind the last line is written
RULES

[ "$missed" -eq 0 ] || { echo "finish_mutants: $missed of $tried not found" >&2; exit 1; }
echo "finish_mutants: all $tried found"
