#!/bin/sh
# live_mutants.sh: shows that the comparison of live rigs can fail. Each line below is a wrong image, a wrong test of it or a
# wrong call, compiled into the stand-in by -DMUTANT=number; live has to find it beside the right simulator. Run by
# `make mutants`, from the repository's top; it needs no archive. ONLY="104 112" tries those two.
set -u
: "${CC:=cc}" "${CFLAGS:=-O2}" "${SEED:=1}" "${PLANS:=60}" "${DAMAGED:=10000}"
simulator='bench/simulator.c bench/sim_plan.c bench/sim_start.c bench/sim_step.c bench/sim_call.c
    bench/sim_run.c bench/sim_deliver.c bench/sim_move.c'
live='bench/sim_live.c bench/sim_image.c bench/sim_limits.c bench/sim_ask.c'
generator='bench/generate.c bench/damage.c bench/make_plan.c bench/make_steps.c bench/draft.c'
missed=0
tried=0

# joined OUTPUT FLAGS AND SOURCES: an object of all of them.
joined() {
    to=$1
    shift
    # shellcheck disable=SC2086
    $CC -std=c11 $CFLAGS -Iinclude -r -nostdlib -o "$to" "$@" || exit 2
}

# The sources are lists of words.
# shellcheck disable=SC2086
joined build/live_right.o bench/live.c bench/live_calls.c bench/live_damage.c bench/live_doctor.c bench/guarded.c $generator $live $simulator
# shellcheck disable=SC2086
while read -r number rule; do
    case " ${ONLY:-$number} " in *" $number "*) ;; *) continue ;; esac
    joined build/live_wrong.o -DMUTANT="$number" bench/live_standin.c $live $simulator
    objcopy --wildcard --keep-global-symbol='mortarsedge_*' build/live_wrong.o || exit 2
    $CC -o build/live_mutant build/live_right.o build/live_wrong.o || exit 2
    build/live_mutant "$SEED" "$PLANS" "$DAMAGED" > build/live_mutant.out 2> build/live_mutant.err
    status=$?
    tried=$((tried + 1))
    if [ "$status" -eq 1 ] && grep -q 'differ$\|has changed\|was touched' build/live_mutant.err; then
        echo "found   $number $rule ($(sed -n 's/^live: //p' build/live_mutant.err))"
    else
        echo "MISSED  $number $rule (exit status $status)"
        missed=$((missed + 1))
    fi
done <<'RULES'
100 the version is not looked at
101 the bytes behind the plan are not looked at
102 what a letter has not, and the slots behind the last letter, are not looked at
103 a letter of kind 7 is one
104 the sets of ready tasks are not looked at
105 the zero byte is not looked at
106 a count of 10,000 passes
107 an offer's number of 65 passes
108 a pointer without a desk may have a count
109 an unborn task may have a mark
110 a sending task may have executed any instruction
111 task 1 may have a pointer of its own
112 the unused tasks are looked at
113 any number called passes
114 any last choice passes
115 entries stand channel by channel
116 the mark of a call is not written
117 a byte behind the image is written
118 the levels of a record stand last first
119 a number that does not fit is cut
120 a refused step leaves the record as it was
121 a refused step changes the rig
122 9 is tested before 20
123 desk 257 is desk 1
124 the room for a second step is cleared
125 a refused run does not use the turn
126 a tablet's view is as long as the driver's
127 nothing is at rest
128 a child that is born again keeps its word
129 a child that is born again keeps its children
130 a word that passes directly to its receiver leaves the mark
RULES

[ "$missed" -eq 0 ] || { echo "live_mutants: $missed of $tried not found" >&2; exit 1; }
echo "live_mutants: all $tried found"
