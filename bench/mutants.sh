#!/bin/sh
# mutants.sh: shows that the comparisons can fail. Each line below is a wrong rule,
# compiled in by -DMUTANT=number. One of the simulator has to be found by differential,
# one of the converter, from 70 on, by the recorded files and by the generated ones:
# the program exits with 1. Run by `make mutants`, from the repository's top. ONLY="4 9"
# tries those two; those from 70 on need no archive. REPEATS names the recorded files.
set -u
: "${CC:=cc}" "${CFLAGS:=-O2}" "${SEED:=1}" "${COUNT:=20000}" "${REPEATS:=crates/repeats_test/data/repeats.bin}"
archive=build/libmortarsedge.a
simulator='bench/simulator.c bench/sim_plan.c bench/sim_start.c bench/sim_step.c bench/sim_call.c
    bench/sim_run.c bench/sim_deliver.c bench/sim_move.c'
generator='bench/damage.c bench/make_plan.c bench/draft.c'
converter='bench/converter.c bench/guarded.c bench/sim_convert.c'
missed=0
tried=0

# compiled FLAGS AND SOURCES: build/mutant.
compiled() {
    # shellcheck disable=SC2086
    $CC -std=c11 $CFLAGS -Iinclude -o build/mutant "$@" || exit 2
}

# run NAME ARGUMENTS: build/mutant with the arguments has to find the rule.
run() {
    name=$1
    shift
    build/mutant "$@" > build/mutant.out 2> build/mutant.err
    status=$?
    tried=$((tried + 1))
    if [ "$status" -eq 1 ] && grep -q 'differ$\|was touched' build/mutant.err; then
        echo "found   $name ($(sed -n 's/^seed [0-9]* \(index [0-9]*\).*/\1/p; s/.*: \(.* records\) differ$/\1/p' build/mutant.err))"
    else
        echo "MISSED  $name (exit status $status)"
        missed=$((missed + 1))
    fi
}

# The sources are lists of words.
# shellcheck disable=SC2086
while read -r number rule; do
    case " ${ONLY:-$number} " in *" $number "*) ;; *) continue ;; esac
    if [ "$number" -ge 70 ]; then
        $CC -std=c11 $CFLAGS -DMUTANT="$number" -Dsim_convert=wrong_convert -c -o build/wrong.o bench/sim_convert.c || exit 2
        compiled -DHELD=wrong_convert bench/repeats_vectors.c $converter $simulator build/wrong.o
        run "$number $rule" "$REPEATS"
        compiled -DHELD=wrong_convert bench/repeats.c bench/make_repeats.c bench/rounds.c $generator $converter $simulator build/wrong.o
        run "$number $rule" "$SEED" "$COUNT"
    else
        [ -f "$archive" ] || { echo "mutants: no $archive; make driver first" >&2; exit 2; }
        compiled -DMUTANT="$number" bench/differential.c bench/tally.c bench/guarded.c bench/generate.c bench/make_steps.c \
            $generator $simulator "$archive"
        run "$number $rule" "$SEED" "$COUNT"
    fi
done <<'RULES'
1 an advert goes to the sender's own desk as well
2 the last letter fills the gap of a taken one
3 a word letter stays in the mail
4 the mail has room for 255 letters only
5 a task with living children may not move
6 an older pointer is written over a newer one
7 a held offer is lost on arrival
8 an offer is forwarded with its old count
9 every offer counts
10 an offer is answered although the receiver has called
11 a task at a finish with living children keeps the rig from rest
12 the adverts' room is tested for one letter
13 an ended letter needs no room
14 a birth sets no pointer
15 the newer of two offers is kept, not the larger
16 a channel's two ends may be one task
17 an output that is just long enough is too short
18 an unready task is found before the desk of a move
19 a full mail is found before living children at a finish
20 a byte behind the last line is written
21 a byte behind the output is written
22 a byte behind the plan is read
23 a channel may have one end only
24 a sum of 65,535 marks its task
25 a set takes the mark away
26 a finish takes the mark away
27 a word passed directly brings its sender's mark
28 a move leaves the mark behind
29 the marked tasks are named by falling number
30 a second byte of 4 is accepted
31 a set clears the other levels
32 every add is to level 0
33 only sums of level 0 mark
34 the levels are printed last first
35 an ended letter goes along the child's own pointer
36 an ended letter goes along the desk's pointer, newer or not
37 an ended letter is forwarded with its old count
38 held children are lost on arrival
39 only the lowest held child leaves on arrival
40 a departure sets no pointer to the parent
41 a child that moves renews its own pointer
42 an ended letter is held and not forwarded
43 an ended letter is removed where the parent is away
70 a repeat has one round more
71 each instruction of a repeat is repeated by itself
72 a repeat goes on into the next task
73 22 is tested before 21
74 21 to 23 are tested task by task
75 a written length is counted in 8 bits
76 a task left empty is refused by 2
77 the header is that of the file
78 the second bytes are lost
79 a create in a repeat of one round is accepted
80 20 is tested before 4
81 an output that is just long enough for a plan is too short
82 a short output holds the plan's beginning
83 a byte behind the written plan is written
RULES

[ "$missed" -eq 0 ] || { echo "mutants: $missed of $tried not found" >&2; exit 1; }
echo "mutants: all $tried found"
