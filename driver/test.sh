#!/bin/sh
# test.sh DRIVER EXAMPLE: the driver's tests. DRIVER is the program, EXAMPLE the
# folder with the paper's worked run, rig.plan and rig.steps.
set -u

[ $# -eq 2 ] || { echo "usage: test.sh DRIVER EXAMPLE" >&2; exit 2; }
driver=$1
example=$2
scratch=$(mktemp -d) || exit 2
trap 'rm -rf "$scratch"' EXIT
cases=0
failures=0

fail() {
    echo "driver test: $1" >&2
    failures=$((failures + 1))
}

# bytes NAME OCTAL: a file in the scratch folder, from printf's octal escapes.
bytes() {
    # shellcheck disable=SC2059
    printf "$2" > "$scratch/$1"
}

# run WORD...: the driver, its outputs kept in the scratch folder.
run() {
    "$driver" "$@" > "$scratch/out" 2> "$scratch/err"
    status=$?
}

# expect NAME STATUS OUT ERR: what the last run did, whole.
expect() {
    cases=$((cases + 1))
    [ "$status" -eq "$2" ] || fail "$1: exit status $status, not $2"
    printf '%s' "$3" | cmp -s - "$scratch/out" || fail "$1: wrote: $(cat "$scratch/out")"
    printf '%s' "$4" | cmp -s - "$scratch/err" || fail "$1: told: $(cat "$scratch/err")"
}

# refuses NAME NUMBER FILE DESKS PLAN STEPS: exit 1, the number and FILE on
# standard error, no level. FILE is what is refused: a file's name, or the desks.
refuses() {
    cases=$((cases + 1))
    run "$4" "$5" "$6"
    [ "$status" -eq 1 ] || fail "$1: exit status $status, not 1"
    [ -s "$scratch/out" ] && fail "$1: wrote: $(cat "$scratch/out")"
    [ "$(wc -l < "$scratch/err")" -eq 1 ] || fail "$1: not one line on standard error"
    grep -q "^driver: $3 refused, $2: [a-z].*" "$scratch/err" || fail "$1: told: $(cat "$scratch/err")"
}

plan=$example/rig.plan
steps=$example/rig.steps
none=$scratch/none

# The worked run: the only word, 7 on channel 3, comes at step 9. Task 1 has
# finished at step 14, so step 15 is refused.
run 2 "$plan" "$steps"
expect "worked run" 0 "level 3 7 0 0 0
" "step 15 refused, 11: task not ready
finished, at rest
"

# Without its last two steps, task 1 is ready to go on.
head -c 52 "$steps" > "$scratch/short"
run 2 "$plan" "$scratch/short"
expect "worked run, 13 steps" 0 "level 3 7 0 0 0
" "not finished, not at rest, 0 letters
"

# Its first four steps: the mover and the offer to desk 2 are under way.
head -c 16 "$steps" > "$scratch/four"
run 2 "$plan" "$scratch/four"
expect "worked run, 4 steps" 0 "" "not finished, not at rest, 2 letters
"

bytes none ''
run 2 "$plan" "$none"
expect "empty step file" 0 "" "not finished, not at rest, 0 letters
"

# Two words on one desk. Task 1: create 2, set 65535, send 128, add 2, send 1,
# sync, finish. Task 2: receive 128, receive 1, finish. Steps: run 1, run 1,
# run 2, run 1 (128 passes), run 1 (65535 + 2 is 1), run 1, run 2 (1 passes),
# then a kind 4 (19), run 3 (10), deliver 1 (14), move 1 to 2 (15).
bytes two.plan '\002\000\012\000\014\000\007\000\050\000\003\000\001\000\002\000\006\000\377\377\004\000\200\000\007\000\002\000\004\000\001\000\002\000\000\000\003\000\000\000\005\000\200\000\005\000\001\000\003\000\000\000'
bytes two.steps '\001\001\000\000\001\001\000\000\001\002\000\000\001\001\000\000\001\001\000\000\001\001\000\000\001\002\000\000\004\000\000\000\001\003\000\000\002\000\001\000\003\001\002\000'
run 1 "$scratch/two.plan" "$scratch/two.steps"
expect "two words" 0 "level 128 65535 0 0 0
level 1 1 0 0 0
" "step 8 refused, 19: kind of step not 1 to 3, or an unused field not zero
step 9 refused, 10: no such task
step 10 refused, 14: no letter at this position
step 11 refused, 15: desk outside the rig
task 1 went over the top: a sum passed 65535
not finished, not at rest, 0 letters
"

# Rest is not the end of a show: two tasks that each wait for the other's word.
# Task 1: create 2, receive 1, send 2, finish. Task 2: receive 2, send 1, finish.
# Steps: run 1, run 1, run 2.
bytes stuck.plan '\002\000\007\000\014\000\004\000\034\000\003\000\001\000\002\000\005\000\001\000\004\000\002\000\003\000\000\000\005\000\002\000\004\000\001\000\003\000\000\000'
bytes stuck.steps '\001\001\000\000\001\001\000\000\001\002\000\000'
run 1 "$scratch/stuck.plan" "$scratch/stuck.steps"
expect "rest without an end" 0 "" "not finished, at rest
"

# The end of a show is not rest: an advert that nobody needs is still under way.
# Task 1: create 2, create 3, sync, finish. Task 2: send 1, finish. Task 3:
# receive 1, finish. Steps: run 1, move 2 to 2, deliver 1, run 2 (adverts to 1
# and 3), run 1, run 3, deliver 1 (the advert to 1), deliver 2 (the call),
# deliver 2 (the word), run 2, run 3, deliver 2 (task 2 has ended), run 1, run 1.
bytes early.plan '\003\000\010\000\020\000\004\000\040\000\002\000\050\000\002\000\001\000\002\000\001\000\003\000\002\000\000\000\003\000\000\000\004\000\001\000\003\000\000\000\005\000\001\000\003\000\000\000'
bytes early.steps '\001\001\000\000\003\002\002\000\002\000\001\000\001\002\000\000\001\001\000\000\001\003\000\000\002\000\001\000\002\000\002\000\002\000\002\000\001\002\000\000\001\003\000\000\002\000\002\000\001\001\000\000\001\001\000\000'
run 3 "$scratch/early.plan" "$scratch/early.steps"
expect "an end without rest" 0 "level 1 0 0 0 0
" "finished, not at rest, 1 letter
"

# Logs. After eight steps of the worked run its word has left and is not received; after nine both logs have it.
# A word that passes directly is in both at once. With 2,000 steps the logs are taken after the 1,999th.
logs_are() {
    cases=$((cases + 1))
    [ "$status" -eq 0 ] || fail "$1: exit status $status, not 0"
    [ "$(od -An -v -tu1 "$scratch/sent.log" | tr -s ' \n' ' ')" = "$2" ] || fail "$1: sent.log: $(od -An -v -tu1 "$scratch/sent.log")"
    [ "$(od -An -v -tu1 "$scratch/received.log" | tr -s ' \n' ' ')" = "$3" ] || fail "$1: received.log: $(od -An -v -tu1 "$scratch/received.log")"
}
seven=' 3 0 7 0 0 0 0 0 0 0 '
for count in 7 8 9; do
    head -c $((4 * count)) "$steps" > "$scratch/first"
    run --logs "$scratch" 2 "$plan" "$scratch/first"
    case $count in
    7) logs_are "logs after 7 steps" '' '' ;;
    8) logs_are "logs after 8 steps" "$seven" '' ;;
    9) logs_are "logs after 9 steps" "$seven" "$seven" ;;
    esac
done
direct=' 128 0 255 255 0 0 0 0 0 0 1 0 1 0 0 0 0 0 0 0 '
run --logs "$scratch" 1 "$scratch/two.plan" "$scratch/two.steps"
logs_are "logs of direct words" "$direct" "$direct"
{ head -c 36 "$steps"; head -c 7964 /dev/zero; } > "$scratch/full"
run --logs "$scratch" 2 "$plan" "$scratch/full"
logs_are "logs of 2,000 steps" "$seven" "$seven"
grep -q "^logs taken after step 1999: " "$scratch/err" || fail "logs of 2,000 steps: not told"
run --logs "$scratch/nowhere" 2 "$plan" "$steps"
cases=$((cases + 1))
[ "$status" -eq 3 ] || fail "logs nowhere: exit status $status, not 3"

# Refused plans: one task with one instruction unless said otherwise.
one='\001\000\001\000\010\000\001\000'
bytes finish.plan "$one"'\003\000\000\000'
bytes long.plan "$one"'\003\000\000\000\000'
bytes kind.plan "$one"'\010\000\000\000'
bytes second.plan "$one"'\003\001\000\000'
bytes argument.plan "$one"'\005\000\201\000'
bytes open.plan "$one"'\006\000\001\000'
# Two tasks that only finish: nobody creates task 2.
bytes orphan.plan '\002\000\002\000\014\000\001\000\020\000\001\000\003\000\000\000\003\000\000\000'
# Task 1: create 2, send 1, finish. Task 2: send 1, finish.
bytes senders.plan '\002\000\005\000\014\000\003\000\030\000\002\000\001\000\002\000\004\000\001\000\003\000\000\000\004\000\001\000\003\000\000\000'
refuses "no desks" 1 0 0 "$plan" "$steps"
refuses "seven desks" 1 7 7 "$plan" "$steps"
refuses "many desks" 1 999999999 999999999 "$plan" "$steps"
refuses "empty plan" 2 "$none" 2 "$none" "$steps"
refuses "a byte too many" 2 "$scratch/long.plan" 2 "$scratch/long.plan" "$steps"
refuses "unknown kind" 3 "$scratch/kind.plan" 2 "$scratch/kind.plan" "$steps"
refuses "second byte" 3 "$scratch/second.plan" 2 "$scratch/second.plan" "$steps"
refuses "channel 129" 3 "$scratch/argument.plan" 2 "$scratch/argument.plan" "$steps"
refuses "no finish" 4 "$scratch/open.plan" 2 "$scratch/open.plan" "$steps"
refuses "never created" 5 "$scratch/orphan.plan" 2 "$scratch/orphan.plan" "$steps"
refuses "two senders" 6 "$scratch/senders.plan" 2 "$scratch/senders.plan" "$steps"

# Step files: three bytes, 2,001 steps, and 2,000 which are accepted.
bytes three.steps '\001\001\000'
head -c 8004 /dev/zero > "$scratch/many.steps"
head -c 8000 /dev/zero > "$scratch/most.steps"
refuses "three bytes" 8 "$scratch/three.steps" 2 "$plan" "$scratch/three.steps"
refuses "2,001 steps" 8 "$scratch/many.steps" 2 "$plan" "$scratch/many.steps"
run 6 "$scratch/finish.plan" "$scratch/most.steps"
cases=$((cases + 1))
[ "$status" -eq 0 ] || fail "2,000 malformed steps: exit status $status, not 0"
[ "$(grep -c 'refused, 19: ' "$scratch/err")" -eq 2000 ] || fail "2,000 malformed steps: not as many refused"

# The plan is refused before the step file.
refuses "both refused" 4 "$scratch/open.plan" 2 "$scratch/open.plan" "$scratch/three.steps"

# Files that cannot be read.
broken() {
    cases=$((cases + 1))
    [ "$status" -eq 3 ] || fail "$1: exit status $status, not 3"
    [ -s "$scratch/out" ] && fail "$1: wrote: $(cat "$scratch/out")"
    grep -q "^driver: $2: [A-Za-z].*" "$scratch/err" || fail "$1: told: $(cat "$scratch/err")"
}
run 2 "$scratch/missing" "$steps"
broken "missing plan" "$scratch/missing"
run 2 "$plan" "$scratch/missing"
broken "missing step file" "$scratch/missing"
run 2 "$scratch" "$steps"
broken "a folder" "$scratch"
head -c 1048577 /dev/zero > "$scratch/huge"
run 2 "$plan" "$scratch/huge"
broken "too large" "$scratch/huge"
if [ -w /dev/full ]; then
    cases=$((cases + 1))
    "$driver" 2 "$plan" "$steps" > /dev/full 2> "$scratch/err"
    status=$?
    [ "$status" -eq 3 ] || fail "no room for the levels: exit status $status, not 3"
fi

# Live: steps as lines on standard input. live TEXT WORD..: the driver with these lines.
live() {
    printf "$1" > "$scratch/lines"
    shift
    "$driver" --live "$@" < "$scratch/lines" > "$scratch/out" 2> "$scratch/err"
    status=$?
}
live 'run 1\nrun 1\nmove 2 2\nrun 1\ndeliver 2\ndeliver 1\nrun 2\ndeliver 1\ndeliver 1\nrun 2\nrun 2\nrun 1\ndeliver 1\nrun 1\nrun 1\n' 2 "$plan"
expect "live, worked run" 0 "level 3 7 0 0 0
" "line 15 refused, 11: task not ready
finished, at rest
"
od -An -v -tu1 -w4 "$steps" > "$scratch/numbers"
"$driver" --live 2 "$plan" < "$scratch/numbers" > "$scratch/out" 2> "$scratch/err"
status=$?
expect "live, the bytes of the step file" 0 "level 3 7 0 0 0
" "line 15 refused, 11: task not ready
finished, at rest
"
# The levels of a step file are those of its steps, live.
for show in 1:two 1:stuck 3:early; do
    run "${show%:*}" "$scratch/${show#*:}.plan" "$scratch/${show#*:}.steps"
    cp "$scratch/out" "$scratch/levels"
    od -An -v -tu1 -w4 "$scratch/${show#*:}.steps" | "$driver" --live "${show%:*}" "$scratch/${show#*:}.plan" > "$scratch/out" 2> "$scratch/err"
    cases=$((cases + 1))
    cmp -s "$scratch/levels" "$scratch/out" || fail "live, $show: wrote: $(cat "$scratch/out")"
done
# Many lines of any kind, some of them none: each is answered.
awk 'BEGIN {
    srand(7)
    split("run deliver move call rest panel view jump # 1 2 3 64 65 300 x 0 0", word, " ")
    for (i = 0; i < 4000; i++) {
        line = word[1 + int(rand() * (rand() < 0.9 ? 7 : 18))]
        for (n = int(rand() * 4); n > 0; n--)
            line = line " " (rand() < 0.9 ? 1 + int(rand() * 3) : word[1 + int(rand() * 18)])
        print line
    }
}' > "$scratch/any"
"$driver" --live 3 "$scratch/early.plan" < "$scratch/any" > "$scratch/out" 2> "$scratch/err"
status=$?
cases=$((cases + 1))
[ "$status" -eq 2 ] || fail "live, lines of any kind: exit status $status, not 2"
tail -n 1 "$scratch/err" | grep -q "^finished, \|^not finished, " || fail "live, lines of any kind: $(tail -n 1 "$scratch/err")"
live '' 2 "$plan"
expect "live, no line" 0 "" "not finished, not at rest, 0 letters
"
live 'step 1 1 0\nstep 3 2 2\nstep 257 1 0\nstep 1 1\nrest\n' 2 "$plan"
expect "live, any step" 2 "rest 0 1
" "line 3 refused, 19: kind of step not 1 to 3, or an unused field not zero
driver: line 4: step: three numbers are needed
not finished, not at rest, 1 letter
"
live 'call 1' 1 "$scratch/finish.plan"
expect "live, no line feed at the end" 0 "made run 1 0
" "finished, at rest
"
# What is asked: the mover and the offer are under way. Of 2 runs, 256 deliveries and 4 moves, the two deliveries are accepted.
live '# a show\n\n  run 1\t# create\r\nrun 1\nmove 2 2\nrun 1\nrest\npanel\nview 1\nview 2\n' 2 "$plan"
expect "live, questions" 0 "rest 0 2
panel 0 2
panel 11 6
panel 14 254
view 1 sending 1 4 word 7 0 0 0 children 1 2
view 2 moving 0 1 word 0 0 0 0 children 0
" "not finished, not at rest, 2 letters
"
# Dispatchers: the word passes at desk 1, where both tasks are. Desk 2 has nothing to do, and neither has desk 1 in the end.
live 'call 1\ncall 2\ncall 1\ncall 1\ncall 1\ncall 1\ncall 1\ncall 1\ncall 1\ncall 1\nrest\n' 2 "$plan"
expect "live, calls" 0 "made run 1 0
made run 2 0
made run 1 0
made run 1 0
level 3 7 0 0 0
made run 2 0
made run 1 0
made run 2 0
made run 1 0
rest 1 0
" "finished, at rest
"
# Refused: the rig stays as it was, and the next line follows. Numbers that fit no step are the core's to refuse.
live 'run 0\nrun 3\nrun 2\nrun 256\ndeliver 1\ndeliver 65536\nmove 1 3\nmove 1 1\n4 0 0 0\ncall 3\ncall 256\nview 3\nview 257\nrest\n' 2 "$plan"
expect "live, refused" 0 "rest 0 0
" "line 1 refused, 10: no such task
line 2 refused, 10: no such task
line 3 refused, 11: task not ready
line 4 refused, 19: kind of step not 1 to 3, or an unused field not zero
line 5 refused, 14: no letter at this position
line 6 refused, 19: kind of step not 1 to 3, or an unused field not zero
line 7 refused, 15: desk outside the rig
line 8 refused, 16: task already at this desk
line 9 refused, 19: kind of step not 1 to 3, or an unused field not zero
line 10 refused, 15: desk outside the rig
line 11 refused, 15: desk outside the rig
line 12 refused, 10: no such task
line 13 refused, 10: no such task
not finished, not at rest, 0 letters
"
# Lines that are none: told with their numbers, and passed over.
long=$(printf '%0101d' 7)
live "jump 1\nrun\nrun 1 2\nmove 1\nrest 1\nrun one\nrun -1\nrun 1000000000\n1 1 0\n1 1 0 0 0\n1 2 3 4 5 6\n1 256 0 0\n1 x 0 0\nrun $long\nrun \\0001\nrun 1\nrest\n" 2 "$plan"
expect "live, no lines" 2 "rest 0 0
" "driver: line 1: jump: neither run, deliver, move, step, call, rest, panel, view nor the four bytes of a step
driver: line 2: run: one number is needed
driver: line 3: run: one number is needed
driver: line 4: move: two numbers are needed
driver: line 5: rest: no number is needed
driver: line 6: one: no number
driver: line 7: -1: no number
driver: line 8: 1000000000: no number
driver: line 9: 1: a step has four bytes
driver: line 10: 1: a step has four bytes
driver: line 11: 6: too many words
driver: line 12: 256: no byte
driver: line 13: x: no number
driver: line 14: over 100 bytes
driver: line 15: a zero byte
not finished, not at rest, 0 letters
"
# Levels come at once: each line is answered before the next is written.
mkfifo "$scratch/to" "$scratch/from"
"$driver" --live 1 "$scratch/two.plan" < "$scratch/to" > "$scratch/from" 2> "$scratch/err" &
alive=$!
{ sleep 20; kill "$alive" 2> /dev/null; } &
watch=$!
exec 3> "$scratch/to" 4< "$scratch/from"
printf 'run 1\nrun 1\nrun 2\nrun 1\n' >&3
read -r first <&4
printf 'run 1\nrun 1\nrun 2\n' >&3
read -r second <&4
exec 3>&-
wait "$alive"
status=$?
exec 4<&-
kill "$watch" 2> /dev/null
cases=$((cases + 1))
[ "$status" -eq 0 ] || fail "live, at once: exit status $status, not 0"
[ "$first, $second" = "level 128 65535 0 0 0, level 1 1 0 0 0" ] || fail "live, at once: $first, $second"
# The desks and the plan are refused as in a run; a file that cannot be read; an output that cannot be written.
live 'run 1\n' 7 "$plan"
expect "live, seven desks" 1 "" "driver: 7 refused, 1: desks not 1 to 6
"
live 'run 1\n' 2 "$scratch/open.plan"
expect "live, no finish" 1 "" "driver: $scratch/open.plan refused, 4: finish not exactly the last instruction of a task
"
live 'run 1\n' 2 "$scratch/missing"
broken "live, missing plan" "$scratch/missing"
if [ -w /dev/full ]; then
    cases=$((cases + 1))
    echo rest | "$driver" --live 2 "$plan" > /dev/full 2> "$scratch/err"
    status=$?
    [ "$status" -eq 3 ] || fail "live, no room for an answer: exit status $status, not 3"
fi

# Wrong usage.
wrong="usage: driver [--logs DIR] DESKS PLANFILE STEPFILE
       driver --live DESKS PLANFILE
DESKS is a number, and 1 to 6 are accepted; the files are explained in docs/FORMATS.md
"
run
expect "no words" 2 "" "$wrong"
run 2 "$plan"
expect "two words" 2 "" "$wrong"
run 2 "$plan" "$steps" 4
expect "four words" 2 "" "$wrong"
run two "$plan" "$steps"
expect "desks no number" 2 "" "$wrong"
run --live 2
expect "live, no plan" 2 "" "$wrong"
run --live 2 "$plan" "$steps"
expect "live, a step file" 2 "" "$wrong"
run --live two "$plan"
expect "live, desks no number" 2 "" "$wrong"
run -1 "$plan" "$steps"
expect "desks negative" 2 "" "$wrong"
run "" "$plan" "$steps"
expect "desks empty" 2 "" "$wrong"
run 9999999999 "$plan" "$steps"
expect "desks too long" 2 "" "$wrong"

[ "$failures" -eq 0 ] || { echo "driver test: $failures failures" >&2; exit 1; }
echo "driver test: $cases cases hold"
