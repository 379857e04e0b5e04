#!/bin/sh
# usage.sh COMMAND: usage and its statuses, and the paper's worked run by each command.
set -u
[ $# -eq 1 ] || { echo "usage: usage.sh COMMAND" >&2; exit 2; }
# shellcheck disable=SC2034
name=usage command=$(realpath "$1")
top=$(realpath "$(dirname "$0")/../..")
# shellcheck source=lib.sh disable=SC2154
. "$(dirname "$0")/lib.sh"

worked=$top/examples/worked
data=$top/crates/trace_program/data
cp "$worked/plan.txt" "$worked/steps.txt" "$data/rig.plan" "$data/rig.steps" "$scratch"

commands='check run finish convert logs plan unplan steps unsteps dispatch panel view chart'

# Usage: --help on standard output, status 0; wrong usage on standard error, status 2.
for words in --help help; do
    call $words
    status_is 0 "$words"
    grep -q 'This command is not proved' "$scratch/stdout" || fail "$words: it does not say that it is not proved"
done
for sub in $commands; do
    call "$sub" --help
    status_is 0 "$sub --help"
    grep -q "^usage: mortarsedge $sub" "$scratch/stdout" || fail "$sub --help: $(cat "$scratch/stdout")"
    call "$sub"
    status_is 2 "$sub"; says 'an argument is missing' "$sub"
    call "$sub" --no-such a b c d
    status_is 2 "$sub --no-such"; says 'unknown option: --no-such' "$sub"
    call "$sub" 1 2 3 4
    status_is 2 "$sub, four words"; says 'too many arguments' "$sub"
done
call
status_is 2 'no command'; says 'no command' 'no command'
call lights
status_is 2 'lights'; says 'no such command: lights' 'lights'
call check two plan
status_is 2 'two desks'; says 'no number of desks: two' 'two desks'
call run 2 - -
status_is 2 'both from standard input'; says 'standard input can be read once' 'both from standard input'
call plan -o
status_is 2 'no file for -o'; says '-o without a file' 'no file for -o'

# The paper's worked run, from text, is the paper's files.
call plan plan.txt
status_is 0 'plan'; cmp -s "$scratch/stdout" "$data/rig.plan" || fail 'plan: not the paper'\''s bytes'
call steps 2 plan.txt steps.txt
status_is 0 'steps'; cmp -s "$scratch/stdout" "$data/rig.steps" || fail 'steps: not the paper'\''s bytes'
call check 2 plan.txt
status_is 0 'check'; writes accepted 'check'
call run --quiet 2 rig.plan rig.steps
status_is 0 'run'; cmp -s "$scratch/stdout" "$top/crates/trace_program/stdout" || fail 'run: not the paper'\''s trace'
[ -s "$scratch/stderr" ] && fail 'run --quiet: something is said'
call run 2 rig.plan rig.steps
says 'rig.steps: step 15, run 1: refused, 11: task not ready: task 1 is done at desk 1' 'run'
call finish plan.txt
status_is 0 'finish'; writes 'yes 8' 'finish'
cp "$top/examples/unfinished/plan.txt" "$scratch/stuck.txt"
call finish stuck.txt
status_is 1 'finish, no'; writes 'no 3
1 2
2 1' 'finish, no'

# The paper's plan as text, and back.
call unplan rig.plan
cp "$scratch/stdout" "$scratch/again.txt"
call plan again.txt
cmp -s "$scratch/stdout" "$data/rig.plan" || fail 'unplan: not the same plan'
call unsteps 2 plan.txt rig.steps
grep -q '^deliver offer cue  *# 5, position 2$' "$scratch/stdout" || fail 'unsteps: letters are not named'
call unsteps --positions 2 rig.plan rig.steps
grep -q '^deliver 2  *# 5, position 2$' "$scratch/stdout" || fail 'unsteps --positions: letters have no positions'

# What dispatchers choose is run to rest, and as text it is the same steps.
for desks in 1 2 6; do
    call dispatch -o chosen $desks plan.txt
    status_is 0 'dispatch'
    call run --quiet $desks plan.txt chosen
    [ "$(tail -n 1 "$scratch/stdout")" = 'end 1 0' ] || fail 'dispatch: not at rest'
    call dispatch --text -o chosen.txt $desks plan.txt
    call steps $desks plan.txt chosen.txt
    cmp -s "$scratch/stdout" "$scratch/chosen" || fail 'dispatch --text: other steps'
done
call dispatch 7 plan.txt
status_is 1 'dispatch on 7 desks'; says '7 desks refused, 1: ' 'dispatch on 7 desks'

# The panel after the first four steps of the worked run: two deliveries; both tasks are busy.
head -c 16 "$data/rig.steps" > "$scratch/four"
call panel 2 plan.txt four
status_is 0 'panel'; writes '0 2
11 6
14 254' 'panel'
call panel --explain 2 plan.txt four
grep -q '^    6 refused, 11: task not ready$' "$scratch/stdout" || fail "panel --explain: $(cat "$scratch/stdout")"
call panel 7 plan.txt four
status_is 1 'panel on 7 desks'; says '7 desks refused, 1: ' 'panel on 7 desks'

# Views after the first four steps of the worked run, and along all of it.
call view 2 plan.txt four
status_is 0 'view'; writes '1 sending 1 4 7 0 0 0 1 2
2 moving 0 1 0 0 0 0 0' 'view'
call view --tablet 2 plan.txt four
status_is 0 'view --tablet'; writes '1 sending 1 4
2 moving 0 1' 'view --tablet'
call view --explain 2 plan.txt four
status_is 0 'view --explain'
writes 'task 1 (console): sending (send cue) at desk 1, next instruction 4 of 5: sync; word 7 0 0 0; 1 living child: lamp
task 2 (lamp): moving, next instruction 1 of 3: receive cue; word 0 0 0 0; no living children' 'view --explain'
call view --along --tablet --quiet 2 rig.plan rig.steps
status_is 0 'view --along'; writes '0 1 ready 1 1
0 2 unborn 0 1
1 1 ready 1 2
1 2 ready 1 1
2 1 ready 1 3
3 2 moving 0 1
4 1 sending 1 4
6 2 ready 2 1
7 2 receiving 2 2
8 1 ready 1 4
9 2 ready 2 2
10 2 ready 2 3
11 2 done 2 4
12 1 waiting 1 5
13 1 ready 1 5
14 1 done 1 6' 'view --along'
[ -s "$scratch/stderr" ] && fail 'view --quiet: something is said'
call view --along --explain 2 plan.txt steps.txt
says 'steps.txt:16:1: step 15, run console: refused, 11: task not ready: task 1 (console) is done at desk 1' 'view, a refused step'
[ "$(tail -n 2 "$scratch/stdout")" = '    task 1 (console): done at desk 1; word 7 0 0 0; no living children
step 15, refused by 11' ] || fail "view --along --explain: $(tail -n 2 "$scratch/stdout")"
call view 2 rig.plan /dev/null
writes '1 ready 1 1 0 0 0 0 0
2 unborn 0 1 0 0 0 0 0' 'view, no steps'
call view 7 plan.txt four
status_is 1 'view on 7 desks'; says '7 desks refused, 1: ' 'view on 7 desks'
head -c 15 "$data/rig.steps" > "$scratch/fifteen"
call view 2 plan.txt fifteen
status_is 1 'view, 15 bytes of steps'; says 'refused, 8: ' 'view, 15 bytes of steps'

# Standard input and output are -.
for sub in plan 'check 2' finish; do
    # shellcheck disable=SC2086
    (cd "$scratch" && "$command" $sub - < plan.txt > stdout 2> stderr) || fail "$sub -: $(cat "$scratch/stderr")"
done
(cd "$scratch" && "$command" run -q 2 plan.txt - < steps.txt > stdout) || fail 'run from standard input'
cmp -s "$scratch/stdout" "$top/crates/trace_program/stdout" || fail 'run from standard input: another trace'
call plan -o - plan.txt
cmp -s "$scratch/stdout" "$data/rig.plan" || fail 'plan -o -: not the same bytes'
printf 'junk' | (cd "$scratch" && "$command" plan - > stdout 2> stderr)
grep -q "^standard input:1:1: 'junk' is no instruction" "$scratch/stderr" || fail "junk: $(cat "$scratch/stderr")"

# A text without a zero byte is a text, unless it is said to be bytes.
printf 'abcd' | put abcd
call run -q 2 plan.txt abcd
status_is 2 'abcd as text'; says "abcd:1:1: 'abcd' is no step" 'abcd as text'
call run -q --bytes 2 rig.plan abcd
status_is 0 'abcd as bytes'; writes '1 19
end 0 0' 'abcd as bytes'
call check --bytes 2 plan.txt
status_is 1 'a text as bytes'; says 'plan.txt refused, 2' 'a text as bytes'; says 'takes a text' 'a text as bytes'

call unsteps 2 plan.txt steps.txt
status_is 1 'a text of steps as bytes'; says 'takes a text' 'a text of steps as bytes'

# A show without steps.
call chart --text 1 plan.txt /dev/null
grep -q '^     end .* not at rest, 0 letters under way$' "$scratch/stdout" || fail "no steps: $(cat "$scratch/stdout")"

# Repeats: written out by the converter; or kept, and converted later.
cp "$top/examples/repeats/plan.txt" "$scratch/repeats.txt"
call plan -o written repeats.txt
call plan --repeats -o kept repeats.txt
call convert -o converted kept
cmp -s "$scratch/written" "$scratch/converted" || fail 'the converted plan is another'
cmp -s "$scratch/written" "$scratch/kept" && fail 'no repeats are kept'
call unplan kept
grep -q '^    repeat 3$' "$scratch/stdout" || fail 'unplan: no repeat'

# A name of a channel gets the lowest number that the text does not use.
put named.txt <<'END'
task a
    create b
    send x
    send 1
    send y
    finish
task b
    receive x
    receive 1
    receive y
    finish
END
call plan -o named named.txt
call unplan named
[ "$(sed -n 's/^    send \([0-9]*\).*/\1/p' "$scratch/stdout" | tr '\n' ' ')" = '2 1 3 ' ] || fail "names: $(cat "$scratch/stdout")"

# Letters that are alike: told apart by where they go.
put alike.txt <<'END'
task a
    create b
    create c
    finish
task b
    send x
    finish
task c
    receive x
    finish
END
printf 'run a\nrun b\ndeliver advert x to 3\ndeliver advert x\n' | put alike.steps
call steps -o alike 3 alike.txt alike.steps
status_is 0 'letters that are alike'
call unsteps 3 alike.txt alike
[ "$(sed -n 's/^deliver \([a-z0-9 ]*[a-z0-9]\)  *#.*, position \([0-9]\)$/\1 \2/p' "$scratch/stdout" | tr '\n' ';')" = \
    'advert x to 3 2;advert x 1;' ] || fail "letters that are alike: $(cat "$scratch/stdout")"

# A sum of 65,535 is not over the top, the next one is.
printf 'task a\n set 65534\n add 1\n add 1\n finish\n' | put over.txt
printf 'run a\nrun a\nrun a\n' | put over.steps
call chart --text 1 over.txt over.steps
[ "$(grep -n ' \^ ' "$scratch/stdout" | cut -d: -f1 | tr '\n' ' ')" = '3 9 ' ] || fail "over the top: $(cat "$scratch/stdout")"

finish
