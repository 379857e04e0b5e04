#!/bin/sh
# refused_steps.sh COMMAND: every refusal of step files, steps and logs that can be met is told, and where it is.
set -u
[ $# -eq 1 ] || { echo "usage: refused_steps.sh COMMAND" >&2; exit 2; }
# shellcheck disable=SC2034
name=refused_steps command=$(realpath "$1")
# shellcheck source=lib.sh disable=SC2154
. "$(dirname "$0")/lib.sh"

printf 'task a\n finish\n' | put one.txt

# 8: step files.
bytes odd.steps '\001\001\000\000\001\000'
call run 1 one.txt odd.steps
refused 8 'odd.steps: byte 4: the file has 6 bytes: behind the last whole step there are 2' 'six bytes of steps'
head -c 8004 /dev/zero > "$scratch/long.steps"
call run 1 one.txt long.steps
refused 8 'long.steps: it has 2001 steps' '2,001 steps'
i=0; while [ $i -le 2000 ]; do echo 'run a'; i=$((i + 1)); done | put long.txt
call chart 1 one.txt long.txt
refused 8 'long.txt: it has 2001 steps' '2,001 steps as text'

# 10 to 16 and 19: steps, in a run that is accepted. Each is told with its line.
put show.txt <<'END'
task main
    create left
    create right
    send cue
    finish
task left
    finish
task right
    receive cue
    finish
END
put steps.txt <<'END'
run 9
run left
run main
run main
run main
run main
run left
move main to 1
move right to 1
move right to 3
move right to 2
run right
deliver 2
deliver 0
step 7 1 0
step 1 1 5
deliver mover right
run right
deliver call cue
deliver word cue
run main
END
call run 2 show.txt steps.txt
status_is 0 'a run with refused steps'
line() {
    says "steps.txt:$1:1: step $1, $2" 'refused steps'
}
line 1 'run 9: refused, 10: no such task: task 9, and the plan has tasks 1 to 3'
line 2 'run left: refused, 11: task not ready: task 2 (left) is unborn: task 1 (main) has not created it'
line 6 'run main: refused, 11: task not ready: task 1 (main) is sending on channel 1 (cue) at desk 1; the other end is task 3 (right), ready at desk 1'
line 8 'move main to 1: refused, 11'
line 9 'move right to 1: refused, 16: task already at this desk: task 3 (right) is at desk 1'
line 10 'move right to 3: refused, 15: desk outside the rig: desk 3, and the rig has desks 1 to 2'
line 12 'run right: refused, 11: task not ready: task 3 (right) is under way to desk 2'
line 13 'deliver 2: refused, 14: no letter at this position: position 2, and the mail has 1 letter'
line 14 'deliver 0: refused, 14'
line 15 'step 7 1 0: refused, 19: kind of step not 1 to 3, or an unused field not zero: kind 7, task 1, number 0'
line 16 'step 1 1 5: refused, 19'
line 21 "run main: finish: refused, 12: finish with living children: of task 1 (main)'s children these live: right"
printf 'task a\n create b\n sync\n finish\ntask b\n finish\n' | put wait.txt
printf 'run a\nrun a\nrun a\n' | put wait.steps
call run 1 wait.txt wait.steps
says 'wait.steps:3:1: step 3, run a: refused, 11: task not ready: task 1 (a) is waiting for b at desk 1' 'waiting'
printf 'run a\nrun b\nrun b\n' | put done.steps
call run 1 wait.txt done.steps
says 'done.steps:3:1: step 3, run b: refused, 11: task not ready: task 2 (b) is done at desk 1' 'done'
call run --explain 2 show.txt steps.txt
status_is 0 'explained'
grep -qF '    refused, 16: task already at this desk' "$scratch/stdout" || fail 'explained: 16 is not told'

# 13: 51 senders on six desks fill the mail by five adverts each; the next has no room.
{
    echo 'task main'; i=1; while [ $i -le 52 ]; do echo "create s$i"; i=$((i + 1)); done; echo 'create r'; echo finish
    i=1; while [ $i -le 52 ]; do printf 'task s%d\n send %d\n finish\n' $i $i; i=$((i + 1)); done
    echo 'task r'; i=1; while [ $i -le 52 ]; do echo "receive $i"; i=$((i + 1)); done; echo finish
} | put crowd.txt
{ i=1; while [ $i -le 52 ]; do echo 'run main'; i=$((i + 1)); done
  i=1; while [ $i -le 52 ]; do echo "run s$i"; i=$((i + 1)); done; } | put crowd.steps
call run 6 crowd.txt crowd.steps
says 'crowd.steps:104:1: step 104, run s52: send 52: refused, 13: the letters needed do not fit in the mail: it has 255 letters' 'mail'

# 24 and 25: logs.
bytes sent '\003\000\007\000\000\000\000\000\000\000'
bytes short '\003\000\007\000'
bytes wild '\201\000\007\000\000\000\000\000\000\000'
bytes other '\003\000\010\000\000\000\000\000\000\000'
bytes empty ''
call logs short sent
refused 24 'short: byte 0: the file has 4 bytes: behind the last whole record there are 4' 'log of 4 bytes'
head -c 40970 /dev/zero > "$scratch/long.log"
call logs sent long.log
refused 24 'long.log: it has 4097 records' 'log of 4,097 records'
call logs sent wild
refused 25 'wild: byte 0: record 1 has channel 129' 'channel 129'
call logs sent other
status_is 1 'logs that differ'; writes 'no 3' 'logs that differ'
says 'channel 3 differs in word 1:' 'logs'; says 'sent: record 1: 7 0 0 0' 'logs'; says 'other: record 1: 8 0 0 0' 'logs'
call logs empty sent
status_is 1 'a word that was not sent'; says 'empty: it has 0 words on this channel' 'logs'
call logs sent empty
status_is 0 'a word under way'; writes 'yes' 'logs'

finish
