#!/bin/sh
# refusals.sh COMMAND: every refusal of desks and plans is told with its number, its sentence, and where it is.
set -u
[ $# -eq 1 ] || { echo "usage: refusals.sh COMMAND" >&2; exit 2; }
# shellcheck disable=SC2034
name=refusals command=$(realpath "$1")
# shellcheck source=lib.sh disable=SC2154
. "$(dirname "$0")/lib.sh"

# A plan of text, checked: each is refused by a number, at a place.
text_refused() {
    put plan.txt
    call check 2 plan.txt
    refused "$1" "$2" "text refused by $1"
}

# 1: the desks.
printf 'task a\n finish\n' | put one.txt
for desks in 0 7 999999999; do
    call check $desks one.txt
    refused 1 "$desks desks refused" "desks $desks"
done

# 2: bytes that are no plan file, each with its byte.
layout() {
    bytes plan "$2"
    call check 2 plan
    refused 2 "plan: byte $1" "layout"
}
layout '0: the file has 0 bytes' ''
layout '3: the file has 3 bytes' '\001\000\001'
layout '0: T is 0 tasks' '\000\000\000\000'
layout '0: T is 65 tasks' '\101\000\001\000\010\000\001\000\003\000\000\000'
layout '8: the file has 8 bytes, and the header of 2 tasks has 12' '\002\000\001\000\010\000\001\000'
layout '4: task 1: it has 0 instructions' '\001\000\000\000\010\000\000\000'
layout '4: task 1: its offset is 9, and its instructions are due at byte 8' '\001\000\001\000\011\000\001\000\003\000\000\000'
layout '2: N is 2, and the tasks have 1 instructions together' '\001\000\002\000\010\000\001\000\003\000\000\000'
layout '13: the file has 13 bytes, and 12 are due' '\001\000\001\000\010\000\001\000\003\000\000\000\000'
{ i=0; while [ $i -lt 65 ]; do echo "task t$i"; echo finish; i=$((i + 1)); done; } |
    text_refused 2 'plan.txt:129:1: task 65: a plan has at most 64 tasks'
{ echo 'task a'; i=0; while [ $i -lt 64 ]; do echo 'set 1'; i=$((i + 1)); done; echo finish; } |
    text_refused 2 'plan.txt:1:1: task 1 (a): it has 65 instructions'
printf 'task a\n create b\n finish\ntask b\n' | text_refused 2 'plan.txt:4:1: task 2 (b): it has 0 instructions'

# 3: instructions by themselves.
instruction() {
    bytes plan "\\001\\000\\002\\000\\010\\000\\002\\000$2\\003\\000\\000\\000"
    call check 1 plan
    refused 3 "plan: byte 8: task 1, instruction 1, $1" "instruction"
}
instruction 'kind 0: kind 0 is unknown' '\000\000\000\000'
instruction 'kind 12: kind 12 is unknown' '\014\000\000\000'
instruction 'repeat 2: repeats are of the new edition' '\010\000\002\000'
instruction 'create 1: the plan has one task' '\001\000\001\000'
instruction 'sync: its argument is 1, and 0 to 0' '\002\000\001\000'
instruction 'sync: its second byte is 1' '\002\001\000\000'
instruction 'set 7 level 4: there is no level 4' '\006\004\007\000'
instruction 'send 0: its argument is 0, and 1 to 128' '\004\000\000\000'
printf 'task a\n create 3\n finish\ntask b\n finish\n' | text_refused 3 'plan.txt:2:2: task 1 (a), instruction 1, create 3: its argument is 3, and 2 to 2'
printf 'task a\n send 129\n finish\n' | text_refused 3 'plan.txt:2:2: task 1 (a), instruction 1, send 129: its argument is 129'
printf 'task a\n add 9 level 7\n finish\n' | text_refused 3 'plan.txt:2:2: task 1 (a), instruction 1, add 9 level 7: there is no level 7'
printf 'task a\n repeat 65\n end\n finish\n' | text_refused 3 'plan.txt:2:2: task 1 (a), instruction 1, repeat 65: its argument is 65, and 1 to 64'

# 4: finish.
printf 'task a\n set 1\n' | text_refused 4 'plan.txt:2:2: task 1 (a), instruction 1, set 1: this is its last instruction'
printf 'task a\n finish\n set 1\n finish\n' | text_refused 4 'plan.txt:2:2: task 1 (a), instruction 1, finish: finish is the last'
printf 'task a\n repeat 2\n finish\n end\n' | text_refused 4 'plan.txt:3:2: task 1 (a), instruction 2, finish: finish is repeated 2 times'
printf 'task a\n repeat 2\n end\n' | text_refused 4 'plan.txt:1:1: task 1 (a): nothing is left of it'

# 5: creates.
printf 'task a\n finish\ntask b\n finish\n' | text_refused 5 'plan.txt:3:1: task 2 (b): no task creates it'
printf 'task a\n create b\n create b\n finish\ntask b\n finish\n' |
    text_refused 5 'plan.txt:3:2: task 1 (a), instruction 2, create b: task 2 is created before, by task 1, instruction 1'
printf 'task a\n create c\n finish\ntask b\n finish\ntask c\n create b\n finish\n' |
    text_refused 5 'plan.txt:7:2: task 3 (c), instruction 1, create b: only a task of a lower number than 2'
printf 'task a\n create b\n finish\ntask b\n create b\n finish\n' |
    text_refused 5 'plan.txt:5:2: task 2 (b), instruction 1, create b: only a task of a lower number than 2'

# 6: channels.
printf 'task a\n create b\n send x\n finish\ntask b\n finish\n' | text_refused 6 'plan.txt:3:2: task 1 (a), instruction 2, send x: channel 1 (x) has a sender and no receiver'
printf 'task a\n create b\n finish\ntask b\n receive x\n finish\n' | text_refused 6 'plan.txt:5:2: task 2 (b), instruction 1, receive x: channel 1 (x) has a receiver and no sender'
printf 'task a\n create b\n send x\n receive x\n finish\ntask b\n finish\n' | text_refused 6 'plan.txt:4:2: task 1 (a), instruction 3, receive x: task 1 sends and receives on channel 1 (x)'
printf 'task a\n create b\n send 5\n receive 5\n finish\ntask b\n send 5\n finish\n' |
    text_refused 6 'plan.txt:7:2: task 2 (b), instruction 1, send 5: channel 5 has task 1 already, which sends on it at its instruction 2'
printf 'task a\n create b\n send 5\n receive 5\n finish\ntask b\n receive 5\n finish\n' |
    text_refused 6 'plan.txt:7:2: task 2 (b), instruction 1, receive 5: channel 5 has task 1 already, which receives'
{ printf 'task a\n create b\n'; i=1; while [ $i -le 12 ]; do echo "send $i"; i=$((i + 1)); done; printf 'finish\ntask b\n finish\n'; } |
    text_refused 6 'plan.txt: and 2 places more'

# 21 to 23: repeats.
printf 'task a\n repeat 2\n repeat 3\n end\n end\n finish\n' | text_refused 21 'plan.txt:3:2: task 1 (a), instruction 2, repeat 3: it stands within the repeat at instruction 1'
printf 'task a\n end\n finish\n' | text_refused 21 'plan.txt:2:2: task 1 (a), instruction 1, end: no repeat is open'
printf 'task a\n repeat 2\n finish\n' | text_refused 21 'plan.txt:2:2: task 1 (a), instruction 1, repeat 2: its end is missing'
printf 'task a\n repeat 1\n create b\n end\n finish\ntask b\n finish\n' | text_refused 22 'plan.txt:3:2: task 1 (a), instruction 2, create b: a create stands in no repeat'
printf 'task a\n repeat 64\n set 1\n end\n finish\n' | text_refused 23 'plan.txt:1:1: task 1 (a): it has 65 instructions when its repeats are written out'
bytes plan '\001\000\003\000\010\000\003\000\010\000\002\000\006\000\001\000\003\000\000\000'
call convert plan
refused 21 'plan: byte 8: task 1, instruction 1, repeat 2: its end is missing' 'convert'
for sub in finish unplan; do
    bytes plan '\001\000\001\000\010\000\001\000\002\000\000\000'
    call $sub plan
    refused 4 'plan: byte 8: task 1, instruction 1, sync' $sub
done

finish
