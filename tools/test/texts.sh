#!/bin/sh
# texts.sh COMMAND: texts that are none are told with file, line and column.
set -u
[ $# -eq 1 ] || { echo "usage: texts.sh COMMAND" >&2; exit 2; }
# shellcheck disable=SC2034
name=texts command=$(realpath "$1")
top=$(realpath "$(dirname "$0")/../..")
# shellcheck source=lib.sh disable=SC2154
. "$(dirname "$0")/lib.sh"

cp "$top/examples/worked/plan.txt" "$scratch"

# Plans.
text_fails() {
    put bad.txt
    call plan bad.txt
    status_is 2 "text: $1"
    says "bad.txt:$1" 'text'
}
printf '' | text_fails '1:1: the text has no task'
printf '# a comment\n\n' | text_fails '2:1: the text has no task'
printf 'finish\n' | text_fails '1:1: an instruction before the first task'
printf 'task a\n  fly\n' | text_fails "2:3: 'fly' is no instruction"
printf 'task\n' | text_fails "1:5: the task's name or number is missing"
printf 'task 2\n' | text_fails '1:6: this is task 1'
printf 'task a\n finish\ntask a\n' | text_fails "3:6: 'a' is task 1's name already"
printf 'task 1a\n' | text_fails "1:6: '1a' is no name"
printf 'task a-name-of-more-than-thirty-two-letters\n' | text_fails '1:6: a name has at most 32 letters'
printf 'task a b\n' | text_fails "1:8: 'b' is too many"
printf 'task a\n create b\n' | text_fails "2:9: there is no task 'b'"
printf 'task a\n set\n' | text_fails '2:5: the number is missing'
printf 'task a\n set x\n' | text_fails "2:6: 'x' is no number"
printf 'task a\n set 65536\n' | text_fails '2:6: 65536 does not fit'
printf 'task a\n set 7 level 256\n' | text_fails '2:14: 256 does not fit'
printf 'task a\n set 7 lvl 2\n' | text_fails "2:8: 'lvl' is too many"
printf 'task a\n sync now\n' | text_fails "2:7: 'now' is too many"
printf 'task a\n send\n' | text_fails '2:6: the channel is missing'
printf 'channel 129 x\n' | text_fails "1:9: a channel's number is 1 to 128"
printf 'channel 3 x\nchannel 3 y\n' | text_fails "2:9: channel 3 has the name 'x'"
printf 'channel 3 x\nchannel 4 x\n' | text_fails "2:11: 'x' is a channel's name already"
printf 'task a\n se\001nd 3\n' | text_fails '2:4: byte 1 is no part of a word'
printf 'task a\n send caf\303\251\n' | text_fails '2:10: byte 195 is no part of a word'
printf 'a b c d e f g h i\n' | text_fails "1:17: 'i' is too many"
printf 'task a\0\n' | put zero.txt
call plan zero.txt
status_is 2 'a zero byte'; says 'it has a zero byte, so that it is no text' 'a zero byte'

# Steps.
steps_fail() {
    put bad.txt
    call steps 2 plan.txt bad.txt
    status_is 2 "steps: $1"
    says "bad.txt:$1" 'steps'
}
printf 'jump\n' | steps_fail "1:1: 'jump' is no step"
printf 'run\n' | steps_fail '1:4: the task is missing'
printf 'run nobody\n' | steps_fail "1:5: there is no task 'nobody'"
printf 'run 256\n' | steps_fail '1:5: 256 does not fit'
printf 'move lamp 2\n' | steps_fail "1:11: '2' is no \`to\`"
printf 'move lamp to\n' | steps_fail '1:13: a desk is missing'
printf 'deliver dove 3\n' | steps_fail "1:9: 'dove' is no position, and no letter"
printf 'deliver offer nowhere\n' | steps_fail "1:15: there is no channel 'nowhere'"
printf 'run console\ndeliver offer cue\n' | steps_fail '2:9: no such letter is in the mail here: the mail is empty'
printf 'run console\nmove lamp to 2\ndeliver ended lamp\n' |
    steps_fail '3:9: no such letter is in the mail here: 1 mover of task 2 (lamp) to desk 2'

finish
