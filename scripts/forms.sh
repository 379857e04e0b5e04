#!/bin/bash
# Counts places in crates/*/src by the points of docs/DESIGN-PASS.md: scripts/forms.sh
cd "$(dirname "$0")/.." || exit 1

# lines of code that match, comments aside
lines() { grep -rnE --include='*.rt' "$1" crates/*/src | grep -cv ':[0-9]*: *//'; }
say() { printf '%-74s %6s\n' "$1" "$2"; }

say '1  enums of our own' "$(lines '^(pub )?enum ')"
say '1  uses of enums shaped like Option or Result' "$(grep -rnwE --include='*.rt' \
    'PlanAnswer|WriteAnswer|StepAnswer|RunAnswer|Received|TabletAnswer|DriverAnswer|LogsAnswer|ChaseAnswer|Verdict|Next|Turn' \
    crates/*/src | grep -v 'ghost use' | grep -cv ':[0-9]*: *//')"
say '1  fields that are flags' "$(lines '^    (pub )?[a-z_]+: bool,$')"
say '1  numbers of kinds compared' "$(lines '(kind|opcode|head|level) (==|!=|>=|<=|<|>) ')"
say '2  files of src/ with a shape that another has' "${SHAPES:--}"
say '3  loops by while' "$(lines '^ *while ')"
say '3  steps of an index by hand' "$(lines '^ *[a-z_]+ (\+= 1|= [a-z_]+ \+ 1);')"
say '4  conversions and tests by functions of our own' "$(lines '(base::|[^a-z_])(both|wide8|wide16|is_within)\(')"
say '4  equality by fields' "$(lines '\.0 == [a-z_.]+\.0|state_number|same_[a-z]+\(')"
say '4  a field copied into a local' "$(lines '^ *let [a-z_]+ = [a-z_]+\.[a-z_.0-9]+;')"
say '4  return true or false' "$(lines '^ *return (true|false);')"
say '4  a field written as name: name' "$(lines '^ *([a-z_]+): \1,$')"
say '5  clauses of requires that stand in three or more functions' "$(grep -rhoE --include='*.rt' 'requires \{.*' crates/*/src | sort | uniq -c | awk '$1>=3' | wc -l)"
say '5  functions with more than 8 parameters' "${WIDE:--}"
say '6  arrays of fixed size in signatures' "$(lines '&.?.?.?(mut )?\[[a-zA-Z0-9]+; ?[0-9]+\]')"
say '7  choices by a kind' "$(lines '(match|if) .*(opcode|kind|sweep|rule)\b')"
say '8  files of answers' "$(find crates/*/proofs -name Answers.antt | wc -l)"
say '8  lines of answers' "$(find crates/*/proofs -name Answers.antt -exec cat {} + | wc -l)"
say '8  lines of proofs' "$(find crates/*/proofs -name '*.antt' -exec cat {} + | wc -l)"
say '   lines of src' "$(find crates/*/src -name '*.rt' -exec cat {} + | wc -l)"
