#!/bin/sh
# instructions.sh BENCHMARK: instructions a call, counted by callgrind. Each case
# is run with two numbers of calls and the counts are subtracted, so that
# everything but the calls cancels. These figures do not depend on the machine's
# load.
set -u

[ $# -eq 1 ] || { echo "usage: instructions.sh BENCHMARK" >&2; exit 2; }
benchmark=$1
few=2
many=6

# The C library is to copy in loops: of a repeated instruction callgrind would
# count each byte.
GLIBC_TUNABLES=glibc.cpu.x86_rep_stosb_threshold=100000000:glibc.cpu.x86_rep_movsb_threshold=100000000
export GLIBC_TUNABLES

# collected CASE WHO COUNT: instructions of the whole program.
collected() {
    valgrind --tool=callgrind --callgrind-out-file=/dev/null "$benchmark" --one "$1" "$2" "$3" 2>&1 |
        sed -n 's/^.*Collected *: *\([0-9]*\).*/\1/p'
}

# a_call CASE WHO: instructions of one call.
a_call() {
    low=$(collected "$1" "$2" "$few")
    high=$(collected "$1" "$2" "$many")
    if [ -z "$low" ] || [ -z "$high" ]; then
        echo "instructions: callgrind counted nothing" >&2
        exit 1
    fi
    echo $(((high - low) / (many - few)))
}

printf '%-15s %12s %12s %7s\n' "case" "library" "simulator" "ratio"
for name in $("$benchmark" --names); do
    library=$(a_call "$name" library) || exit 1
    simulator=$(a_call "$name" simulator) || exit 1
    printf '%-15s %12d %12d %7s\n' "$name" "$library" "$simulator" \
        "$(awk "BEGIN { printf \"%.2f\", $library / $simulator }")"
done
