# shellcheck shell=sh
# What the command's tests share. The test sets `name` and `command`; its files are in $scratch.
scratch=$(mktemp -d) || exit 2
trap 'rm -rf "$scratch"' EXIT
: > "$scratch/.calls" # a letter for each call, for some are made in subshells
: > "$scratch/.failures"
: "${name:=test}" "${command:=false}"
export ASAN_OPTIONS="exitcode=99" UBSAN_OPTIONS="halt_on_error=1"

fail() {
    echo "$name: $1" >&2
    printf . >> "$scratch/.failures"
}

# call WORD..: the command in the scratch folder, its outputs kept there.
call() {
    (cd "$scratch" && "$command" "$@") > "$scratch/stdout" 2> "$scratch/stderr"
    status=$?
    printf . >> "$scratch/.calls"
}

# status_is NUMBER WHAT: of the last call.
status_is() {
    [ "$status" -eq "$1" ] || fail "$2: status $status, not $1: $(head -n 3 "$scratch/stderr")"
}

# says TEXT WHAT: a line of standard error has this text.
says() {
    grep -qF -e "$1" "$scratch/stderr" || fail "$2: not said: $1; but: $(cat "$scratch/stderr")"
}

# writes TEXT WHAT: standard output is this text and a line feed.
writes() {
    [ "$(cat "$scratch/stdout")" = "$1" ] || fail "$2: written: $(cat "$scratch/stdout")"
}

# refused NUMBER PLACE WHAT: of the last call.
refused() {
    status_is 1 "$3"
    says "refused, $1: " "$3"
    says "$2" "$3"
    [ -s "$scratch/stdout" ] && fail "$3: something is written"
}

# put NAME: a file in the scratch folder, from standard input.
put() {
    cat > "$scratch/$1"
}

# bytes NAME OCTAL: a file of bytes, from printf's octal escapes.
bytes() {
    # shellcheck disable=SC2059
    printf "$2" > "$scratch/$1"
}

finish() {
    if [ -s "$scratch/.failures" ]; then
        echo "$name: $(wc -c < "$scratch/.failures") failures" >&2
        exit 1
    fi
    echo "$name: $(wc -c < "$scratch/.calls") calls, as expected"
}
