#!/usr/bin/env bash
# Tries the wrong programs of crates/*/wrong, which the gate leaves out for its time.
#
#   scripts/wrong_programs.sh [CRATE..]      all crates, or those that are named
#
# Each edit is made in a copy of the repository, and `rt check` has to refuse the crate. For each one a line says at which
# place it was refused, and why. An edit that is not refused, or whose text is not found just once, is a failure: the
# last line counts both, and the status is 1 if there is one.
set -u
top=$(cd "$(dirname "$0")/.." && pwd)
work=$(mktemp -d)
trap 'rm -rf "$work"' EXIT

# A check of one crate of the tree.
rt_check() {
    (cd "crates/$1" && rt check)
}

# The first place that the prover refuses, and its words there. What only follows from another refusal comes last.
refusal() {
    {
        grep -E '^[^ ]+: error|^note: [^ ]+:[0-9]+:[0-9]+:' "$1" | grep -v 'was not admitted'
        grep -E '^[^ ]+: error' "$1"
    } | head -n 1 | sed "s|$2/||; s/: error//; s/^note: //" | cut -c 1-200
}

# Replaces the text OLD by NEW in a file, where it stands just once.
replace() {
    OLD=$2 NEW=$3 awk '
        { text = text $0 "\n" }
        END {
            old = ENVIRON["OLD"]
            at = index(text, old)
            if (old == "" || !at) exit 3
            rest = substr(text, at + length(old))
            if (index(rest, old)) exit 4
            printf "%s%s%s", substr(text, 1, at - 1), ENVIRON["NEW"], rest
        }' "$1" > "$1.edited" && mv "$1.edited" "$1"
}

# Makes the replacements of an edit in a crate: a 'file:' line holds for the 'old:' and 'new:' pairs after it.
apply() {
    local file='' old='' pairs=0 line
    while IFS= read -r line || [ -n "$line" ]; do
        case $line in
        'file: '*) file=${line#file: } ;;
        'old: '*) old=${line#old: } ;;
        'new:'*)
            line=${line#new:}
            [ -f "$2/$file" ] && replace "$2/$file" "$old" "${line# }" || return 1
            pairs=$((pairs + 1))
            ;;
        esac
    done < "$1"
    [ "$pairs" -gt 0 ]
}

# All edits of one crate, in a tree of its own. A line each; those of failures begin with 'FAILED'.
try_crate() {
    local tree=$1 name=$2 crate=$1/crates/$2 log=$1/$2.log edit label part
    cd "$tree" || return
    if ! rt_check "$name" > "$log" 2>&1; then
        echo "FAILED $name: it is not proved as it stands"
        return
    fi
    for edit in "$top/crates/$name/wrong"/*.edit; do
        label=$name/$(basename "$edit" .edit)
        if ! apply "$edit" "$crate"; then
            echo "FAILED $label: its text is not found just once"
        elif rt_check "$name" > "$log" 2>&1; then
            echo "FAILED $label: NOT REFUSED"
        elif grep -q '^logic=not-proved' "$log"; then
            echo "refused $label: $(refusal "$log" "$crate")"
        else
            echo "FAILED $label: it does not reach the prover: $(refusal "$log" "$crate")"
        fi
        for part in src specs proofs; do
            rm -rf "${crate:?}/$part"
            [ ! -d "$top/crates/$name/$part" ] || cp -R "$top/crates/$name/$part" "$crate/$part"
        done
    done
}

crates=()
for name in "${@:-}"; do
    [ -z "$name" ] || [ -d "$top/crates/$name/wrong" ] || { echo "wrong_programs: the crate $name has no wrong/" >&2; exit 2; }
done
for folder in "$top"/crates/*/wrong; do
    name=$(basename "$(dirname "$folder")")
    if [ $# -eq 0 ] || [[ " $* " == *" $name "* ]]; then crates+=("$name"); fi
done

# Two trees, each with every other crate.
jobs=2
for ((j = 0; j < jobs && j < ${#crates[@]}; j++)); do
    tree=$work/$j
    mkdir "$tree"
    cp -R "$top/crates" "$top/crates.txt" "$tree"
    (
        for ((k = j; k < ${#crates[@]}; k += jobs)); do
            RT_JOBS=1 try_crate "$tree" "${crates[k]}" | tee -a "$tree/results"
        done
    ) &
done
wait
refused=$(cat "$work"/*/results | grep -c '^refused')
failed=$(cat "$work"/*/results | grep -c '^FAILED')
echo "$refused wrong programs refused, $failed failures"
[ "$failed" -eq 0 ] && [ "$refused" -gt 0 ]
