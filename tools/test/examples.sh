#!/bin/sh
# examples.sh COMMAND FOLDER..: traces and charts of the shows in each FOLDER are what they were, and each chart is
# well-formed XML.
set -u
[ $# -ge 2 ] || { echo "usage: examples.sh COMMAND FOLDER.." >&2; exit 2; }
command=$(realpath "$1")
make=$(realpath "$(dirname "$0")/../../examples/make.sh")
shift
made=$(mktemp -d) || exit 2
trap 'rm -rf "$made"' EXIT
files=0
for folder in "$@"; do
    "$make" "$command" "$folder" "$made" || exit 1
    while read -r show _; do
        for file in "$made/$show"/*; do
            cmp "$file" "$folder/$show/$(basename "$file")" ||
                { echo "examples: make examples, and look at what has changed" >&2; exit 1; }
            files=$((files + 1))
        done
    done < "$folder/shows.txt"
done
if command -v python3 > /dev/null; then
    python3 -c 'import sys, xml.dom.minidom; [xml.dom.minidom.parse(f) for f in sys.argv[1:]]' "$made"/*/chart.svg || exit 1
else
    echo "examples: there is no python3, so the charts are not parsed"
fi
echo "examples: $files files as they were, charts well-formed"
