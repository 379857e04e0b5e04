#!/usr/bin/env bash
# The gate. First docs/REVIEW.md is compared with the contracts and the wrong programs, and the pages with what they name, which
# takes a second (it needs python3, and says so where there is none). Then `rt ci` proves every crate, once for the same files on a machine, and
# tries the wrong programs of must-fail/, each of which has to be refused and none bad. The C side is then tested over the archive of that very
# proof. The last line is the last line of `rt ci`, 'N passed, 0 failed', if all of it passed. Otherwise it is another line, and the
# status is not 0.
set -u
cd "$(dirname "$0")/.." || exit 2
if ! command -v python3 > /dev/null; then
    echo "gate: there is no python3, so the pages are not compared with the sources"
elif ! python3 scripts/review.py --check; then
    echo "gate: docs/REVIEW.md, the contracts and the wrong programs do not agree"
    exit 1
elif ! python3 scripts/pages.py; then
    echo "gate: a page names what is not there"
    exit 1
fi
log=$(mktemp)
trap 'rm -f "$log"' EXIT

rt ci 2>&1 | tee "$log"
status=${PIPESTATUS[0]}
verdict=$(tail -n 1 "$log")
if [ "$status" -ne 0 ] || ! [[ $verdict =~ ^[0-9]+\ passed,\ 0\ failed$ ]]; then
    echo "gate: rt ci does not pass"
    exit 1
fi
if ! grep -q '^rt: ok' "$log" || grep -qE '^rt: ok.*, [0-9]+ bad' "$log"; then
    echo "gate: rt ci passes, but a wrong program of must-fail/ is bad"
    exit 1
fi
part='rt lib'
if command -v python3 > /dev/null; then part=../../scripts/over_ci.py; fi
if ! make -s ctest PART="$part"; then
    echo "gate: rt ci passes, the C tests do not"
    exit 1
fi
echo "$verdict"
