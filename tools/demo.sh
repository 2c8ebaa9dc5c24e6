#!/usr/bin/env bash
# Runs the walkthrough from its sources, with nothing proved: on its own task, or on the order file
# that is named.
set -eu
echo 'demo: compiling the walkthrough, which takes some 20 to 60 seconds.' >&2
echo 'demo: this run is not the proof; make build proves what it builds,' \
    'and make test proves everything.' >&2

if [ $# -gt 0 ]; then
    exec <"$1"
    set --
else
    exec </dev/null
    set -- -- --demo
fi
cd "$(dirname "$0")/../crates/walkthrough"

# `rt try` runs a program with no proof, and adds lines about the run to standard error.
log=$(mktemp)
trap 'rm -f "$log"' EXIT
status=0
rt try "$@" 2>"$log" || status=$?
if grep -q '^run=ended ' "$log"; then
    grep -vE '^((checked|interpreter): |run=)' "$log" >&2 || true
else
    cat "$log" >&2
fi
exit "$status"
