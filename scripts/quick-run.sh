#!/bin/sh
# Runs a program on an input by the quick run, which proves nothing: quick-run.sh CRATE INPUT
set -u
cd "$(dirname "$0")/.." || exit 1
input=$(realpath "$2") || exit 1
cd "crates/$1" || exit 1

echo "this is the quick run, without proofs" >&2
faults=$(mktemp)
trap 'rm -f "$faults"' EXIT
trap 'exit 1' HUP INT TERM
rt try < "$input" 2> "$faults" || {
    status=$?
    cat "$faults" >&2
    exit "$status"
}
