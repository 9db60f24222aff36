#!/bin/sh
# Runs the tests of a crate, without proving it. Prints each failed test and a line of counts: try-tests.sh CRATE
set -u
cd "$(dirname "$0")/../crates/$1" || exit 1

folder=$(mktemp -d)
trap 'rm -rf "$folder"' EXIT
trap 'exit 1' HUP INT TERM

rt try --test --seconds 300 > "$folder/told" 2> "$folder/faults"

# FIELD: the count of that name in the line 'test result: ok. 10 passed; 0 failed; ..'
count() {
    sed -n "s/^test result: .* \([0-9]*\) $1;.*/\1/p" "$folder/told"
}

passed=$(count passed)
failed=$(count failed)
if [ -z "$passed" ]; then
    cat "$folder/told" "$folder/faults"
    echo "FAILED $1: the tests were not run to their end"
    passed=0
    failed=1
elif [ "$failed" -gt 0 ]; then
    sed "/^test .* ok$/d; s/^test \(.*\) \.\.\. FAILED$/FAILED $1: \1/" "$folder/told"
fi
echo "$1: $passed passed, $failed failed"
