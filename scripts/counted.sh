#!/bin/sh
# Runs a job of the tests, and prints what it tells. Its last line has to be a line of counts, 'NAME: N .. passed, M failed', and it
# has to end well unless it told a failure. A job that tells no counts, or counts nothing and left nothing out, has failed. Notes in
# ENDED that the job came to its end: counted.sh JOB ENDED
set -u
told=$(mktemp) || exit 1
trap 'rm -f "$told"' EXIT
trap 'exit 1' HUP INT TERM

sh -c "$1" > "$told"
status=$?
fault=
if ! tail -n 1 "$told" | grep -q '^[^ ]*: [0-9]* .*passed, [0-9]* failed$'; then
    fault='it told no counts'
elif [ "$status" -ne 0 ] && ! grep -q '^[^ ]*: [0-9]* .*passed, [1-9][0-9]* failed$' "$told"; then
    fault='it told no failure'
elif ! grep -q '^LEFT OUT \|^[^ ]*: .*[1-9].* failed$' "$told"; then
    fault='it counted nothing'
fi
cat "$told"
if [ -n "$fault" ]; then
    echo "FAILED $1: $fault, and ended with status $status"
    echo "$(echo "$1" | tr ' ' '-'): 0 passed, 1 failed"
fi
echo "$1" >> "$2"
