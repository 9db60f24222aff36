#!/bin/sh
# A host that is killed in the middle of the day, and started again on the frames that were kept: it gives the same answers
# again, and goes on. The frames are in a log, to which they are added before the host reads them: replay.sh COMMAND
set -eu
command=$(realpath "$1")
cd "$(dirname "$0")"
folder=$(mktemp -d)
reader=
host=
trap 'kill -9 $reader $host 2> /dev/null || true; rm -rf "$folder"' EXIT
trap 'exit 1' HUP INT TERM
log=$folder/log

# ANSWERS: a host that reads the log from its beginning, and follows it
start() {
    : > "$1"
    mkfifo "$1.frames"
    tail -c +1 -f "$log" > "$1.frames" &
    reader=$!
    "$command" run ascii87 accounts.json ascii4 < "$1.frames" > "$1" 2> "$1.told" &
    host=$!
}

# ANSWERS COUNT: waits, ten seconds at most, until so many bytes are answered
await() {
    turns=0
    while [ "$(wc -c < "$1")" -lt "$2" ]; do
        turns=$((turns + 1))
        [ "$turns" -lt 100 ] || { echo "replay.sh: no answer came" >&2; exit 1; }
        sleep 0.1
    done
}

# the whole day without an accident
"$command" run ascii87 accounts.json ascii4 < day.txt > "$folder/whole" 2> /dev/null
size=$(wc -c < "$folder/whole")

# three frames and a part of the fourth are in the log when the host is killed: three answers are out
head -c 300 day.txt > "$log"
start "$folder/first"
await "$folder/first" 282
kill -9 "$host" "$reader"
wait "$host" 2> /dev/null || true
answered=$(wc -c < "$folder/first")
echo "killed, after $answered bytes of answers"

# another host reads the log from its beginning, while the rest of the day comes
start "$folder/second"
await "$folder/second" "$answered"
cmp -n "$answered" "$folder/first" "$folder/second"
echo "started again: the same $answered bytes of answers"
tail -c +301 day.txt >> "$log"
await "$folder/second" "$size"
kill "$reader"
wait "$host" || exit 1
cmp "$folder/whole" "$folder/second"
echo "the day's $size bytes of answers are those of a host that wasn't killed"
cat "$folder/second.told"
