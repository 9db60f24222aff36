#!/bin/sh
# How fast the command serves streams of frames, beside cat on the same bytes and a program that does nothing but one write for
# each answer. Needs the command to be built, python3 and a C compiler.
# ORDERS is how many frames each stream of orders has: 900,000 where it isn't set, 999,999 at most.
set -eu
cd "$(dirname "$0")/.."

host=crates/iso_cli/out/iso_cli
orders=${ORDERS:-900000}
folder=$(mktemp -d)
trap 'rm -rf "$folder"' EXIT
trap 'exit 1' HUP INT TERM

cc -std=c11 -O2 -Wall -Wextra -Werror -o "$folder/write" bench/write.c

# SECONDS_AND_FRACTION, of the clock
now() {
    date +%s.%N
}

# FROM TO: the seconds between them
between() {
    awk -v from="$1" -v to="$2" 'BEGIN { printf "%.3f", to - from }'
}

# PID: writes the most memory that the process has had, in kilobytes, to a file, until it ends
watch() {
    while peak=$(awk '/^VmHWM/ { print $2 }' "/proc/$1/status" 2> /dev/null) && [ -n "$peak" ]; do
        echo "$peak" > "$folder/peak"
        sleep 0.1
    done
}

# HEADER OUTPUT: serves the stream, and keeps what it tells and the most memory that it had
serve() {
    if [ -x /usr/bin/time ]; then
        /usr/bin/time -f %M -o "$folder/peak" "$host" run ascii87 "$folder/accounts.json" "$1" \
            < "$folder/stream" > "$2" 2> "$folder/told"
    else
        "$host" run ascii87 "$folder/accounts.json" "$1" < "$folder/stream" > "$2" 2> "$folder/told" &
        served=$!
        watch "$served" &
        wait "$served"
    fi
}

# NAME: how many the host told of
told() {
    sed "s/.*$1=\([0-9]*\).*/\1/" "$folder/told"
}

# KIND HEADER WHERE OUTPUT: serves the stream once, and prints a line
time_serve() {
    echo unknown > "$folder/peak"
    from=$(now)
    serve "$2" "$4" || {
        cat "$folder/told" >&2
        exit 1
    }
    seconds=$(between "$from" "$(now)")
    wait
    frames=$(told frames)
    rate=$(awk -v n="$frames" -v s="$seconds" 'BEGIN { printf "%.0f", (s > 0) ? n / s : n }')
    echo "$1 to $3: frames=$frames seconds=$seconds frames_per_second=$rate peak_kilobytes=$(cat "$folder/peak")"
}

# KIND NAME WORD ..: runs a program whose output goes to a file, and prints a line
time_limit() {
    kind=$1 name=$2
    shift 2
    from=$(now)
    "$@" > "$folder/copied"
    echo "$kind by $name: seconds=$(between "$from" "$(now)")"
    rm -f "$folder/copied"
}

# KIND COUNT: a stream of so many frames, to /dev/null and to a file, and the limits
measure() {
    header=$(bench/frames.py "$1" "$2" "$folder")
    time_serve "$1" "$header" /dev/null /dev/null
    time_serve "$1" "$header" "a file" "$folder/served"
    answered=$(told answered)
    bytes=$(wc -c < "$folder/served")
    rm -f "$folder/served"
    time_limit "$1" cat cat "$folder/stream"
    [ "$answered" -eq 0 ] || time_limit "$1" "one write for each answer" "$folder/write" "$answered" $((bytes / answered))
    echo "$1 told: $(cat "$folder/told")"
    rm -f "$folder/stream"
}

measure echo 1000000
measure silent 2000000
measure one-account "$orders"
measure many-accounts "$orders"
measure mix "$orders"
measure garbage 1000000
measure full 2000
