#!/bin/sh
# What a journal in a file takes: orders in groups with one sync each, beside a program that writes and syncs the same bytes and
# beside SQLite; the same where each sync takes a millisecond more, and a fifth of one; how many instructions an order takes, where
# there is valgrind; and the start over 900,000 orders, beside handling them. The files are made under FOLDER, which has to be on the
# device that is measured; else in this folder.
set -eu
cd "$(dirname "$0")/.."

files=$(mktemp -d "$(realpath "${FOLDER:-bench}")/journal.XXXXXX")
trap 'rm -rf "$files"' EXIT
trap 'exit 1' HUP INT TERM
cc -O2 -o "$files/synced" bench/synced.c
cc -O2 -shared -fPIC -o "$files/slow.so" bench/slow.c

# COMMAND ..: the three for each size of a group, each run by that command
measure() {
    for measured in '1 400' '64 60' '512 40'; do
        # shellcheck disable=SC2086
        "$@" "$files/synced" "$files/plain" $measured
        # shellcheck disable=SC2086
        "$@" crates/iso_bench/out/iso_bench journal "$files/journal" $measured
        # shellcheck disable=SC2086
        "$@" python3 -B bench/sqlite.py "$files/sqlite" $measured
        rm -f "$files/plain" "$files"/journal* "$files"/sqlite*
    done
}

measure env
for micros in 1000 200; do
    measure env "LD_PRELOAD=$files/slow.so" "SYNC_MICROS=$micros" | sed "s/^/held $micros /"
done

# GROUPS: the instructions of a journal of so many groups of 512, without those of the system
instructions() {
    valgrind --tool=callgrind --callgrind-out-file="$files/counts" crates/iso_bench/out/iso_bench journal "$files/counted.$1" 512 "$1" \
        > /dev/null 2>&1
    awk '/^totals:/ { print $2 }' "$files/counts"
}

# what comes before the first order and behind the last one falls out of the difference of two runs
if command -v valgrind > /dev/null; then
    few=4 many=12
    echo "order group=512 instructions=$((($(instructions $many) - $(instructions $few)) / (512 * (many - few))))"
fi
crates/iso_bench/out/iso_bench journal "$files/long" 512 1758 > /dev/null
crates/iso_bench/out/iso_bench start "$files/long"
