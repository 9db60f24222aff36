#!/bin/sh
# What a journal on etcd takes: a host that answers groups of 64 and of 512 orders, one batch each, beside a program that only appends as
# many bytes by the same transaction (bench/etcd.c); and a start over ORDERS orders, 900,000 where it isn't set, beside one over the same
# journal in a file. Three members run on this machine, under FOLDER, which has to be on the device that is measured; else in this folder.
# PORT is the first of their ports. All three times. Needs rumpadol to be built, etcd, curl, python3 and a C compiler.
set -eu
cd "$(dirname "$0")/.."

program=${PROGRAM:-crates/rumpadol/out/rumpadol}
orders=${ORDERS:-900000}
port=${PORT:-24791}
files=$(mktemp -d "$(realpath "${FOLDER:-bench}")/etcd.XXXXXX")
stop() {
    scripts/etcd-members.sh stop "$files/members"
    sleep 1
    rm -rf "$files"
}
trap stop EXIT
trap 'exit 1' HUP INT TERM

place=etcd://127.0.0.1:$port,127.0.0.1:$((port + 1)),127.0.0.1:$((port + 2))
cc -O2 -o "$files/plain" bench/etcd.c
python3 -B bench/frames.py many-accounts "$orders" "$files" > /dev/null
scripts/etcd-members.sh start "$files/members" "$port"

# ORDERS GROUPS: both, over journals of their own
measure() {
    "$files/plain" "$port" "plain-$turn-$1" "$1" "$2"
    python3 -B bench/groups.py "$program" "$place/host-$turn-$1" "$files" "$1" "$2"
    batches=$("$files/plain" "$port" keys "host-$turn-$1")
    [ "$batches" -eq $(($2 + 3)) ] || echo "etcd.sh: $2 groups of $1 orders and 3 before them made $batches batches" >&2
}

# JOURNAL: how long a host takes that gets nothing to answer, in seconds
start() {
    from=$(date +%s.%N)
    "$program" host --table ascii87 --header ascii4 --accounts "$files/accounts.json" --journal "$1" < /dev/null 2> "$files/told" || {
        cat "$files/told" >&2
        exit 1
    }
    awk -v from="$from" -v to="$(date +%s.%N)" 'BEGIN { printf "%.3f", to - from }'
}

"$program" host --table ascii87 --header ascii4 --accounts "$files/accounts.json" --journal "$files/long" --new < "$files/stream" > /dev/null 2> "$files/told"
"$program" journal copy "$files/long" "$place/long" > /dev/null
for turn in 1 2 3; do
    measure 64 200
    measure 512 60
    echo "etcd start entries=$orders file_seconds=$(start "$files/long") etcd_seconds=$(start "$place/long")"
done
