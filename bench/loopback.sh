#!/bin/sh
# How long a round trip over loopback takes, beside that of a program that only sends back what it reads, and how much
# memory a host takes over many connections. Needs the command to be built, and a C compiler.
# ROUNDS is how many round trips each kind has: 100,000 where it isn't set. CONNECTIONS and FRAMES are how many
# connections there are, 999 at most, and how many frames each of them has: 999 and 1,100.
set -eu
cd "$(dirname "$0")/.."

host=crates/iso_cli/out/iso_cli
rounds=${ROUNDS:-100000}
connections=${CONNECTIONS:-999}
frames=${FRAMES:-1100}
folder=$(mktemp -d)
served=
stop() {
    [ -z "$served" ] || kill "$served" 2> /dev/null || true
    rm -rf "$folder"
}
trap stop EXIT
trap 'exit 1' HUP INT TERM

cc -O2 -o "$folder/loopback" bench/loopback.c
echo '{"accounts":[{"currency":"840","opening":9000000000000,"pan":"4111111111111111"}]}' > "$folder/accounts.json"

# the most memory that the host has had, in kilobytes
peak() {
    awk '/^VmHWM/ { print $2 }' "/proc/$served/status"
}

# COUNT: a host for so many connections, on a port that is free
start() {
    port=$("$folder/loopback" port)
    "$host" serve ascii87 "$folder/accounts.json" ascii4 "$port" "$1" > "$folder/told" &
    served=$!
}

# the host has ended well, or the script ends
ended() {
    wait "$served"
    served=
}

# round trips: the bare program, then each kind of frame, and all of it twice again
for turn in 1 2 3; do
    port=$("$folder/loopback" port)
    "$folder/loopback" echo "$port" 1 &
    served=$!
    "$folder/loopback" ask "$port" bytes "$rounds"
    ended
    start 3
    for kind in test repeat new; do
        "$folder/loopback" ask "$port" "$kind" "$rounds"
    done
    ended
done

# memory: the last connection is the one that ends the host
start $((connections + 1))
"$folder/loopback" load "$port" 1 "$frames"
first=$(peak)
"$folder/loopback" load "$port" $((connections - 1)) "$frames"
last=$(peak)
"$folder/loopback" load "$port" 1 0
ended
told=$(awk -F '[= ]' '{ frames += $2; answered += $4 } END { print "connections=" NR " frames=" frames " answered=" answered }' "$folder/told")
echo "memory after the first connection: frames=$frames peak_kilobytes=$first"
echo "memory after the last connection: $told peak_kilobytes=$last"
