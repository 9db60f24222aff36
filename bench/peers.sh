#!/bin/sh
# How many answers a host with many peers gives a second, and how long one takes: beside a loop that only sends back what it reads and
# syncs as many bytes as often (bench/peers.c), and with peers beside that only stay connected, and what memory these take. The files are
# made in memory, where a sync costs nothing, or else under FOLDER; the first loads hold each sync up for a millisecond (bench/slow.c). All
# three times. Needs rumpadol to be built, and a C compiler. LOAD is how many seconds each load lasts: 5 where it isn't set.
set -eu
cd "$(dirname "$0")/.."

host=crates/rumpadol/out/rumpadol
seconds=${LOAD:-5}
files=$(mktemp -d "$(realpath "${FOLDER:-/dev/shm}")/peers.XXXXXX")
micros=0
served=
stop() {
    [ -z "$served" ] || kill "$served" 2> /dev/null || true
    rm -rf "$files"
}
trap stop EXIT
trap 'exit 1' HUP INT TERM
ulimit -n "$(ulimit -H -n)"

for program in loopback peers load; do
    cc -O2 -o "$files/$program" "bench/$program.c"
done
cc -O2 -shared -fPIC -o "$files/slow.so" bench/slow.c
echo '{"accounts":[{"currency":"840","opening":9000000000000,"pan":"4111111111111111"}]}' > "$files/accounts.json"

# a host with an empty journal on a port that is free
start_host() {
    rm -f "$files"/journal* "$files/stop" "$files/log"
    port=$("$files/loopback" port)
    env "LD_PRELOAD=$files/slow.so" "SYNC_MICROS=$micros" "$host" host --listen "127.0.0.1:$port" --table ascii87 --header ascii4 --accounts "$files/accounts.json" \
        --journal "$files/journal" --new --log "$files/log" --stop-file "$files/stop" --peers 2000 2> "$files/faults" &
    served=$!
}

end_host() {
    touch "$files/stop"
    wait "$served" || { cat "$files/faults" >&2 && exit 1; }
    served=
}

start_echo() {
    port=$("$files/loopback" port)
    env "LD_PRELOAD=$files/slow.so" "SYNC_MICROS=$micros" "$files/peers" "$port" "$files/kept" &
    served=$!
}

end_echo() {
    kill "$served"
    wait "$served" 2> /dev/null || true
    served=
}

# NAME PEERS IDLE: a load of so many peers, beside so many that are idle
load() {
    echo "$1 $("$files/load" "$port" "$2" "$3" "$seconds" 0)"
}

# the memory that the host has, in kilobytes
memory() {
    awk '/^VmRSS/ { print $2 }' "/proc/$served/status"
}

# what 990 peers take that only stay connected
measure_idle() {
    mkfifo "$files/end"
    before=$(memory)
    "$files/load" "$port" hold 990 < "$files/end" > "$files/held" &
    holder=$!
    exec 3> "$files/end"
    while ! grep -q connected "$files/held"; do sleep 0.1; done
    sleep 1
    after=$(memory)
    exec 3>&-
    wait "$holder"
    rm "$files/end"
    echo "memory idle=990 before_kilobytes=$before after_kilobytes=$after bytes_a_peer=$(((after - before) * 1024 / 990))"
}

# NAME: each end under a load of one peer, and of many
compare() {
    for peers in 1 64; do
        start_echo
        load "${1}echo" "$peers" 0
        end_echo
        start_host
        load "${1}host" "$peers" 0
        end_host
    done
}

for turn in 1 2 3; do
    micros=1000
    compare 'slow '
    micros=0
    compare ''
    for idle in 0 990; do
        start_host
        load host 10 "$idle"
        end_host
    done
    start_host
    load warm 10 0 > /dev/null
    measure_idle
    end_host
done
