#!/bin/sh
# Starts three members of etcd on this machine, or stops them.
#
#   etcd-members.sh start FOLDER [PORT [OPTION..]]   members a, b, c on the ports PORT, PORT + 1, PORT + 2 (23791 if none is given)
#   etcd-members.sh stop FOLDER
#
# The members talk to one another on PORT + 10, PORT + 11, PORT + 12. FOLDER holds what each of them keeps, its log NAME.log, and the
# number of its process NAME.pid. Options go to each member as they are, as --quota-backend-bytes=16777216. Needs Debian's
# etcd-server and curl.
set -eu

usage() {
    sed -n '2,10s/^# \{0,1\}//p' "$0" >&2
    exit 2
}

# whether the process of a member runs
runs() {
    [ -s "$folder/$1.pid" ] && kill -0 "$(cat "$folder/$1.pid")" 2>/dev/null
}

start() {
    mkdir -p "$folder"
    cluster=
    at=0
    for name in a b c; do
        cluster="$cluster${cluster:+,}$name=http://127.0.0.1:$((port + 10 + at))"
        at=$((at + 1))
    done
    at=0
    for name in a b c; do
        client=http://127.0.0.1:$((port + at))
        peer=http://127.0.0.1:$((port + 10 + at))
        at=$((at + 1))
        runs "$name" && continue
        etcd --name "$name" --data-dir "$folder/$name" \
            --listen-client-urls "$client" --advertise-client-urls "$client" \
            --listen-peer-urls "$peer" --initial-advertise-peer-urls "$peer" \
            --initial-cluster "$cluster" --initial-cluster-state new \
            --log-level error "$@" >"$folder/$name.log" 2>&1 &
        echo $! >"$folder/$name.pid"
    done
    wait_until_healthy
}

# a member answers once there is a leader
wait_until_healthy() {
    tries=0
    until curl -sf -m 1 "http://127.0.0.1:$port/health" 2>/dev/null | grep -q '"health":"true"'; do
        tries=$((tries + 1))
        if [ "$tries" -gt 100 ]; then
            echo "no leader after 20 seconds; see $folder/*.log" >&2
            exit 1
        fi
        sleep 0.2
    done
}

stop() {
    for name in a b c; do
        if runs "$name"; then
            kill -CONT "$(cat "$folder/$name.pid")"
            kill "$(cat "$folder/$name.pid")"
        fi
        rm -f "$folder/$name.pid"
    done
}

[ $# -ge 2 ] || usage
verb=$1
folder=$2
shift 2
case $verb in
start)
    port=${1:-23791}
    [ $# -eq 0 ] || shift
    start "$@"
    ;;
stop) stop ;;
*) usage ;;
esac
