#!/bin/sh
# Runs a program on its stored input, and on those of the examples that are its own, without proving it. Prints each run that
# failed, and a line of counts: try-runs.sh CRATE
set -u
cd "$(dirname "$0")/../crates/$1" || exit 1

examples=../../examples
clients=
followers=
folder=$(mktemp -d)
trap 'kill $followers 2> /dev/null; rm -rf "$folder"' EXIT
trap 'exit 1' HUP INT TERM
cases=$folder/cases
mkdir "$cases"

# INPUT OUTPUT NAME WORD ..: a run on the words, and what it must write
run() {
    cp "$1" "$cases/$3"
    cp "$2" "$cases/$3.stdout"
    [ $# -eq 3 ] || (
        name=$3
        shift 3
        printf '%s\n' "$@" > "$cases/$name.args"
    )
}

# HEADER: a host on a port that is free, and the client that holds the port, writes the case of the host and connects to it
serve() {
    python3 "$examples/client.py" --follow-case "$cases/serve-$1" "$1" > "$folder/client-$1" 2>&1 &
    followers="$followers $!"
    clients="$clients $1:$!"
    while [ ! -f "$cases/serve-$1.args" ] && kill -0 $! 2> /dev/null; do
        sleep 0.1
    done
}

if [ -f args ]; then
    run stdin stdout stored $(cat args)
else
    run stdin stdout stored
fi
if [ "$1" = iso_cli ]; then
    run "$examples/echo.txt" "$examples/expected/echo" echo
    run "$examples/payment.txt" "$examples/expected/show" show show ascii87
    run "$examples/echo.txt" "$examples/expected/convert" convert convert ascii87 bcd87
    run /dev/null "$examples/expected/check" check check terminals.json
    run "$examples/day.txt" "$examples/expected/day" day run ascii87 accounts.json ascii4
    run "$examples/hotel.txt" "$examples/expected/hotel" hotel run ascii87 accounts.json ascii4
    if command -v python3 > /dev/null; then
        serve ascii4
        serve binary2
    else
        echo "LEFT OUT the clients of $1: there is no program python3"
    fi
fi
if [ "$1" = iso_schedule ]; then
    run "$examples/lost-answers.txt" "$examples/expected/lost-answers" lost-answers
fi

rt try --seconds 60 --cases "$cases" --data "accounts.json=$examples/accounts.json" --data terminals.json=../../tables/terminals.json \
    > "$folder/told" 2> "$folder/faults"

wanted=$(find "$cases" -name '*.stdout' | wc -l)
passed=$(cat "$folder/told" "$folder/faults" | grep -c '^case=.* run=ended status=0 .* output=expected')
failed=$((wanted - passed))

# the hosts have ended, so a client that still waits for one waits in vain
[ -z "$clients" ] || sleep 1
kill $followers 2> /dev/null
for client in $clients; do
    if wait "${client#*:}"; then
        passed=$((passed + 1))
    else
        failed=$((failed + 1))
        echo "FAILED $1: the client of the host behind ${client%:*}:"
        cat "$folder/client-${client%:*}"
    fi
done
followers=
if [ "$failed" -gt 0 ]; then
    cat "$folder/told" "$folder/faults" | grep -v '^case=.* run=ended status=0 .* output=expected' \
        | sed "s/^case=/FAILED $1: the run /"
fi
echo "$1: $passed runs passed, $failed failed"
