#!/bin/sh
# Refuses to each call that can want memory one of its growths after the other, by the quick run, without proving anything.
# A program is run many times. In each run the allocation at one fixed count is refused, and the run makes and drops some
# allocations first: one fewer each time, so that the refusal goes through the whole program, growth by growth. The runs are
# dealt to some parts, which are made side by side; each part builds the program once. The last line is the judgement.
# memory.sh calls [PARTS]: the calls of the libraries, by the program iso_memory
# memory.sh command [PARTS]: the commands of iso_cli
# memory.sh journal [PARTS]: a host of rumpadol over its journal, and the host that is started after it
# memory.sh: all of them side by side, each in one part, since building a program takes longer than its runs
set -u
cd "$(dirname "$0")/.." || exit 1
top=$PWD

folder=$(mktemp -d)
started=
trap 'kill $started 2> /dev/null; rm -rf "$folder"' EXIT
trap 'exit 1' HUP INT TERM

if [ $# -eq 0 ]; then
    for what in calls command journal; do
        sh "$top/scripts/memory.sh" "$what" 1 > "$folder/$what" 2>&1 &
        started="$started $!"
    done
    failed=0
    for one in $started; do
        wait "$one" || failed=1
    done
    started=
    cat "$folder/calls" "$folder/journal" "$folder/command"
    exit "$failed"
fi

# the count of the allocation that is refused: each program makes fewer
count=700

parts=${2:-$(nproc)}
cases=$folder/cases
mkdir "$cases"

# the words that a program is given take fewer allocations than these
words=20

# how each run ended, and then one row a call and run: each call is answered in all runs but those in which a growth of it, or
# of what it is lent, was refused
judge_calls='
    function judge() {
        if (run == "" || rows == 0 && run > count - words) return
        if (runs == 0) whole = rows
        if (refusals > 1 || wrongs > 0 || rows != whole || !(run in done)) { bad++; print "BAD run " run ": " rows " rows, " refusals " refusals, " wrongs " wrong" }
        if (refusals == 0) silent[run] = 1
        if (refusals > 0 && (seen == 0 || run < lowest)) { lowest = run; seen = 1 }
        runs++
    }
    /^case=b/ { made++; if (/ run=ended status=0 /) done[substr($1, 7) + 0] = 1 }
    FILENAME ~ /\.faults$/ { next }
    /^== b/ { judge(); run = substr($2, 2) + 0; refusals = 0; wrongs = 0; rows = 0; next }
    {
        rows++
        name = rows " " substr($0, index($0, " ") + 1)
        if (!(name in calls)) { calls[name] = 0; order[rows] = name }
        if ($1 == "Wrong") wrongs++
        if ($1 == "Refused" || $1 == "Unready") refusals++
        if ($1 == "Refused") calls[name]++
    }
    END {
        judge()
        for (run in silent) if (run + 0 > lowest) { bad++; print "BAD run " run ": a refusal was not told" }
        if (seen == 0 || lowest == 0) { bad++; print "BAD: the program makes more allocations than that" }
        if (made != count) { bad++; print "BAD: " made + 0 " runs were made, not " count }
        for (at = 2; at in order; at++) {
            name = order[at]
            short = substr(name, index(name, " ") + 1)
            print short ": " calls[name] " growths refused"
            growths += calls[name]
            takes_none = short ~ /^without memory/
            if (takes_none != (calls[name] == 0)) { bad++; print "BAD " short }
        }
        print "the calls: " runs + 0 " runs, " growths + 0 " growths refused, " bad + 0 " bad"
    }'

# each run is done, with the output of a run that finds memory, or tells its want of memory behind a front of that output. The
# quick run shows no fault stream where the output is whole
judge_command='
    /^(\| )?failed: Memory$/ { wants = 1 }
    /^the output differs / { front = /found ""$/ }
    /^case=/ {
        name = substr($1, 6)
        burns = substr(name, length(name) - 3) + 0
        name = substr(name, 1, length(name) - 4)
        done = /status=0 .*output=expected/
        stopped = /status=3 / && (/output=expected/ || wants && front)
        if (stopped) refused[name]++
        else if (done && (!(name in lowest) || burns < lowest[name])) lowest[name] = burns
        else if (done) ;
        else { bad++; print "BAD " $0 }
        if (!(name in first) || burns < first[name]) first[name] = burns
        wants = 0
        front = 0
        runs++
    }
    END {
        for (name in first) {
            print name ": " refused[name] + 0 " growths refused"
            growths += refused[name]
            if (refused[name] == 0 || lowest[name] != first[name]) { bad++; print "BAD " name ": it makes more allocations" }
        }
        if (runs != wanted) { bad++; print "BAD: " runs + 0 " runs were made, not " wanted }
        print what ": " runs + 0 " runs, " growths + 0 " growths refused, " bad + 0 " bad"
    }'

# the program of a folder in each of its cases, which are dealt to the parts
try() {
    wanted=$(find "$cases" -name '*.args' | wc -l)
    part=0
    for words_of in "$cases"/*.args; do
        mkdir -p "$folder/part$part"
        mv "${words_of%.args}" "${words_of%.args}".* "$folder/part$part"
        part=$(((part + 1) % parts))
    done
    for part in "$folder"/part*; do
        (cd "$1" && shift && exec rt try --cases "$part" --fail-alloc "$count" "$@") > "$part.told" 2> "$part.faults" < /dev/null &
        started="$started $!"
    done
    wait
    started=
}

calls() {
    burns=0
    while [ "$burns" -lt "$count" ]; do
        : > "$cases/b$burns"
        echo "$burns" > "$cases/b$burns.args"
        burns=$((burns + 1))
    done
    try crates/iso_memory
    awk -v count="$count" -v words="$words" "$judge_calls" "$folder"/part*.faults "$folder"/part*.told
}

# MOST NAME INPUT OUTPUT WORD ..: a command that makes fewer allocations than MOST
runs_of() {
    burns=$((count - $1)) name=$2 input=$3 output=$4
    shift 4
    while [ "$burns" -lt "$count" ]; do
        four=$(printf '%04d' "$burns")
        cp "$input" "$cases/$name$four"
        cp "$output" "$cases/$name$four.stdout"
        printf '%s\n' "$four" "$@" > "$cases/$name$four.args"
        burns=$((burns + 1))
    done
}

# a copy of the repository, in which a program gets another main
copied() {
    mkdir -p "$folder/top/crates"
    cp "$top/crates.txt" "$top/HANDLES" "$folder/top"
    for crate in "$top"/crates/*; do
        mkdir "$folder/top/crates/${crate##*/}"
        for part in src specs; do
            [ ! -d "$crate/$part" ] || cp -r "$crate/$part" "$folder/top/crates/${crate##*/}"
        done
    done
}

# the command with a main that makes the allocations first
burning_command() {
    copied
    cp "$top/scripts/memory/burning.txt" "$folder/top/crates/iso_cli/src/burning.rt"
    cp "$top/scripts/memory/serving.txt" "$folder/top/crates/iso_cli/src/serving.rt"
    sed -z -i 's/rt\.alloc(),\([[:space:]]*\)&rt,/rt.alloc(),\1\&burning::Behind { given: \&rt },/
        s/let disk/burning::burn(rt.alloc(), \&rt);\n    let disk/
        s/let status/if serving::is_asked(\&rt) {\
            return ExitCode::from(serving::serve_peers(\&rt, \&disk, \&mut output, \&mut faults));\
        }\
        let status/
        s/mod act;/mod act;\nmod burning;\nmod serving;/' "$folder/top/crates/iso_cli/src/main.rt"
}

commands() {
    examples=$top/examples
    runs_of 40 echo "$examples/echo.txt" "$examples/expected/echo"
    runs_of 80 show "$examples/payment.txt" "$examples/expected/show" show ascii87
    runs_of 80 convert "$examples/echo.txt" "$examples/expected/convert" convert ascii87 bcd87
    runs_of 80 check /dev/null "$examples/expected/check" check terminals.json
    runs_of 160 day "$examples/day.txt" "$examples/expected/day" run ascii87 accounts.json ascii4
    line='frames=1 answered=1 silent=0 unreadable=0'
    printf '%s\n%s\n' "$line" "$line" > "$folder/peers"
    # this host listens at a port that is free, whatever its words say
    runs_of 120 peers /dev/null "$folder/peers" serve ascii87 accounts.json ascii4 8583 2
    burning_command
    try "$folder/top/crates/iso_cli" --data "accounts.json=$examples/accounts.json" \
        --data "terminals.json=$top/tables/terminals.json"
    awk -v wanted="$wanted" -v what='the command' "$judge_command" "$folder"/part*.faults
}

# a host over a new journal and a second one, of which one is refused a growth, and one more after it: that one answers the order, and
# has it once
journal() {
    runs_of 100 host /dev/null /dev/null
    copied
    cp "$top/scripts/memory/burning.txt" "$folder/top/crates/rumpadol/src/burning.rt"
    cp "$top/scripts/memory/keeping.txt" "$folder/top/crates/rumpadol/src/keeping.rt"
    sed -i 's/^rumpadol: /&iso_wire rumpadol_cluster /' "$folder/top/crates.txt"
    sed -i '/^fn main/,/^}/c\
fn main(rt: HostRuntime) -> ExitCode {\
    ExitCode::from(keeping::serve_twice(\&rt))\
}
        s/^mod act;/mod act;\nmod burning;\nmod keeping;/' "$folder/top/crates/rumpadol/src/main.rt"
    try "$folder/top/crates/rumpadol" --data "accounts.json=$top/examples/accounts.json"
    awk -v wanted="$wanted" -v what='a journal' "$judge_command" "$folder"/part*.faults
}

case $1 in
    calls) calls ;;
    command) commands ;;
    journal) journal ;;
    *) exit 1 ;;
esac > "$folder/judged"
cat "$folder/judged"
grep -q "[1-9][0-9]* growths refused, 0 bad$" "$folder/judged" || {
    cat "$folder"/part*.faults | grep -v '^allocations: \|^case=' | head -n 40
    exit 1
}
