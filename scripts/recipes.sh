#!/bin/sh
# Runs the commands that README.md and the pages of a folder show, and compares what they write with what the pages show behind them.
# A page shows them in blocks of 'console': '$ ' before a command, '> ' before its further lines. Further words behind 'console' are
# programs that the block needs: where one isn't installed, the block is left out, and a line says so. 'built' stands for the built
# programs, where a block starts a host on ports; such blocks of two runs of this script wait for each other. A page's commands run one
# after the other in a folder with the repository's tables, examples and bench. The runs of iso_cli and rumpadol are made by the built
# programs that are given, or else by the quick run, without proofs. Prints each block that differs, and a line of counts for each
# page: recipes.sh FOLDER [ISO_CLI RUMPADOL]
set -u
cd "$(dirname "$0")/.." || exit 1
top=$PWD

folder=$(mktemp -d)
trap 'rm -rf "$folder"' EXIT
trap 'exit 1' HUP INT TERM
mkdir "$folder/bin" "$folder/blocks"

# PROGRAM [BUILT]: puts it on the PATH of the blocks
put_on_path() {
    if [ $# -gt 1 ]; then
        ln -s "$(realpath "$2")" "$folder/bin/$1"
        return
    fi
    mkdir "$folder/$1" "$folder/$1/data" "$folder/$1/wanted" "$folder/$1/made"
    printf '#!/bin/sh\nexec sh "%s/scripts/kept-run.sh" "%s" "$@"\n' "$top" "$folder/$1" > "$folder/bin/$1"
    chmod +x "$folder/bin/$1"
}

built=${3:-}
lock=${TMPDIR:-/tmp}/rumpadol-ports.lock

put_on_path iso_cli ${2:+"$2"}
put_on_path rumpadol ${3:+"$3"}

# PAGE: writes each of its blocks to a file, and what the block needs to another
split_page() {
    awk -v name="$folder/blocks/$(basename "$1")" '
        /^```console/ { block = sprintf("%s.%02d", name, ++count); $1 = ""; print > (block ".needs"); next }
        /^```/ { block = "" }
        block != "" { print > (block ".shown") }' "$1"
}

# BLOCK: as a script, which tells each command before it runs it
script_of() {
    awk '
        function tell(line) { gsub(/\047/, "\047\\\047\047", line); printf "printf \047%%s\\n\047 \047%s\047\n", line }
        function run() { if (lines != "") print "{\n" lines "} 2>&1"; lines = "" }
        /^\$ / { run() }
        /^[$>] / { tell($0); lines = lines substr($0, 3) "\n" }
        END { run() }' "$1.shown"
}

# BLOCK: whether a program that it needs isn't there
left_out() {
    for program in $(cat "$1.needs"); do
        if [ "$program" = built ]; then
            [ -n "$built" ] || return 0
        else
            command -v "$program" > /dev/null || return 0
        fi
    done
    return 1
}

# runs the blocks of all pages
run_blocks() {
    rm -rf "$folder/work"
    for block in "$folder"/blocks/*.shown; do
        block=${block%.shown}
        if left_out "$block"; then continue; fi
        work=$folder/work/$(basename "${block%.*}")
        mkdir -p "$work"
        ln -sfn "$top/tables" "$work/tables"
        ln -sfn "$top/examples" "$work/examples"
        ln -sfn "$top/bench" "$work/bench"
        script_of "$block" > "$block.script"
        wait_for=
        if grep -qw built "$block.needs" && [ -w "$lock" -o ! -e "$lock" ]; then wait_for="flock -o $lock"; fi
        (cd "$work" && PATH=$folder/bin:$PATH $wait_for sh "$block.script") < /dev/null > "$block.told" 2>&1
    done
}

# RUNS NAME: whether the output of a run is bytes, which end in no newline here
is_bytes() {
    case $(head -n 1 "$1/wanted/$2.args") in
        convert | run | encode) ! grep -qxF -e '--hex' "$1/wanted/$2.args" ;;
        *) return 1 ;;
    esac
}

# RUNS NAME FROM COUNT: keeps these bytes of what the quick run told as the output of a run. It puts a newline behind an output that
# has none; so it always does behind messages and frames.
keep_output() {
    count=$4
    if is_bytes "$1" "$2"; then [ "$count" -eq 0 ] || count=$((count - 1)); fi
    tail -c +"$(($3 + 1))" "$1/told" | head -c "$count" > "$1/made/$2.output"
}

# PROGRAM: has the quick run make the runs that are wanted of it: one build, and all of them
make_runs() {
    runs=$folder/$1 program=$1
    [ -n "$(ls "$runs/wanted" 2> /dev/null)" ] || return 0
    set --
    for file in "$runs"/data/*; do
        [ ! -f "$file" ] || set -- "$@" --data "$(basename "$file")=$file"
    done
    (cd "crates/$program" && rt try --cases "$runs/wanted" "$@") > "$runs/told" 2> "$runs/faults"
    LC_ALL=C grep -abo '^== [0-9a-f]\{16\}$' "$runs/told" \
        | awk -F '[: ]' -v end="$(wc -c < "$runs/told")" '
            name != "" { print name, from, $1 - from }
            { name = $3; from = $1 + 20 }
            END { if (name != "") print name, from, end - from }' \
        | while read -r name from count; do keep_output "$runs" "$name" "$from" "$count"; done
    awk -v made="$runs/made" '
        /^case=[^ ]* run=ended status=[0-9]* / {
            name = made "/" substr($1, 6)
            printf "%s", said > (name ".faults")
            print substr($3, 8) > (name ".status")
            close(name ".faults"); close(name ".status")
            said = ""
            next
        }
        { said = said $0 "\n" }' "$runs/faults"
}

# whether a run is wanted
is_wanted() {
    for wanted in "$folder"/*/wanted/*.args; do
        [ ! -f "$wanted" ] || return 0
    done
    return 1
}

# whether all runs that are wanted were made; where one wasn't, tells what the quick run told
all_made() {
    for wanted in "$folder"/*/wanted/*.args; do
        [ -f "$wanted" ] || continue
        runs=$(dirname "$(dirname "$wanted")")
        [ -f "$runs/made/$(basename "$wanted" .args).status" ] || { cat "$runs/faults"; return 1; }
    done
}

# PAGE: tells which of its blocks differ, and how many don't
judge_page() {
    passed=0
    failed=0
    for block in "$folder/blocks/$(basename "$1")".*.shown; do
        [ -f "$block" ] || return 0
        block=${block%.shown}
        if left_out "$block"; then
            echo "LEFT OUT a block of $1: it needs$(cat "$block.needs")"
        elif cmp -s "$block.shown" "$block.told"; then
            passed=$((passed + 1))
        else
            failed=$((failed + 1))
            echo "FAILED $1: a block differs from what its commands write"
            diff "$block.shown" "$block.told"
        fi
    done
    echo "$1: $passed blocks passed, $failed failed"
}

for page in README.md "$1"/*.md; do split_page "$page"; done
run_blocks
round=0
while is_wanted && [ "$round" -lt 6 ]; do
    round=$((round + 1))
    make_runs iso_cli &
    make_runs rumpadol &
    wait
    all_made || break
    rm -f "$folder"/*/wanted/*
    run_blocks
done
for page in README.md "$1"/*.md; do judge_page "$page"; done
