#!/bin/sh
# Runs every test and every stored run, as many side by side as there are cores, without proving anything: the programs by the quick
# run, or as they were built. What needs a program that isn't here, or a library that isn't built, is left out: the lines before the
# last one say so again. The last line is 'N passed, N failed'.
# test.sh           all of them
# test.sh pages     what the gate doesn't run: no tests of crates, no stored runs, and no rows of the programs
set -u
cd "$(dirname "$0")/.." || exit 1
which=${1:-all}

folder=$(mktemp -d)
trap 'rm -rf "$folder"' EXIT
trap 'exit 1' HUP INT TERM

# a command in each line: what the pages show, the examples in C, and the rows of the model
page_jobs() {
    if [ -x crates/iso_cli/out/iso_cli ] && [ -x crates/rumpadol/out/rumpadol ]; then
        echo scripts/recipes.sh docs crates/iso_cli/out/iso_cli crates/rumpadol/out/rumpadol
    else
        echo scripts/recipes.sh docs
    fi
    echo scripts/elements.sh docs/ELEMENTS.md
    echo scripts/c-examples.sh examples/c
    if command -v python3 > /dev/null; then
        echo python3 tests/model/rows.py
        echo python3 scripts/metric-names.py
    fi
}

# the same: the rows of both programs, the crates that have tests, and the programs that have a stored run
crate_jobs() {
    if command -v python3 > /dev/null; then
        echo python3 scripts/command-rows.py
        if [ -x crates/rumpadol/out/rumpadol ]; then
            echo python3 scripts/command-rows.py --program rumpadol crates/rumpadol/out/rumpadol
        else
            echo python3 scripts/command-rows.py --program rumpadol
        fi
    fi
    grep -rl --include='*.rt' '^ *#\[test\]' crates/*/src | cut -d/ -f2 | sort -u | sed 's|^|scripts/try-tests.sh |'
    ls crates/*/stdout | cut -d/ -f2 | sed 's|^|scripts/try-runs.sh |'
}

# PAGE TEST: the example of a page is a test, word for word
example() {
    sed -n '/^```rust$/,/^```$/p' "$1" | sed '1d;$d' > "$folder/example"
    if cmp -s "$folder/example" "$2"; then
        echo "$1: 1 example passed, 0 failed"
    else
        echo "FAILED $1: its example isn't $2"
        echo "$1: 0 examples passed, 1 failed"
    fi
}

# tables/ has the built-in tables as the tests of the codec have them, byte for byte
tables() {
    same=0
    for table in ascii87 bcd87; do
        name=$(echo "$table" | tr a-z A-Z)
        sed -n "/^pub(super) const $name:/,/\"#;\$/p" crates/iso_codec_tests/src/table/edition87.rt | sed 's/.*r#"//; s/"#;$//' \
            | tr -d '\n' > "$folder/table"
        if [ -s "$folder/table" ] && cmp -s "$folder/table" "tables/$table.json"; then
            same=$((same + 1))
        else
            echo "FAILED tables/$table.json: it isn't what to_json writes"
        fi
    done
    echo "tables: $same documents passed, $((2 - same)) failed"
}

# NAME COMMAND ..: whether an example passes, told where it doesn't
try_example() {
    name=$1
    shift
    if "$@" > "$folder/said" 2>&1 && [ ! -s "$folder/said" ]; then
        good=$((good + 1))
    else
        wrong=$((wrong + 1))
        echo "FAILED examples/$name: $(cat "$folder/said")"
    fi
}

# what examples/ has for who runs a host: its documents are JSON, its unit is one for systemd, wherever the program will stand,
# and its proxy is one for HAProxy
host_examples() {
    good=0 wrong=0
    command -v python3 > /dev/null && for document in examples/*.json; do
        try_example "$(basename "$document")" python3 -c 'import json, sys; json.load(open(sys.argv[1]))' "$document"
    done
    if command -v systemd-analyze > /dev/null; then
        sed 's|=/usr/local/bin/rumpadol|=/bin/true|' examples/rumpadol.service > "$folder/rumpadol.service"
        try_example rumpadol.service systemd-analyze verify "$folder/rumpadol.service"
    else
        echo 'LEFT OUT the unit of examples/: there is no program systemd-analyze'
    fi
    if command -v haproxy > /dev/null; then
        try_example haproxy.cfg haproxy -c -q -f examples/haproxy.cfg
    else
        echo 'LEFT OUT the proxy of examples/: there is no program haproxy'
    fi
    echo "examples: $good of a host passed, $wrong failed"
}

page_jobs > "$folder/jobs"
[ "$which" = pages ] || crate_jobs >> "$folder/jobs"
{
    command -v python3 > /dev/null || echo 'LEFT OUT the rows of both programs and of the model: there is no program python3'
    example docs/LIBRARY.md crates/iso_host_tests/src/host/example.rt
    example examples/pieces.md crates/iso_ledger_tests/src/order/pieces.rt
    tables
    host_examples
    xargs -P "$(nproc)" -I {} scripts/counted.sh {} "$folder/ended" < "$folder/jobs"
    # a job that never came to its end has told nothing
    touch "$folder/ended"
    grep -vxF -f "$folder/ended" "$folder/jobs" | while read -r job; do
        echo "FAILED $job: it didn't come to its end"
        echo "$(echo "$job" | tr ' ' '-'): 0 passed, 1 failed"
    done
} | tee "$folder/told"
grep '^LEFT OUT ' "$folder/told" | sort -u
awk '/^[^ ]*: [0-9]* .*passed, [0-9]* failed$/ { passed += $2; failed += $(NF - 1) }
    END { print passed + 0 " passed, " failed + 0 " failed"; exit failed > 0 || passed == 0 }' "$folder/told"
