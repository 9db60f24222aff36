#!/bin/sh
# Runs the examples of a folder over the library for C, and compares what they write with examples/expected: decode.c on hex dumps,
# also under valgrind and as another compiler makes it, and convert.py; c-calls.c, which compares what each call gives; and
# c-refusals.c, which refuses memory to each call. What needs a program that isn't installed is left out, and all of it where the
# library isn't built (make library): a line says so. Prints each run that failed, and a line of counts: c-examples.sh FOLDER
set -u
cd "$(dirname "$0")/.." || exit 1

examples=$1
library=crates/iso_c/out/libiso_c.a
kit=$(dirname "$(rt doc)")/c/liblibc_c.a
folder=$(mktemp -d)
trap 'rm -rf "$folder"' EXIT
trap 'exit 1' HUP INT TERM
passed=0
failed=0

# NAME EXPECTED STATUS INPUT COMMAND ..: a run, and what it must write and end with
run() {
    name=$1 expected=examples/expected/$2 status=$3 input=$4
    shift 4
    "$@" < "$input" > "$folder/told" 2>&1
    if [ $? -eq "$status" ] && cmp -s "$folder/told" "$expected"; then
        passed=$((passed + 1))
    else
        failed=$((failed + 1))
        echo "FAILED $examples: $name"
        diff "$expected" "$folder/told"
    fi
}

# PROGRAM: whether it is installed; a line says so if it isn't
has() {
    command -v "$1" > /dev/null || {
        echo "LEFT OUT runs of $examples: there is no program $1"
        return 1
    }
}

# COMPILER SOURCE PROGRAM OPTION ..: the program as that compiler makes it, with all warnings as errors
compile() {
    compiler=$1 source=$2 program=$3
    shift 3
    if "$compiler" -O2 -std=c11 -Wall -Wextra -Wpedantic -Werror -Iinclude "$@" -o "$program" "$source" "$library" "$kit"; then
        return
    fi
    failed=$((failed + 1))
    echo "FAILED $examples: $compiler refuses $source"
    return 1
}

decode() {
    head -c 60 "$examples/payment.hex" > "$folder/cut.hex"
    run "payment of $1" decode 0 "$examples/payment.hex" "$folder/decode-$1" ascii87
    run "a document of $1" decode 0 "$examples/payment.hex" "$folder/decode-$1" tables/ascii87.json
    run "a cut dump of $1" decode-cut 1 "$folder/cut.hex" "$folder/decode-$1" ascii87
    has valgrind || return
    run "payment of $1 under valgrind" decode 0 "$examples/payment.hex" \
        valgrind -q --leak-check=full --error-exitcode=9 "$folder/decode-$1" tables/ascii87.json
    run "a cut dump of $1 under valgrind" decode-cut 1 "$folder/cut.hex" \
        valgrind -q --leak-check=full --error-exitcode=9 "$folder/decode-$1" ascii87
}

if [ -f "$library" ] && make --silent --no-print-directory --question library; then
    for compiler in cc clang; do
        if has "$compiler" && compile "$compiler" "$examples/decode.c" "$folder/decode-$compiler"; then
            decode "$compiler"
        fi
    done
    if has cc && compile cc scripts/c-calls.c "$folder/calls"; then
        run c-calls.c c-calls 0 /dev/null "$folder/calls"
        if has valgrind; then
            run "c-calls.c under valgrind" c-calls 0 /dev/null valgrind -q --leak-check=full --error-exitcode=9 "$folder/calls"
        fi
    fi
    if has cc && compile cc scripts/c-refusals.c "$folder/refusals" -Wl,--wrap=malloc,--wrap=realloc; then
        run c-refusals.c c-refusals 0 /dev/null "$folder/refusals" tables/ascii87.json
    fi
    if has cc && has python3; then
        cc -shared -o "$folder/librumpadol.so" -Wl,--whole-archive "$library" -Wl,--no-whole-archive "$kit" -Wl,-z,defs
        run convert.py ctypes 0 /dev/null python3 "$examples/convert.py" "$folder/librumpadol.so"
    fi
else
    echo "LEFT OUT the runs of $examples: make library has not built the library"
fi
echo "$examples: $passed runs passed, $failed failed"
