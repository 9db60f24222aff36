#!/bin/sh
# Stands in for a program while no built one is there: tells what a run of the program told before, or else notes the run as
# one to be made, and tells nothing. FOLDER has the runs, each under the sum of its input, its words and the files that these
# name. A file is given to the quick run under its sum, and where that is told, the file's name is put in its place:
# kept-run.sh FOLDER WORD ..
set -u
folder=$1
shift

note=$(mktemp -d) || exit 1
trap 'rm -rf "$note"' EXIT
cat > "$note/input"
: > "$note/words"
: > "$note/names"
for word in "$@"; do
    if [ -f "$word" ]; then
        sum=$(sha256sum < "$word" | cut -c1-16)
        cp "$word" "$folder/data/$sum"
        printf 's|%s|%s|g\n' "$sum" "$word" >> "$note/names"
        word=$sum
    fi
    printf '%s\n' "$word" >> "$note/words"
done
run=$(cat "$note/words" "$note/input" | sha256sum | cut -c1-16)

if [ -f "$folder/made/$run.status" ]; then
    LC_ALL=C sed -f "$note/names" "$folder/made/$run.output"
    LC_ALL=C sed -f "$note/names" "$folder/made/$run.faults" >&2
    exit "$(cat "$folder/made/$run.status")"
fi
cp "$note/input" "$folder/wanted/$run"
cp "$note/words" "$folder/wanted/$run.args"
