#!/bin/sh
# Compares the elements that a page shows, edition by edition, with the rows of the documents in tables/. Prints the rows that
# differ, and a line of counts: elements.sh PAGE
set -u
cd "$(dirname "$0")/.." || exit 1

folder=$(mktemp -d)
trap 'rm -rf "$folder"' EXIT
trap 'exit 1' HUP INT TERM

# TABLE: its rows, as 'NUMBER CLASS LENGTH'
rows_of() {
    tr '{' '\n' < "tables/$1.json" | awk '
        function member(name) {
            if (!match($0, "\"" name "\":\"?[^\",}]*")) return ""
            return substr($0, RSTART + length(name) + 3, RLENGTH - length(name) - 3)
        }
        function text(name,    value) { value = member(name); sub(/^"/, "", value); return value }
        /"number"/ {
            size = text("length") == "fixed" ? text("max") : text("length") " to " text("max")
            if (text("pad") == "right:20") size = size " blanks behind"
            print text("number"), text("class"), size
        }' | sort -n
}

# PAGE HEADING: the rows that the page shows up to this section, a later section changing those before it
shown_in() {
    awk -F ' [|] ' -v heading="$2" '
        /^#/ { done = done || found; found = index($0, heading) > 0 }
        /^[|] [0-9]/ && !done {
            gsub(/[`,]| [|]$/, "")
            split($1, part, " ")
            last = part[3] == "to" ? part[4] : part[3] == "" ? part[2] : part[3]
            for (n = part[2]; n <= last + 0; n++) row[n] = $3 " " $4
        }
        END { for (n in row) print n, row[n] }' "$1" | sort -n
}

passed=0
failed=0
# TABLE HEADING: the table has what the page shows up to this section
compare() {
    rows_of "$1" > "$folder/rows"
    shown_in "$page" "$2" > "$folder/shown"
    if [ -s "$folder/rows" ] && cmp -s "$folder/rows" "$folder/shown"; then
        passed=$((passed + 1))
    else
        failed=$((failed + 1))
        echo "FAILED $page: its rows aren't those of tables/$1.json"
        diff "$folder/rows" "$folder/shown"
    fi
}

page=$1
for table in ascii87 bcd87 ascii87raw; do compare "$table" 'The 126 elements'; done
compare ascii93 '# 1993'
compare ascii03 '# 2003'
echo "$page: $passed tables passed, $failed failed"
