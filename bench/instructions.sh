#!/bin/sh
# How many processor instructions a call of the codec takes, an order, by its kind and by the entries of the journal, and a frame
# of each stream: instructions.sh SIZE .. Counted by valgrind, so they are the same on each run, and without those of the system.
# Needs the command and iso_bench to be built, and python3.
set -eu
cd "$(dirname "$0")/.."

if ! command -v valgrind > /dev/null; then
    echo "instructions aren't counted: there is no valgrind"
    exit 0
fi
folder=$(mktemp -d)
trap 'rm -rf "$folder"' EXIT
trap 'exit 1' HUP INT TERM

# NAME MODULE WORD ..: the counts that are written before each line that the program prints, and the lines
count() {
    name=$1 module=$2
    shift 2
    valgrind --tool=callgrind --callgrind-out-file="$folder/$name" --dump-before="*iso_bench::$module::print*" ${collect:+"$collect"} \
        crates/iso_bench/out/iso_bench "$@" > "$folder/$name.told" 2> /dev/null
}

# NAME LINE: the instructions that were counted before that line
total() {
    awk '/^totals:/ { print $2 }' "$folder/$1.$2"
}

# KIND COUNT: the counts of a host that serves so many frames
serve() {
    header=$(bench/frames.py "$1" "$2" "$folder")
    valgrind --tool=callgrind --callgrind-out-file="$folder/$1.$2" crates/iso_cli/out/iso_cli run ascii87 "$folder/accounts.json" "$header" \
        < "$folder/stream" > /dev/null 2> "$folder/faults" || {
        cat "$folder/faults" >&2
        exit 1
    }
}

# KIND FEW MANY: the instructions of a frame behind the first FEW and up to MANY
frame() {
    serve "$1" "$2"
    serve "$1" "$3"
    echo "$1 frame: after=$2 up_to=$3 instructions=$((($(total "$1" "$3") - $(total "$1" "$2")) / ($3 - $2)))"
}

# what comes before and between the calls falls out of the difference of two runs; the large message is taken a hundredth
# as often
few=1000 many=3000 line=0 collect=
count few codec codec $few
count many codec codec $many
while read -r verb bytes rest; do
    line=$((line + 1))
    calls=$((many - few))
    [ $line -le 3 ] || calls=$((calls / 100))
    echo "$verb $bytes instructions=$((($(total many $line) - $(total few $line)) / calls))"
done < "$folder/many.told"

# the program measures so many orders of each kind, or as many as the journal has entries
most=2000 line=0 collect='--toggle-collect=*iso_bench::issuer::hand_over*'
count orders issuer issuer "$@"
while read -r kind entries rest; do
    line=$((line + 1))
    size=${entries#entries=}
    count=$((size < most ? size : most))
    [ "$kind" = fill ] || echo "$kind $entries instructions=$(($(total orders $line) / count))"
done < "$folder/orders.told"

# the start falls out of the difference of two lengths of a stream
for kind in echo silent one-account many-accounts mix garbage; do
    frame "$kind" 10000 20000
done
frame full 100 300
