#!/bin/sh
# Compares what rumpadol writes with what Wireshark's dissector of ISO 8583 reads: messages of a fixed seed, element by element, in
# text and in BCD. The last line is 'tshark-check: N passed, M failed'. It needs tshark and text2pcap: tshark-check.sh RUMPADOL
set -eu
top=$(cd "$(dirname "$0")/.." && pwd)
[ $# -eq 1 ] || { echo 'tshark-check.sh: write the program: tshark-check.sh RUMPADOL' >&2; exit 2; }
command -v "$1" > /dev/null || { echo "tshark-check.sh: there is no program $1" >&2; exit 2; }

for program in tshark text2pcap python3; do
    command -v "$program" > /dev/null || {
        echo "LEFT OUT tshark-check.sh: there is no program $program"
        echo 'tshark-check: 0 passed, 0 failed'
        exit
    }
done
folder=$(mktemp -d)
trap 'rm -rf "$folder"' EXIT
trap 'exit 1' HUP INT TERM

python3 "$top/scripts/tshark_check.py" "$1" "$folder"
