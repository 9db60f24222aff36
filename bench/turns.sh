#!/bin/sh
# Every figure of docs/SPEED.md but those over loopback, the times in three turns: turns.sh SIZE ..
# Needs both programs and iso_bench to be built. ORDERS is as in streams.sh, FRAMES as in readers.py.
set -eu
cd "$(dirname "$0")/.."

for turn in 1 2 3; do
    bench/streams.sh
    python3 -B bench/readers.py
    crates/iso_bench/out/iso_bench codec 1000000
    crates/iso_bench/out/iso_bench issuer "$@"
    bench/journal.sh
done
bench/instructions.sh "$@"
