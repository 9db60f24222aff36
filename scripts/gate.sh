#!/bin/sh
# The whole gate: proves every crate and its tests from nothing, runs the tests and the programs, and tries the wrong edits. The toolchain's
# gate does all but the edits, in a copy of the tree that has none; scripts/wrong-edits.py tries them beside it, many in one check, and needs
# what it proves. Each crate's out/ is the copy's in the end. RT_JOBS=N: so many checks of the toolchain's gate side by side.
# Nearly all crates stand on iso_issuer, and each up to it waits for the one below. So a second run of the toolchain's gate, in a copy of its
# own, proves these alone, each by as many cores as memory allows: the first one waits for a proof that is at work, and takes it as it is kept.
# The last line is 'N passed, M failed': crates and edits.
set -u
cd "$(dirname "$0")/.." || exit 1

room=$(mktemp -d "${TMPDIR:-/tmp}/gate.XXXXXX") || exit 1
edits=''
ahead=''
trap 'kill $edits $ahead 2> /dev/null; rm -rf "$room"' EXIT
trap 'exit 1' HUP INT TERM
for copy in tree ahead; do
    mkdir "$room/$copy" || exit 1
    tar --exclude=out --exclude=must-fail -cf - crates crates.txt HANDLES | tar -C "$room/$copy" -xf - || exit 1
done

: > "$room/log"
nice -n 19 python3 scripts/wrong-edits.py "$room/tree" "$room/log" > "$room/edits" &
edits=$!
(cd "$room/ahead" && exec env -u RT_JOBS rt ci iso_issuer) > "$room/told" 2>&1 &
ahead=$!
# so that it is the first to begin each of these proofs
sleep 10
(cd "$room/tree" && exec rt ci) 2>&1 | tee "$room/log"
kill "$ahead" 2> /dev/null
ahead=''
if ! grep -qE '^rt: [a-z0-9_]* (proved|is kept: .*)$' "$room/log"; then
    echo 'gate.sh: this toolchain says in other words what it proves, so its own gate tries the edits'
    kill "$edits"
    edits=''
    rm -rf "$room"
    exec rt ci
fi
# where the toolchain's gate stopped before its last line, nothing more is proved
tail -n 1 "$room/log" | grep -q '^[0-9]* passed, [0-9]* failed$' || echo '0 passed, 1 failed' >> "$room/log"
wait "$edits"
edits=''
cat "$room/edits"

for out in "$room"/tree/crates/*/out; do
    crate=crates/$(basename "$(dirname "$out")")
    rm -rf "$crate/out"
    mv "$out" "$crate/out"
done
tail -qn 1 "$room/log" "$room/edits" | awk '/^[0-9]+ passed, [0-9]+ failed$/ { lines++; passed += $1; failed += $3 }
    END { if (lines != 2) failed++; print passed + 0 " passed, " failed + 0 " failed"; exit failed > 0 }'
