#!/bin/sh
# Builds the library for C, crates/iso_c/out/libiso_c.a, over the libraries that the gate has proved just before. `make library` proves
# these again, since it takes no work of the gate's.
set -u
cd "$(dirname "$0")/../crates/iso_c" || exit 1

kit=$(dirname "$(rt doc)")
set -- --crate-name iso_c src/lib.rt --crate-type staticlib --links iso_c= --jobs 1
for library in std $(sed -n 's/^iso_c staticlib: //p' ../../crates.txt); do
    rlibs=../$library/out/rlib
    [ -d "$rlibs" ] || rlibs=$kit/rlibs
    set -- "$@" --extern "$library=$rlibs/$library.rlib" -L "dependency=$rlibs"
done
mkdir -p out
exec "$kit/bin/rattle" build "$@" --antt-project "$kit/rattle/logic/antt-project.json" --logic-built "$kit/logic_built" \
    --toolchain "$kit/toolchain" --backend llvm -o out/libiso_c.a
