#!/bin/sh
# Makes what is installed of the library for C: one archive with the toolchain's C part in it, and the shared library, which exports
# the names of the header and no others: install-library.sh LIBRARY KIT VERSION FOLDER
set -eu
[ $# -eq 4 ] || {
    echo "install-library.sh: wanted are the archive, the toolchain's C part, the version and a folder" >&2
    exit 2
}
library=$(realpath "$1") kit=$(realpath "$2") version=$3 folder=$4
cd "$(dirname "$0")/.."

mkdir -p "$folder"
folder=$(realpath "$folder")
name=librumpadol.so.${version%%.*}
python3 scripts/header-check.py --exports > "$folder/exports"

# ar reads these names, so they stand beside it, without a path that it might not understand
cp "$library" "$folder/codec.a"
cp "$kit" "$folder/kit.a"
(cd "$folder" && printf 'create librumpadol.a\naddlib codec.a\naddlib kit.a\nsave\nend\n' | ar -M)
rm "$folder/codec.a" "$folder/kit.a"
ranlib -D "$folder/librumpadol.a"

cc -shared -o "$folder/librumpadol.so.$version" -Wl,-soname,"$name" -Wl,--version-script="$folder/exports" -Wl,-z,defs \
    -Wl,-z,noexecstack -Wl,-z,relro -Wl,-z,now -Wl,--whole-archive "$folder/librumpadol.a" -Wl,--no-whole-archive
rm "$folder/exports"
ln -s "librumpadol.so.$version" "$folder/$name"
ln -s "$name" "$folder/librumpadol.so"
