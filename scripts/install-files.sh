#!/bin/sh
# Installs the programs, their man pages and completions, the tables, and the library for C with its header, or takes away what was
# installed. Nothing is built but the library's two forms, the pages and the completions.
#
#   install-files.sh RUMPADOL ISO_CLI LIBRARY    installs under PREFIX, in DESTDIR
#   install-files.sh --remove                    removes what stands in the list that the first one left there, and nothing else
#
# PREFIX is /usr/local where it isn't set, LIBDIR is PREFIX/lib, and ZSHDIR PREFIX/share/zsh/site-functions; KIT is the toolchain's
# C part, which is linked into the library. The list is PREFIX/share/rumpadol/installed: a path a line, folders with a slash behind.
set -eu
export LC_ALL=C
cd "$(dirname "$0")/.."

prefix=${PREFIX:-/usr/local}
destination=${DESTDIR:-}
libdir=${LIBDIR:-$prefix/lib}
zshdir=${ZSHDIR:-$prefix/share/zsh/site-functions}
list=$prefix/share/rumpadol/installed

refuse() {
    echo "install: $*" >&2
    exit 1
}

case $prefix in
    /*) ;;
    *) refuse "PREFIX is $prefix; wanted is a path from the root" ;;
esac

# the loader finds a new library in its own folders once its list is made again
renew() {
    [ -n "$destination" ] || [ "$(id -u)" -ne 0 ] || ldconfig 2> /dev/null || true
}

remove() {
    [ -f "$destination$list" ] || refuse "there is no $destination$list, so nothing is known to be installed under $prefix"
    names=$(mktemp)
    sort -r "$destination$list" > "$names"
    while read -r name; do
        case $name in
            */) rmdir "$destination$name" 2> /dev/null || true ;;
            *) rm -f "$destination$name" ;;
        esac
    done < "$names"
    rm -f "$names"
    renew
}

if [ "${1:-}" = --remove ]; then
    remove
    exit
fi

[ $# -eq 3 ] || refuse 'wanted are the two programs and the library'
rumpadol=$1 iso_cli=$2 library=$3
for program in "$rumpadol" "$iso_cli"; do
    [ -x "$program" ] || refuse "there is no $program: make build proves and builds it"
done
[ -f "$library" ] || refuse "there is no $library: make library proves and builds it"
for program in cc ar python3; do
    command -v "$program" > /dev/null || refuse "there is no program $program: install it (Debian: gcc, binutils, python3)"
done
kit=${KIT:-$(dirname "$(rt doc)")/c/liblibc_c.a}
[ -f "$kit" ] || refuse "there is no $kit: KIT names the toolchain's C part"

made=$(mktemp -d)
trap 'rm -rf "$made"' EXIT
trap 'exit 1' HUP INT TERM
: > "$made/list"

# FOLDER: makes it, and keeps which folders weren't there
folder() {
    [ ! -d "$destination$1" ] || return 0
    folder "$(dirname "$1")"
    mkdir "$destination$1"
    chmod 755 "$destination$1"
    echo "$1/" >> "$made/list"
}

# MODE FILE PATH: the file at the path
put() {
    folder "$(dirname "$3")"
    echo "$3" >> "$made/list"
    install -m "$1" "$2" "$destination$3"
}

# TARGET PATH: a link at the path
put_link() {
    echo "$2" >> "$made/list"
    ln -sfn "$1" "$destination$2"
}

version=$("$rumpadol" --version | sed 's/.* //')
major=${version%%.*}
scripts/install-library.sh "$library" "$kit" "$version" "$made/library"
python3 scripts/man-pages.py "$rumpadol" "$made/man" > "$made/pages"
python3 scripts/completions.py "$rumpadol" "$made/completions"
# a path under the prefix is told by the prefix, so that pkg-config can move it
sed -e "s|@PREFIX@|$prefix|" -e "s|@LIBDIR@|$libdir|" -e "s|@VERSION@|$version|" packaging/rumpadol.pc.in |
    sed "2,\$s|=$prefix/|=\${prefix}/|" > "$made/rumpadol.pc"

[ -z "$destination" ] || mkdir -p "$destination"
folder "$prefix/share/rumpadol"
echo "$list" >> "$made/list"
put 755 "$rumpadol" "$prefix/bin/rumpadol"
put 755 "$iso_cli" "$prefix/bin/iso_cli"
while read -r page; do
    put 644 "$made/man/$page" "$prefix/share/man/man1/$page"
done < "$made/pages"
put 644 packaging/iso_cli.1 "$prefix/share/man/man1/iso_cli.1"
put 644 "$made/completions/bash" "$prefix/share/bash-completion/completions/rumpadol"
put 644 "$made/completions/zsh" "$zshdir/_rumpadol"
put 644 "$made/completions/fish" "$prefix/share/fish/vendor_completions.d/rumpadol.fish"
for table in tables/*.json; do
    put 644 "$table" "$prefix/share/rumpadol/$table"
done
put 644 include/rumpadol.h "$prefix/include/rumpadol.h"
put 644 "$made/library/librumpadol.a" "$libdir/librumpadol.a"
put 755 "$made/library/librumpadol.so.$version" "$libdir/librumpadol.so.$version"
put_link "librumpadol.so.$version" "$libdir/librumpadol.so.$major"
put_link "librumpadol.so.$major" "$libdir/librumpadol.so"
put 644 "$made/rumpadol.pc" "$libdir/pkgconfig/rumpadol.pc"

# what an earlier installation put there is removed with this one
[ ! -f "$destination$list" ] || cat "$destination$list" >> "$made/list"
sort -u "$made/list" > "$made/sorted"
install -m 644 "$made/sorted" "$destination$list"
renew
echo "installed $(grep -vc '/$' "$made/sorted") files under $destination$prefix"
