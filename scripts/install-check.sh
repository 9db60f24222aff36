#!/bin/sh
# Checks all that is installed: into an empty folder, and out of it again. The built programs and the library are those of make
# build and make library; RUMPADOL, COMMAND and LIBRARY name others. Prints a line for each failure, and as its last one
# 'install-check: N passed, M failed'. What needs a program that isn't installed is left out: a line says so.
set -u
export LC_ALL=C.UTF-8
cd "$(dirname "$0")/.." || exit 1

rumpadol=${RUMPADOL:-crates/rumpadol/out/rumpadol}
iso_cli=${COMMAND:-crates/iso_cli/out/iso_cli}
library=${LIBRARY:-crates/iso_c/out/libiso_c.a}
unset RUMPADOL COMMAND LIBRARY DESTDIR PREFIX LIBDIR ZSHDIR MAKEFLAGS MAKELEVEL
folder=$(mktemp -d)
trap 'rm -rf "$folder"' EXIT
trap 'exit 1' HUP INT TERM
prefix=$folder/there/is/none
told=$folder/told
passed=0
failed=0

# WHAT COMMAND ..: whether it ends well; what it told is shown if not
check() {
    what=$1
    shift
    if "$@" > "$told" 2>&1; then
        passed=$((passed + 1))
    else
        failed=$((failed + 1))
        echo "FAILED install: $what"
        cat "$told"
    fi
}

# PROGRAM: whether it is installed; a line says so if it isn't
has() {
    command -v "$1" > /dev/null || {
        echo "LEFT OUT checks of what is installed: there is no program $1"
        return 1
    }
}

# TARGET NAME=VALUE ..: make, with the programs and the library
made() {
    make --silent --no-print-directory "$@" RUMPADOL="$rumpadol" COMMAND="$iso_cli" LIBRARY="$library"
}

# WANTED COMMAND ..: whether it writes this
gives() {
    wanted=$1
    shift
    given=$("$@") || return 1
    [ "$given" != "$wanted" ] || return 0
    echo "wanted: $wanted"
    echo "given:  $given"
    return 1
}

# WANTED COMMAND ..: whether its last word on any stream is this line, and its status isn't 0
refuses() {
    wanted=$1
    shift
    ! "$@" > "$folder/refused" 2>&1 || return 1
    grep -F -q "$wanted" "$folder/refused" || {
        cat "$folder/refused"
        return 1
    }
}

# COMMAND ..: whether it doesn't end well
isnt() {
    ! "$@"
}

# COMMAND ..: whether it ends well and writes nothing
is_silent() {
    "$@" > "$folder/silent" 2>&1 && [ ! -s "$folder/silent" ] && return
    cat "$folder/silent"
    return 1
}

# PAGE: whether man and groff have nothing to say of it
page_is_good() {
    man --warnings -E UTF-8 -l -Tutf8 -Z "$1" 2> "$folder/silent" > /dev/null
    groff -man -ww -Tutf8 -z "$1" 2>> "$folder/silent"
    [ ! -s "$folder/silent" ] && lexgrog "$1" > /dev/null && return
    cat "$folder/silent"
    return 1
}

# the words of the commands in a help
jobs_in() {
    sed -n '/^Commands:$/,/^$/s/^  \([a-z]*\) .*/\1/p' | grep -v '^help$'
}

# JOB: whether its page has each option of its help
page_has_options() {
    MANWIDTH=300 man -l "$prefix/share/man/man1/rumpadol-$1.1" | col -b > "$folder/page"
    for option in $("$prefix/bin/rumpadol" "$1" --help | sed -n 's/^ *\(-h, \)\{0,1\}\(--[a-z-]*\) .*/\2/p'); do
        grep -q -e "$option" "$folder/page" || {
            echo "the page of $1 doesn't have $option"
            return 1
        }
    done
}

# WORD ..: what bash completes behind these words, in a folder with two files
in_bash() (
    # shellcheck disable=SC2016
    cd "$folder/words" && bash --norc -c '. "$0" && COMP_WORDS=("$@") && COMP_CWORD=$(($# - 1)) && _rumpadol && echo "${COMPREPLY[*]}"' \
        "$prefix/share/bash-completion/completions/rumpadol" rumpadol "$@"
)

# LINE: what fish completes behind it
in_fish() {
    HOME=$folder fish --no-config -c "source $prefix/share/fish/vendor_completions.d/rumpadol.fish; complete -C '$1'" |
        cut -f 1 | sort | tr '\n' ' '
}

# the names that the shared library exports
exported() {
    nm -D --defined-only "$1" | awk '$(NF - 1) != "A" { sub(/@.*/, "", $NF); print $NF }' | sort
}
exports_the_header() {
    scripts/header-check.py --names > "$folder/names" || return 1
    exported "$1" > "$folder/exported" && diff "$folder/names" "$folder/exported"
}

# LIBRARY: the name by which the loader knows it
soname() {
    objdump -p "$1" | sed -n 's/^ *SONAME *//p'
}

# OPTION ..: the header alone, as the language of these options
headed() {
    cc "$@" -Wall -Wextra -Wpedantic -Werror -fsyntax-only "-I$prefix/include" "$folder/alone.c"
}

# pkg-config over what is installed
config() {
    PKG_CONFIG_PATH=$prefix/lib/pkgconfig pkg-config "$@"
}

# COMPILER SOURCE PROGRAM OPTION ..: the program from the source, with the words of pkg-config and these before them
compile() {
    compiler=$1 source=$2 program=$3
    shift 3
    # shellcheck disable=SC2046
    "$compiler" -O1 -std=c11 -Wall -Wextra -Wpedantic -Werror -o "$program" "$source" $(config --cflags rumpadol) "$@" \
        $(config --libs rumpadol) -Wl,-Bdynamic
}

# EXPECTED INPUT COMMAND ..: whether it writes that file
writes() {
    expected=$1 input=$2
    shift 2
    "$@" < "$input" > "$folder/written" 2>&1 && cmp "$expected" "$folder/written"
}

# PROGRAM: whether it wants the shared library
is_linked() {
    objdump -p "$1" | grep -q 'NEEDED *librumpadol.so.1'
}

# PAGE: its lines, at what is installed, beside a copy of the examples
shown() {
    rm -rf "$folder/tree"
    mkdir "$folder/tree"
    cp -r examples "$folder/tree"
    # shellcheck disable=SC2016
    sed -n '/^```sh$/,/^```$/p' "$1" | sed '/^```/d' > "$folder/shown"
    [ -s "$folder/shown" ] && (cd "$folder/tree" && PATH=$prefix/bin:$PATH MANPATH=$prefix/share/man LD_LIBRARY_PATH=$prefix/lib \
        PKG_CONFIG_PATH=$prefix/lib/pkgconfig sh -e "$folder/shown")
}

# FOLDER: the files in it, but for the list of what was installed
files_in() {
    (cd "$1" && find . ! -type d ! -path ./share/rumpadol/installed | sort)
}

# the header against the library's source, and one that isn't right
check 'the header is that of the library' python3 scripts/header-check.py
sed 's/uint32_t header, const/uint64_t header, const/' include/rumpadol.h > "$folder/other.h"
check 'another header is refused' refuses 'the call rumpadol_frame is' python3 scripts/header-check.py "$folder/other.h"

# nothing is built where something is missing
check 'a missing program is told' refuses 'make build' \
    env PREFIX="$prefix" scripts/install-files.sh "$folder/none" "$iso_cli" "$library"
check 'a missing library is told' refuses 'make library' \
    env PREFIX="$prefix" scripts/install-files.sh "$rumpadol" "$iso_cli" "$folder/none"
check 'nothing is there yet' test ! -e "$folder/there"
check 'nothing to remove is told' refuses 'nothing is known to be installed' made uninstall PREFIX="$prefix"

check 'make install' made install PREFIX="$prefix"
version=$("$prefix/bin/rumpadol" --version | sed 's/.* //')
check 'the installed program runs' gives "rumpadol $version" "$prefix/bin/rumpadol" --version
check 'iso_cli is installed' cmp "$iso_cli" "$prefix/bin/iso_cli"
for table in tables/*.json; do
    check "$table is installed and good" "$prefix/bin/rumpadol" table check "$prefix/share/rumpadol/$table"
done

# the pages
"$prefix/bin/rumpadol" --help | jobs_in > "$folder/jobs"
check 'the help has jobs' grep -q explain "$folder/jobs"
if has man && has groff && has lexgrog && has col; then
    for page in "$prefix"/share/man/man1/*.1; do
        check "$(basename "$page")" page_is_good "$page"
    done
    while read -r job; do
        check "each option of $job has a place on its page" page_has_options "$job"
    done < "$folder/jobs"
fi

# the completions
mkdir "$folder/words"
: > "$folder/words/bank.json"
: > "$folder/words/READ ME"
check 'bash: rumpadol ta' gives 'table' in_bash ta
check 'bash: rumpadol explain --f' gives '--frames' in_bash explain --f
check 'bash: rumpadol explain --frames' gives 'binary2 ascii4 bcd2' in_bash explain --frames ''
check 'bash: rumpadol explain --frames=as' gives 'ascii4' in_bash explain --frames = as
check 'bash: rumpadol convert ascii87 b' gives 'bcd87 bank.json' in_bash convert ascii87 b
check 'bash: rumpadol explain ascii87 READ' gives 'READ ME' in_bash explain --skip 5 ascii87 READ
check 'bash: rumpadol host --links b' gives 'bank.json' in_bash host --links b
check 'bash: rumpadol host --peers' gives '' in_bash host --peers ''
for job in table journal; do
    words=$("$prefix/bin/rumpadol" "$job" --help | jobs_in | tr '\n' ' ')
    check "bash: rumpadol $job" gives "${words}help" in_bash "$job" ''
    check "bash: rumpadol help $job" gives "${words% }" in_bash help "$job" ''
done
check 'bash: rumpadol' gives "$(tr '\n' ' ' < "$folder/jobs")help" in_bash ''
has zsh && check 'zsh reads its completion' is_silent zsh -f -n "$prefix/share/zsh/site-functions/_rumpadol"
if has fish; then
    check 'fish reads its completion' is_silent fish --no-config -n "$prefix/share/fish/vendor_completions.d/rumpadol.fish"
    check 'fish: rumpadol ta' gives 'table ' in_fish 'rumpadol ta'
    check 'fish: rumpadol explain --f' gives '--frames ' in_fish 'rumpadol explain --f'
    check 'fish: rumpadol explain --frames' gives 'ascii4 bcd2 binary2 ' in_fish 'rumpadol explain --frames '
    words=$("$prefix/bin/rumpadol" table --help | jobs_in | sort | tr '\n' ' ')
    check 'fish: rumpadol table help' gives "$words" in_fish 'rumpadol table help '
fi

# the library
shared=$prefix/lib/librumpadol.so.$version
check 'the shared library exports what the header declares' exports_the_header "$shared"
check 'the name of the shared library' gives "librumpadol.so.${version%%.*}" soname "$shared"
check 'the links to the shared library' cmp "$shared" "$prefix/lib/librumpadol.so"
printf '#include <rumpadol.h>\n' > "$folder/alone.c"
check 'the header as C99' is_silent headed -std=c99
check 'the header as C++' is_silent headed -x c++ -std=c++11
if has pkg-config; then
    check 'the version of pkg-config' gives "$version" config --modversion rumpadol
    check 'the shared library by pkg-config' compile cc examples/c/decode.c "$folder/shared"
    check 'the program wants the shared library' is_linked "$folder/shared"
    check 'decode.c with the shared library' writes examples/expected/decode examples/c/payment.hex \
        env LD_LIBRARY_PATH="$prefix/lib" "$folder/shared" ascii87
    check 'examples/c/Makefile' writes examples/expected/decode /dev/null \
        env PKG_CONFIG_PATH="$prefix/lib/pkgconfig" LD_LIBRARY_PATH="$prefix/lib" make -s -C examples/c run OUT="$folder/out"
    check 'the archive by pkg-config' compile cc examples/c/decode.c "$folder/static" -Wl,-Bstatic
    check "the program doesn't want the shared library" isnt is_linked "$folder/static"
    check 'decode.c with the archive' writes examples/expected/decode examples/c/payment.hex "$folder/static" ascii87
    check 'c-calls.c by pkg-config' compile cc scripts/c-calls.c "$folder/calls"
    check 'c-calls.c with the shared library' writes examples/expected/c-calls /dev/null \
        env LD_LIBRARY_PATH="$prefix/lib" "$folder/calls"
    check 'c-random.c by pkg-config' compile cc scripts/c-random.c "$folder/random"
    has valgrind && under='valgrind -q --leak-check=full --error-exitcode=9' || under=
    # shellcheck disable=SC2086
    check 'c-random.c with the shared library' env LD_LIBRARY_PATH="$prefix/lib" $under "$folder/random"
    has man && check 'what docs/INSTALL.md shows' shown docs/INSTALL.md
    check 'what docs/C.md shows' shown docs/C.md
fi

# the Python package, at the installed library, and at the one beside the program
python() {
    scripts/python-check.sh "$shared" > "$folder/python"
    status=$?
    grep '^LEFT OUT \|a second' "$folder/python" >> "$folder/later"
    [ "$status" -eq 0 ] || cat "$folder/python"
    return "$status"
}
beside() {
    PATH=$prefix/bin:$PATH PYTHONPATH=python PYTHONDONTWRITEBYTECODE=1 python3 -c \
        'from rumpadol import _library; print(_library.library._name)'
}
: > "$folder/later"
check 'the Python package' python
cat "$folder/later"
check 'Python finds the library beside the program' gives "$prefix/lib/librumpadol.so.1" beside

# the same twice, and out again: what isn't of the installation stays
check 'make install again' made install PREFIX="$prefix"
: > "$prefix/bin/another"
files_in "$prefix" | grep -v bin/another > "$folder/installed"
check 'make uninstall' made uninstall PREFIX="$prefix"
check 'what was there stays' gives './bin/another' files_in "$prefix"
rm -r "$folder/there"
check 'make install with DESTDIR' made install DESTDIR="$folder/root" PREFIX=/usr/elsewhere
files_in "$folder/root/usr/elsewhere" > "$folder/others"
check 'it installs the same files' diff "$folder/installed" "$folder/others"
check 'no file tells of DESTDIR' isnt grep -r "$folder" "$folder/root" --include='*.pc' --include=installed
check 'make uninstall with DESTDIR' made uninstall DESTDIR="$folder/root" PREFIX=/usr/elsewhere
check 'make uninstall leaves nothing' gives "$folder/root" find "$folder/root"

# Debian's package
if has dpkg-deb && has dpkg-shlibdeps; then
    check 'make deb' env LEVEL=0 scripts/install-deb.sh "$rumpadol" "$iso_cli" "$library" "$folder"
    package=$(echo "$folder"/rumpadol_*.deb)
    check 'the package and the program have one version' gives "$version" dpkg-deb -f "$package" Version
    check 'the package is unpacked' dpkg-deb -x "$package" "$folder/deb"
    check 'its control files are unpacked' dpkg-deb -e "$package" "$folder/control"
    check 'its sums' env -C "$folder/deb" md5sum --quiet -c "$folder/control/md5sums"
    check 'its program runs' gives "rumpadol $version" "$folder/deb/usr/bin/rumpadol" --version
    check 'its library exports what the header declares' exports_the_header \
        "$folder/deb/usr/lib/$(dpkg-architecture -qDEB_HOST_MULTIARCH)/librumpadol.so.1"
    has lintian && check 'lintian' is_silent lintian --allow-root --tag-display-limit 0 "$package"
fi

echo "install-check: $passed passed, $failed failed"
[ "$failed" -eq 0 ]
