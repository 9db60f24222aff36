#!/bin/sh
# Installs the programs that the tests, the rows and the pages use and that aren't here: Debian's packages, by apt-get, as root or
# by sudo. Does nothing where all are here. Names each program that is missing then, and ends with status 1 if one is.
set -u
cd "$(dirname "$0")/.." || exit 1

# what the scripts and the examples call, and the modules of the system's Python, beside what every Debian has, and what the pages name behind 'console' ('built' is no program)
programs="make python3 xxd cc clang valgrind systemd-analyze etcd curl haproxy chromium chromedriver man lexgrog groff col pkg-config fish zsh lintian dpkg-shlibdeps ar
mypy go gofmt javac java tshark text2pcap $(sed -n 's/^```console//p' README.md docs/*.md | sed 's/\<built\>//')"

missing() {
    {
        for program in $programs; do
            command -v "$program" > /dev/null || echo "$program"
        done
        for module in pip setuptools wheel; do
            /usr/bin/python3 -c "import $module" 2> /dev/null || echo "python3-$module"
        done
    } | sort -u
}

# PROGRAM: Debian's packages that have it
packages() {
    case $1 in
        cc) echo gcc libc6-dev ;;
        clang) echo clang libc6-dev ;;
        valgrind) echo valgrind libc6-dbg ;;
        text2pcap) echo wireshark-common ;;
        systemd-analyze) echo systemd ;;
        etcd) echo etcd-server ;;
        chromedriver) echo chromium-driver ;;
        man | lexgrog) echo man-db ;;
        col) echo bsdextrautils ;;
        dpkg-shlibdeps) echo dpkg-dev ;;
        ar) echo binutils ;;
        go | gofmt) echo golang-go ;;
        javac | java) echo openjdk-17-jdk-headless ;;
        *) echo "$1" ;;
    esac
}

# WORD ..: apt-get as root
apt() {
    set -- env DEBIAN_FRONTEND=noninteractive apt-get -q -y "$@"
    [ "$(id -u)" -eq 0 ] || set -- sudo -n "$@"
    "$@"
}

wanted=$(missing)
[ -n "$wanted" ] || exit 0

told=$(mktemp) || exit 1
trap 'rm -f "$told"' EXIT
trap 'exit 1' HUP INT TERM
apt update > "$told" 2>&1
# all at once, and then one by one what a package that isn't to be had has kept out
# shellcheck disable=SC2046
apt install --no-install-recommends $(for program in $wanted; do packages "$program"; done) >> "$told" 2>&1
for program in $(missing); do
    # shellcheck disable=SC2046
    apt install --no-install-recommends $(packages "$program") >> "$told" 2>&1
done

wanted=$(missing)
[ -n "$wanted" ] || exit 0
tail -n 5 "$told" >&2
for program in $wanted; do
    echo "install-tools.sh: there is no program $program, and it can't be installed" >&2
done
exit 1
