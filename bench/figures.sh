#!/bin/sh
# Shows what a script of this folder prints, and makes tables of it: figures.sh SUBJECT PAGE SCRIPT WORD ..
# They are also written to PAGE, unless it is empty.
set -eu
cd "$(dirname "$0")/.."

subject=$1 page=$2
shift 2
folder=$(mktemp -d)
trap 'rm -rf "$folder"' EXIT
trap 'exit 1' HUP INT TERM

{ "$@" || echo "$?" > "$folder/failed"; } | tee "$folder/told"
[ ! -e "$folder/failed" ] || exit 1
python3 -B bench/page.py "$subject" "$folder/told" ${page:+"$page"}
