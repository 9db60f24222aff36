#!/bin/sh
# Checks the module of go/ against a library that is installed under PREFIX: gofmt, go vet, its tests, and the example of
# docs/GO.md, in a module of its own. The last line is 'go-check: N passed, M failed': go-check.sh PREFIX
set -u
top=$(cd "$(dirname "$0")/.." && pwd)
[ $# -eq 1 ] || { echo 'go-check.sh: write where the library is installed: go-check.sh PREFIX' >&2; exit 2; }
prefix=$(cd "$1" && pwd) || exit 2

for program in go gofmt cc pkg-config; do
    command -v "$program" > /dev/null || {
        echo "LEFT OUT go-check.sh: there is no program $program"
        echo 'go-check: 0 passed, 0 failed'
        exit
    }
done
folder=$(mktemp -d)
trap 'rm -rf "$folder"' EXIT
trap 'exit 1' HUP INT TERM
passed=0
failed=0

# nothing is asked of a network, and the library is the installed one alone
export GOPROXY=off GOFLAGS=-mod=mod GOWORK=off CGO_ENABLED=1
export PKG_CONFIG_PATH="$prefix/lib/pkgconfig" LD_LIBRARY_PATH="$prefix/lib"
[ -n "${HOME:-}${GOCACHE:-}" ] || export GOCACHE="$folder/cache"

# NAME STATUS: counts a step
count() {
    if [ "$2" -eq 0 ]; then
        passed=$((passed + 1))
    else
        failed=$((failed + 1))
        echo "FAILED go-check: $1"
        cat "$folder/told"
    fi
}

cd "$top/go" || exit 1
gofmt -l . > "$folder/told" 2>&1 && [ ! -s "$folder/told" ]
count gofmt $?

go vet ./... > "$folder/told" 2>&1
count 'go vet' $?

# each test and each row counts; a run that ends early or skips has failed
go test -count=1 -v ./... > "$folder/told" 2>&1
status=$?
grep -q -e '--- SKIP' -e '--- FAIL' "$folder/told" && status=1
passed=$((passed + $(grep -c -e '--- PASS' "$folder/told")))
count 'go test' "$status"

# WORD: the block of the page that begins with it
block() {
    awk -v begin="\`\`\`$1" '$0 == begin { shown = 1; next } /^```/ { shown = 0 } shown' "$top/docs/GO.md"
}

# the page's example, as a module of somebody else's
mkdir "$folder/example"
cd "$folder/example" || exit 1
block go > main.go
block text > "$folder/wanted"
{
    go mod init example && go mod edit -require rumpadol@v0.0.0 -replace "rumpadol=$top/go" && go run . > "$folder/lines"
} > "$folder/told" 2>&1
status=$?
[ -s "$folder/wanted" ] && diff "$folder/wanted" "$folder/lines" >> "$folder/told" 2>&1 || status=1
[ -z "$(gofmt -l .)" ] || status=1
count 'the example of docs/GO.md' "$status"

echo "go-check: $passed passed, $failed failed"
[ "$failed" -eq 0 ]
