#!/bin/sh
# Runs the tests of the Python package at a library for C, looks at its types where mypy is installed, installs it without a network
# and uses it from there as docs/PYTHON.md shows, and tells how fast it is. Its last line is 'python: N passed, M failed':
# python-check.sh LIBRARY
set -u
library=$(realpath "$1")
cd "$(dirname "$0")/.." || exit 1

folder=$(mktemp -d)
trap 'rm -rf "$folder"' EXIT
trap 'exit 1' HUP INT TERM
export RUMPADOL_LIBRARY="$library" PYTHONDONTWRITEBYTECODE=1
passed=0
failed=0

# NAME COMMAND ..: whether it ends well; what it told is shown if not
check() {
    name=$1
    shift
    if "$@" > "$folder/told" 2>&1; then
        passed=$((passed + 1))
    else
        failed=$((failed + 1))
        echo "FAILED python: $name"
        cat "$folder/told"
    fi
}

# PYTHON: whether it can install packages without a network
installs() {
    command -v "$1" > /dev/null || return 1
    for module in pip setuptools wheel; do
        "$1" -c "import $module" 2> /dev/null || return 1
    done
}

# PYTHON: the lines of docs/PYTHON.md, where the package is installed
# shellcheck disable=SC2016
shown() {
    sed -n '/^```python$/,/^```$/p' docs/PYTHON.md | sed '1d;$d' > "$folder/shown.py"
    sed '1,/^```python$/d' docs/PYTHON.md | sed '1,/^```$/d' | sed -n '/^```$/,/^```$/p' | sed '1d;/^```$/,$d' > "$folder/wanted"
    [ -s "$folder/shown.py" ] && [ -s "$folder/wanted" ] || return 1
    (cd "$folder" && PYTHONPATH="$folder/site" "$1" shown.py) > "$folder/shown" || return 1
    diff "$folder/wanted" "$folder/shown"
}

(cd python && python3 -m unittest tests.test_rumpadol) > "$folder/tests" 2>&1
status=$?
count=$(sed -n 's/^Ran \([0-9]*\) tests\{0,1\} in .*/\1/p' "$folder/tests")
if [ "$status" -eq 0 ] && [ "${count:-0}" -gt 0 ]; then
    passed=$((passed + count))
else
    failed=$((failed + 1))
    echo "FAILED python: the tests ended with status $status"
    cat "$folder/tests"
fi

if command -v mypy > /dev/null; then
    check 'the types' mypy --strict --cache-dir "$folder/types" python/rumpadol
else
    echo "LEFT OUT the types of the Python package: there is no program mypy"
fi

# pip builds beside the sources, so a copy of them is installed
cp -r python "$folder/python"
for one in python3 /usr/bin/python3 none; do
    [ "$one" != none ] || break
    installs "$one" || continue
    check 'pip installs the package' "$one" -m pip install -q --no-build-isolation --no-index --no-deps --root-user-action ignore \
        --disable-pip-version-check --target "$folder/site" "$folder/python"
    check 'what docs/PYTHON.md shows' shown "$one"
    check 'the types are installed' test -f "$folder/site/rumpadol/py.typed"
    break
done
[ "$one" != none ] || echo "LEFT OUT pip for the Python package: no Python has pip, setuptools and wheel"

(cd python && python3 -m rumpadol.bench 1)
echo "python: $passed passed, $failed failed"
[ "$failed" -eq 0 ]
