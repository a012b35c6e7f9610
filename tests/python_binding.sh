#!/usr/bin/env bash
# The Python binding (bindings/python) over the shared library: its tests against the examples' answers.
set -u
out=target/python_binding

if ! command -v python3 >/dev/null; then
    echo "python_binding: there is no python3"
    exit 1
fi
mkdir -p "$out" || exit 1
. tools/library.sh
library || exit 1

if ! BUTTMITREL_LIBRARY=$PWD/target/lib/libbuttmitrel.so python3 -B -W error bindings/python/test_buttmitrel.py >"$out/log" 2>&1 ||
    ! grep -q '^Ran [1-9][0-9]* tests' "$out/log"; then
    cat "$out/log"
    exit 1
fi
awk '/^Ran / { print "python_binding: " $2 " tests, " v }' v="$(python3 --version)" "$out/log"
