#!/usr/bin/env bash
# docs/FORMAT.md: its examples are judged, the calls of its recorder carried out, and its tables compared with the code.
set -u
cd "$(dirname "$0")/.." || exit 1
program=${PROGRAM:-crates/judge_trace/out/judge_trace}

if ! [ -x "$program" ]; then
    echo "format: there is no $program"
    exit 1
fi
if ! command -v python3 >/dev/null; then
    echo "format: there is no python3"
    exit 1
fi
. tools/library.sh
library || exit 1
export BUTTMITREL_LIBRARY=$PWD/target/lib/libbuttmitrel.so
exec python3 -B tests/format.py "$program" "${DOCUMENT:-docs/FORMAT.md}"
