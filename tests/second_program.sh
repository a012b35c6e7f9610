#!/usr/bin/env bash
# The second program (tools/second), written from the papers alone: its fast form against its slow one, and both against the proved
# program and the proved library, on traces, on a recorder's calls and on lists of voltages from a printed seed. SEED, SLOW_TRACES,
# TRACES, HISTORIES and LISTS choose them.
set -eu
program=crates/judge_trace/out/judge_trace
tool=target/tools/second
seed=${SEED:-$RANDOM}

if ! [ -x "$program" ]; then
    echo "second_program: there is no $program"
    exit 1
fi
. tools/library.sh
second_program

echo "second_program: seed $seed"
"$tool" cases
"$tool" slow "$seed" "${SLOW_TRACES:-4000}"
"$tool" sweep "$program"
"$tool" compare "$seed" "${TRACES:-10000}" "$program"
"$tool" recorder "$seed" "${HISTORIES:-5000}"
"$tool" cells "$seed" "${LISTS:-10000}"
