#!/usr/bin/env bash
# What explain says as JSON, of the examples and of 400 generated traces from a printed seed: python3 parses it and compares every
# number with the bytes of trace and answer, every word with the text, and docs/JSON.md with both (tests/explain_json.py).
set -u
judge=${PROGRAM:-crates/judge_trace/out/judge_trace}
explain=target/tools/explain
second=target/tools/second
out=target/explain_json
seed=${SEED:-$RANDOM}

if ! [ -x "$judge" ]; then
    echo "explain_json: there is no $judge"
    exit 1
fi
if ! command -v python3 >/dev/null; then
    echo "explain_json: there is no python3"
    exit 1
fi
rm -rf "$out"
mkdir -p "$out" || exit 1
. tools/library.sh
second_program && tools/compile explain && tools/compile text || exit 1

add() { # NAME: what is said of $out/NAME.trace
    local base=$out/$1
    "$judge" <"$base.trace" >"$base.answer" && "$explain" --json "$base.trace" "$base.answer" >"$base.json" &&
        "$explain" "$base.trace" "$base.answer" >"$base.text" && return
    echo "explain_json: $base.trace: FAILED"
    exit 1
}

for text in examples/*.txt examples/refused/*.txt; do
    name=${text##*/}
    name=${name%.txt}
    target/tools/text assemble "$text" >"$out/$name.trace" || exit 1
    add "$name"
done
echo "explain_json: seed $seed"
for ((index = 0; index < 400; index++)); do
    "$second" trace "$seed" "$index" >"$out/$index.trace" || exit 1
    add "$index"
done
python3 tests/explain_json.py "$out" docs/JSON.md || exit 1

# An answer that is none, and a call that is none.
printf 'accepted\n%0374d\n7\n' 0 >"$out/none"
says() { # STATUS ARGUMENT...
    local status=$1
    shift
    "$explain" "$@" >"$out/said" 2>&1
    [ $? -eq "$status" ] && ! grep -q '^{' "$out/said" && return
    echo "explain_json: explain $*: status $status expected"
    exit 1
}
says 1 --json examples/hidden_over_voltage.trace "$out/none"
says 2 --json examples/hidden_over_voltage.trace
says 2 --json examples/hidden_over_voltage.trace "$out/missing"
