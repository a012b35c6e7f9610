#!/usr/bin/env bash
# The library for other programs: the examples in C and Rust compile against it and say of four captures, and of a short live feed,
# what is written down here. The numbers are those of examples/*.answer and examples/README.md; the live feed is the story of
# hidden_over_voltage with its hole at tick 3: two seconds over the threshold, the hole, then states 0 and 3 are possible. The fourth
# capture is what the recorder in C has just written, which is examples/recorder.trace. Of ten cells in C the numbers are worked out at
# the top of examples/c/cells.c.
set -u
out=target/c_library
failed=0

for command in cc cargo; do
    if ! command -v "$command" >/dev/null; then
        echo "c_library: there is no $command"
        exit 1
    fi
done
mkdir -p "$out" || exit 1
. tools/library.sh
library || exit 1
for name in judge recorder cells; do
    cc -std=c99 -pedantic -Wall -Wextra -Werror -I include -o "$out/${name}_c" "examples/c/$name.c" target/lib/libbuttmitrel.a || exit 1
done
CARGO_TARGET_DIR=$out/rust BUTTMITREL_LIB_DIR=$PWD/target/lib RUSTFLAGS='-D warnings' \
    cargo build --offline --quiet --manifest-path examples/rust/Cargo.toml && cp "$out/rust/debug/judge" "$out/judge_rust" || exit 1

says() { # EXPECTED ARGUMENT...: both programs write these lines
    local expected=$1 program
    shift
    for program in judge_c judge_rust; do
        printf '%s\n' "$expected" | diff - <("$out/$program" "$@") && continue
        echo "c_library: $program $*: FAILED"
        failed=1
    done
}

says 'accepted
C 0 D 0 fuse 0
net 3148500 to 3148500
verdicts 444444' examples/clean_charge.trace
says 'accepted
C 2 D 0 fuse 0
net -80304 to 116301
verdicts 44666' examples/hidden_over_voltage.trace
says 'refused 9 at 5' examples/refused/09_coverage.trace
says 'tick 3: alert 1 status 0
tick 7: alert 2 status 2
refused 9 at 7'

# The card: the seconds that found no room, the trace, and what is said of it.
"$out/recorder_c" >"$out/recorder.trace" 2>"$out/no_room" || {
    echo "c_library: the recorder ends with status $?"
    failed=1
}
printf 'tick %s: no room\n' 9 13 14 18 19 29 | diff - "$out/no_room" && cmp examples/recorder.trace "$out/recorder.trace" || {
    echo "c_library: the recorder writes something else: FAILED"
    failed=1
}
says 'accepted
C 2 D 0 fuse 0
net -263412 to 326403
verdicts ' "$out/recorder.trace"
[ "$(wc -l <examples/c/recorder.c)" -le 80 ] || {
    echo "c_library: examples/c/recorder.c has more than 80 lines"
    failed=1
}

# Ten cells, and what is refused.
printf '%s\n' 'highest 3620 mV, lowest 3587 mV, sum 36040 mV, difference 33 mV' '2 cells: refused 3 at 0' '13 cells: refused 3 at 0' |
    diff - <("$out/cells_c") || {
    echo "c_library: the C example of the cells writes something else: FAILED"
    failed=1
}

[ "$failed" -eq 0 ] && echo "c_library: C and Rust say what is written down of four captures, one of them the recorder's, a live feed and ten cells"
exit "$failed"
