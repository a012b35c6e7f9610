#!/usr/bin/env bash
# The program that judges traces, and the plain judge beside it: traces with answers written down by hand from paper 01, then
# 3,000 random traces from a printed seed, on which both must write the same.
set -u
program=${PROGRAM:-crates/judge_trace/out/judge_trace}
plain=target/tools/cases_plain_judge
hand=target/judge_cases/hand
random=target/judge_cases/random

if ! [ -x "$program" ]; then
    echo "judge_cases: there is no $program"
    exit 1
fi
mkdir -p target/tools || exit 1
tools/compile cases/plain_judge && tools/compile cases || exit 1
target/tools/cases "$hand" || exit 1

show() { # NAME TRACE LEFT RIGHT: the trace in hex and two outputs
    echo "judge_cases: $1"
    od -An -v -tx1 "$2" | awk '{ gsub(/ /, ""); printf "%s", $0 } END { print "" }'
    awk '{ print "    " $0 }' "$3"
    awk 'BEGIN { print "and not" } { print "    " $0 }' "$4"
}

failed=0 cases=0
while read -r number name; do
    cases=$((cases + 1))
    for judge in "$program" "$plain"; do
        "$judge" <"$hand/$number.trace" >"$hand/out"
        if ! cmp -s "$hand/out" "$hand/$number.expect"; then
            failed=1
            show "$judge: $name" "$hand/$number.trace" "$hand/out" "$hand/$number.expect"
        fi
    done
done <"$hand/index"
echo "judge_cases: $cases cases"
[ "$cases" -gt 0 ] && [ "$failed" -eq 0 ] || exit 1

seed=${SEED:-$RANDOM}
echo "judge_cases: seed $seed"
target/tools/cases "$random" "$seed" 3000 || exit 1

for trace in "$random"/*.trace; do
    "$program" <"$trace"
    echo "$trace"
done >"$random/first"
"$plain" "$random"/*.trace >"$random/second"
if ! cmp -s "$random/first" "$random/second"; then
    for trace in "$random"/*.trace; do
        "$program" <"$trace" >"$random/first"
        "$plain" <"$trace" >"$random/second"
        cmp -s "$random/first" "$random/second" || break
    done
    show "$trace" "$trace" "$random/first" "$random/second"
    exit 1
fi
awk '$1 == "accepted" { yes++ } $1 == "refused" { no[$2]++ } END {
    text = "judge_cases: " yes + 0 " accepted"
    for (number = 1; number <= 14; number++) if (number in no) text = text ", " no[number] " refused " number
    print text
}' "$random/first"
