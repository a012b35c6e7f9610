#!/usr/bin/env bash
# The live feed against the judge: the examples, 400 generated traces, and one long feed of random samples and holes cut at
# eight lengths, from a printed seed. What the judge refuses the feed refuses with the same line; what it accepts has the same
# report, where the feed has ff for every first tick and no verdicts.
set -u
judge=${PROGRAM:-crates/judge_trace/out/judge_trace}
feed=${FEED:-crates/feed_trace/out/feed_trace}
second=target/tools/second
out=target/feed
seed=${SEED:-$RANDOM}

for program in "$judge" "$feed"; do
    [ -x "$program" ] && continue
    echo "feed: there is no $program"
    exit 1
done
mkdir -p "$out" || exit 1

# The generator of tests/second_program.sh.
. tools/library.sh
second_program || exit 1

# What the feed writes where the judge writes this.
as_fed() {
    awk '
        NR == 1 { print; fed = $0 == "accepted" }
        NR == 2 && fed {
            for (rule = 0; rule < 16; rule++) printf "%sffffffffffffffff", substr($0, 20 * rule + 1, 4)
            print substr($0, 321)
        }
        NR > 1 && !fed'
}

# Samples and holes of one to three ticks in random order, with readings about the thresholds, up to so many bytes.
long_feed() { # BYTES
    awk -v seed="$seed" -v most="$1" '
        function pick(low, high) { return low + int(rand() * (high - low + 1)) }
        BEGIN {
            srand(seed)
            tick = 0
            print "cells 3\nidle 50"
            print "rule 0 threshold 4200 recovery 4100 time 3\nrule 1 threshold 3000 recovery 3100 time 5"
            print "rule 3 threshold 9600 recovery 9900 time 40\nrule 5 threshold -2000 recovery -1000 time 2"
            print "rule 6 threshold 450 recovery 400 time 4\nrule 8 threshold 600 recovery 500 time 3"
            print "rule 10 threshold 4390 time 6\nrule 15 threshold 1390 time 9"
            for (bytes = 172; bytes < most; ) {
                if (rand() < 0.3) {
                    last = tick + pick(0, 2)
                    print "hole " tick ".." last
                    tick = last + 1
                    bytes += 8
                } else {
                    hot = pick(350, 500)
                    print "sample " tick++ " current " pick(-3000, 3000) " board " pick(450, 650) \
                        " volts " pick(2900, 4400) " " pick(3000, 4300) " " pick(3000, 4300) " temps " hot " " hot " " hot
                    bytes += 20
                }
            }
        }'
}

accepted=0 refused=0
compare() { # NAME TRACE
    "$judge" <"$2" | as_fed >"$out/judged"
    "$feed" <"$2" >"$out/fed"
    if ! cmp -s "$out/judged" "$out/fed"; then
        cp "$2" "$out/failed.trace"
        echo "feed: $1, kept as $out/failed.trace: '<' the judge, '>' the feed"
        diff "$out/judged" "$out/fed"
        exit 1
    fi
    case $(head -n 1 "$out/fed") in
    accepted) accepted=$((accepted + 1)) ;;
    refused*) refused=$((refused + 1)) ;;
    *)
        echo "feed: $1: neither accepted nor refused"
        exit 1
        ;;
    esac
}

for trace in examples/*.trace; do
    compare "$trace" "$trace"
done

echo "feed: seed $seed"
for ((index = 0; index < 400; index++)); do
    "$second" trace "$seed" "$index" >"$out/trace" || exit 1
    compare "trace $index of seed $seed" "$out/trace"
done

for bytes in 500 1000 2000 4000 8000 16000 32000 65000; do
    long_feed "$bytes" | ./buttmitrel assemble >"$out/long.trace" || exit 1
    compare "the long feed of seed $seed up to $bytes bytes" "$out/long.trace"
    [ "$(head -n 1 "$out/fed")" = accepted ] && [ "$(wc -c <"$out/long.trace")" -ge "$bytes" ] && continue
    echo "feed: the long feed of seed $seed up to $bytes bytes was not accepted whole"
    exit 1
done

echo "feed: $accepted accepted, $refused refused"
[ "$accepted" -ge 50 ] && [ "$refused" -ge 20 ]
