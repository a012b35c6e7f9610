#!/usr/bin/env bash
# The packet error code against a second implementation: the stored vectors, and 400 messages made from a printed seed.
set -eu
mkdir -p target/tools
tools/compile cases/crc8
second=target/tools/cases_crc8
first=crates/pec_vectors/out/pec_vectors
same() { # FILE: both programs write the same codes of its messages
    cmp <("$first" <"$1") <("$second" <"$1")
}

same crates/pec_vectors/stdin
cmp crates/pec_vectors/stdout <("$second" <crates/pec_vectors/stdin)

seed=${SEED:-$RANDOM}
echo "pec_vectors: seed $seed"
messages=$(mktemp)
trap 'rm -f "$messages"' EXIT
awk -v seed="$seed" 'BEGIN {
    srand(seed)
    for (line = 0; line < 400; line++) {
        text = ""
        for (left = int(rand() * 64); left > 0; left--) text = text sprintf("%02x", int(rand() * 256))
        print text
    }
}' >"$messages"
[ "$(wc -l <"$messages")" -eq 400 ]
same "$messages"
