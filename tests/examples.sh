#!/usr/bin/env bash
# The captures of examples/: each text assembles to its trace and comes back, the program and `explain` answer what is written
# down. Then the assembler's messages, the explaining by itself, and 2,000 random byte strings to text and back from a printed seed.
set -u
PROGRAM=${PROGRAM:-crates/judge_trace/out/judge_trace}
out=target/examples
failed=0 checks=0

if ! [ -x "$PROGRAM" ]; then
    echo "examples: there is no $PROGRAM"
    exit 1
fi
mkdir -p "$out/random" || exit 1
tools/compile text && tools/compile explain && tools/compile text/round_trip || exit 1

check() { # NAME COMMAND...: the command succeeds
    local name=$1
    shift
    checks=$((checks + 1))
    "$@" && return
    failed=$((failed + 1))
    echo "examples: $name: FAILED"
}

same() { # FILE COMMAND...: the command writes what the file has, and succeeds
    local file=$1
    shift
    "$@" >"$out/written" && diff "$file" "$out/written"
}

says() { # STATUS TEXT COMMAND...: the command ends with that status and writes a line with that text
    local status=$1 text=$2
    shift 2
    "$@" >"$out/written" 2>&1
    [ $? -eq "$status" ] && grep -qF -- "$text" "$out/written" && return
    echo "examples: '$text' and status $status expected, and not"
    cat "$out/written"
    return 1
}

run_program() { # TRACE
    "$PROGRAM" <"$1"
}

# The trace of 14 is not kept, being so long.
capture() { # TEXT
    local base=${1%.txt} trace=$out/trace
    ./buttmitrel assemble "$1" >"$trace" || return 1
    [ "$base" = examples/refused/14_too_long ] || cmp "$trace" "$base.trace" || return 1
    ./buttmitrel disassemble "$trace" >"$out/text" || return 1
    same "$trace" ./buttmitrel assemble "$out/text" || return 1
    same "$base.answer" run_program "$trace" && same "$base.explain" target/tools/explain "$trace" "$base.answer"
}

for text in examples/*.txt examples/refused/*.txt; do
    check "$text" capture "$text"
done
captures=(examples/*.txt)
check "captures: all six" [ "${#captures[@]}" -eq 6 ]
numbers=$(cat examples/refused/*.answer | awk '{ print $2 }' | sort -n | tr '\n' ' ')
check "refusals: 1 to 11 and 14" [ "$numbers" = "1 2 3 4 5 6 7 8 9 10 11 14 " ]

refuses() { # TEXT MESSAGE
    printf '%b' "$1" >"$out/text"
    check "$1" says 2 "$2" ./buttmitrel assemble "$out/text"
}
refuses 'cells 3\n\ncels 4' "line 3: 'cels' begins no line"
refuses '# no head\nhole 3' "line 2: the text ends with no line 'cells'"
refuses 'cells 256' "line 1: cells 256 is outside 0 to 255"
refuses 'cells 3\ncells 3' "line 2: cells was given before"
refuses 'cells 3\nrule COW threshold 1 time 1' "line 2: there is no rule 'COW'"
refuses 'rule COV threshold 1 time 1\nrule 0 threshold 1 time 1' "line 2: rule COV was given before"
refuses 'rule COV threshold 4200 recovery 4100' "line 1: 'time' is missing"
refuses 'hole 3..x' "line 1: tick 'x' is not a whole number"
refuses 'hole 4294967296' "line 1: tick 4294967296 is outside 0 to 4294967295"
refuses 'reply 3 16 09 17 00 00' "line 1: a reply has 6 bytes and not 5"
refuses 'reply 3 16 09 17 00 00 1g' "line 1: '1g' is not a byte of two hex digits"
refuses 'reply 3 Curent 5' "line 1: 'Curent' is neither a command's name nor a byte"
refuses 'sample 0 current 0 board 0 volts 1 temps 1' "line 1: a sample needs a line 'cells' before it"
refuses 'cells 3\nsample 0 current 0 board 0 volts 1 2 temps 1' "line 2: 2 volts for 3 cells"
refuses 'cells 3\nsample 0 current 0..9 board 0 volts 1 temps 1' "line 2: a reading that moves needs more than one tick"
refuses 'cells 3\nsample 5..4 current 0 board 0 volts 1 temps 1' "line 2: the ticks 5..4 fall"
refuses 'cells 3\nsample 0..65535 current 0 board 0 volts 1 temps 1' "line 2: a trace has at most 65535 samples"
refuses 'cells 3\nbytes 00\nhole 3' "line 3: 'hole' after 'bytes'"

# What is explained follows what the program wrote, whatever that is.
explain_as() { # SED: of the first example, its answer changed
    sed "$1" examples/hidden_over_voltage.answer >"$out/answer"
    target/tools/explain examples/hidden_over_voltage.trace "$out/answer"
}
check "other flags" says 0 "COV (Cell Overvoltage): alert held, status clear" explain_as 's/^0202/0100/'
check "a rule that is off" says 0 "POV (Pack Overvoltage): alert held, status unknown" explain_as 's/^\(0202.\{36\}\)0000/\10102/'
check "other first tick" says 0 "first possible at tick 13 (0:00:13), first certain at tick 4112 (1:08:32)" \
    explain_as 's/^02020c000000ffffffff/02020d00000010100000/'
check "other verdict" says 0 "Voltage 12509 mV: differs from the sum of the sample's cells, 4159 + 4161 + 4189 mV" explain_as 's/^44/54/'
check "too few verdicts" says 1 "no answer to this trace" explain_as 's/^44/4/'
check "no answer" says 1 "no answer to this trace" explain_as d
check "a recorder's refusal" says 0 "What to do: drain the recorder and offer the same tick again" explain_as '1s/.*/refused 17 at 0/; 1q'

seed=${SEED:-$RANDOM}
echo "examples: seed $seed"
check "to text and back" target/tools/text_round_trip "$seed" 2000 "$out/random"
explains() { # TRACE
    run_program "$1" >"$out/answer" && target/tools/explain "$1" "$out/answer" >"$out/written" || return 1
    [ "$(head -c 7 "$out/answer")" = "$(head -c 7 "$out/written" | tr AR ar)" ]
}
for trace in "$out"/random/*.trace; do
    check "$trace" explains "$trace"
done

echo "examples: $checks checks, $failed failed"
[ "$failed" -eq 0 ]
