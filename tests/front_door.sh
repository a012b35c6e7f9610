#!/usr/bin/env bash
# The command ./buttmitrel: what each verb answers and with what status, its one-line messages, several files, names of every kind, calls
# from another folder and through links, and the examples of its help, which are run. It works outside the repository, where rt ci refuses
# links.
set -u
root=$PWD
door=$root/buttmitrel
checks=0 failed=0

out=$(mktemp -d) || exit 1
trap 'rm -rf "$out"' EXIT
mkdir -p "$out/elsewhere" "$out/folder" "$out/home" || exit 1
cp examples/*.trace examples/*.answer examples/refused/09_coverage.* "$out"
cd "$out" || exit 1

bad() { # MESSAGE
    failed=$((failed + 1))
    echo "front_door: $1"
}

# Runs a command; what it writes goes to `written` and `said`, its status to `status`.
run() { # COMMAND...
    checks=$((checks + 1))
    "$@" >"$out/written" 2>"$out/said"
    status=$?
}

gives() { # STATUS FILE COMMAND...: the command ends with the status, writes what the file has, and says nothing beside it
    local expected=$1 file=$2
    shift 2
    run "$@"
    [ "$status" -eq "$expected" ] && cmp -s "$file" "$out/written" && [ ! -s "$out/said" ] && return
    bad "$*: status $status and not $expected, or not what $file has"
    diff "$file" "$out/written" | head -n 5
    cat "$out/said"
}

complains() { # TEXT COMMAND...: status 2, nothing written, and one line on standard error that has the text
    local text=$1
    shift
    run "$@"
    [ "$status" -eq 2 ] && [ ! -s "$out/written" ] && [ "$(wc -l <"$out/said")" -eq 1 ] && grep -qF -- "$text" "$out/said" && return
    bad "$*: status $status and not 2, or not one line with: $text"
    cat "$out/said"
}

# Each verb.
for name in clean_charge e_bike_trip hidden_over_voltage latched_fuse overnight_bench recorder; do
    gives 0 $name.answer "$door" judge $name.trace
    gives 0 "$root/examples/$name.explain" "$door" explain $name.trace
    gives 0 $name.trace "$door" assemble "$root/examples/$name.txt"
    "$door" disassemble $name.trace >text
    gives 0 $name.trace "$door" assemble text
    "$root/crates/records/out/records" <$name.trace >records
    gives 0 records "$door" records $name.trace
    "$root/crates/feed_trace/out/feed_trace" <$name.trace >fed
    gives 0 fed "$door" feed $name.trace
done
gives 1 09_coverage.answer "$door" judge 09_coverage.trace
gives 1 09_coverage.answer "$door" feed 09_coverage.trace
gives 1 "$root/examples/refused/09_coverage.explain" "$door" explain 09_coverage.trace
echo 'refused 1 at 0' >refusal
gives 1 refusal "$door" records "$root/examples/refused/01_short.trace"
echo 'refused 14 at 0' >refusal
"$door" assemble "$root/examples/refused/14_too_long.txt" >too_long.trace
gives 1 refusal "$door" judge too_long.trace
"$root/target/tools/explain" --json clean_charge.trace clean_charge.answer >json
gives 0 json "$door" explain --json clean_charge.trace
printf 'buttmitrel %s\ntoolchain %s\n' "$(cat "$root/VERSION")" "$(rt version)" >version
gives 0 version "$door" version
gives 0 version "$door" --version

# Output that goes nowhere.
to() { # FILE COMMAND...
    "${@:2}" >"$1"
}
closed() { # COMMAND...
    "$@" >&-
}
for words in 'judge clean_charge.trace' 'explain clean_charge.trace' 'disassemble clean_charge.trace' help 'help judge' version; do
    complains 'look at where standard output goes' to /dev/full "$door" $words
    complains 'standard output is closed' closed "$door" $words
done

# Standard input, and names of every kind.
mkdir dash
cp clean_charge.trace dash/-
run eval 'cd dash && "$door" explain <../09_coverage.trace'
cd "$out" || exit 1
[ "$status" -eq 1 ] && cmp -s written "$root/examples/refused/09_coverage.explain" || bad "a file named - is explained in place of standard input"
gives 0 clean_charge.answer "$door" judge <clean_charge.trace
gives 0 clean_charge.answer "$door" judge - <clean_charge.trace
gives 1 09_coverage.answer "$door" feed < <(cat 09_coverage.trace)
gives 0 "$root/examples/clean_charge.explain" "$door" explain < <(cat clean_charge.trace)
gives 0 clean_charge.trace "$door" assemble - <"$root/examples/clean_charge.txt"
gives 0 clean_charge.answer "$door" judge <(cat clean_charge.trace)
for name in 'two words.trace' -dash.trace --json '*' $'two\nrefused 1 at 0'; do
    cp clean_charge.trace "./$name"
    cp "$root/examples/clean_charge.txt" "./$name.txt"
    gives 0 clean_charge.answer "$door" judge -- "$name"
    gives 0 "$root/examples/clean_charge.explain" "$door" explain -- "$name"
    gives 0 clean_charge.trace "$door" assemble -- "$name.txt"
done

# Several files: each answer behind the file's name, and the worst status.
behind_names() { # NAME ANSWER...
    while [ $# -gt 0 ]; do
        printf '==> %s <==\n' "$1"
        cat "$2"
        shift 2
    done >several
}
line=$'two\nrefused 1 at 0'
behind_names clean_charge.trace clean_charge.answer 'two words.trace' clean_charge.answer "$line" clean_charge.answer
gives 0 several "$door" judge clean_charge.trace 'two words.trace' "$line"
behind_names 09_coverage.trace 09_coverage.answer 'standard input' clean_charge.answer
gives 1 several "$door" judge 09_coverage.trace - <clean_charge.trace
behind_names 09_coverage.trace "$root/examples/refused/09_coverage.explain" clean_charge.trace "$root/examples/clean_charge.explain"
gives 1 several "$door" explain 09_coverage.trace clean_charge.trace
behind_names 09_coverage.trace 09_coverage.answer clean_charge.trace clean_charge.answer
run "$door" judge missing 09_coverage.trace folder clean_charge.trace
[ "$status" -eq 2 ] && cmp -s several written && [ "$(wc -l <said)" -eq 2 ] || bad "a missing file and a folder too: status $status"

# A thousand captures in one call take at most twice the time of the program alone on them.
microseconds() { # COMMAND...: the least of three runs
    local begun took least=''
    for _ in 1 2 3; do
        begun=${EPOCHREALTIME/[.,]/}
        "$@" >written
        took=$((${EPOCHREALTIME/[.,]/} - begun))
        if [ -z "$least" ] || [ "$took" -lt "$least" ]; then least=$took; fi
    done
    echo "$least"
}
alone() {
    local trace
    for trace in "${thousand[@]}"; do "$root/crates/judge_trace/out/judge_trace" <"$trace"; done
}
thousand=()
while [ "${#thousand[@]}" -lt 1000 ]; do
    thousand+=(clean_charge.trace e_bike_trip.trace hidden_over_voltage.trace latched_fuse.trace overnight_bench.trace)
done
program=$(microseconds alone) command=$(microseconds "$door" judge "${thousand[@]}")
echo "front_door: a thousand captures: the program alone $((program / 1000)) ms, one call $((command / 1000)) ms"
[ "$command" -le $((2 * program)) ] || bad "a thousand captures take more than twice the program's time"

# What can't be carried out.
for verb in judge explain records feed assemble disassemble; do
    complains "there is no 'missing'" "$door" $verb missing
    complains "there is no ''" "$door" $verb ''
    complains "'folder' is a folder" "$door" $verb folder
    complains "standard input is a folder" "$door" $verb <folder
    complains "standard input is closed" "$door" $verb <&-
    complains "there is no option '--jsn'" "$door" $verb --jsn clean_charge.trace
done
if [ "$(id -u)" -ne 0 ]; then
    touch closed && chmod 000 closed
    complains "'closed' can't be read" "$door" judge closed
else
    echo "front_door: root reads every file, so the unreadable one was left out"
fi
complains "name a verb" "$door"
complains "name a verb" "$door" ''
complains "there is no verb 'jugde'" "$door" jugde clean_charge.trace
complains "there is no verb 'jugde'" "$door" help jugde
complains "it takes one file" "$door" assemble text missing
complains "there is no \$'two\\nlines'" "$door" judge $'two\nlines'
complains "it takes no words" "$door" version now
complains "it takes no words" "$door" bench now
complains "usage:" "$door" install --prefix
complains "usage:" "$door" install here
complains "can't be written" "$door" install --prefix text/below
complains "it takes one verb" "$door" help judge feed
echo 'cels 3' >wrong
complains "line 1: 'cels' begins no line" "$door" assemble wrong
for verb in judge explain disassemble; do
    run bash -c '"$@" >/dev/full' bash "$door" $verb clean_charge.trace
    [ "$status" -eq 2 ] || bad "$verb onto a full disk: status $status"
done

# From another folder, by another name, and by the short form.
cd elsewhere || exit 1
up=$(realpath --relative-to=. "$root")
ln -s "$up/buttmitrel" link
ln -s "$up/judge" short
for command in ./short "$up/judge" "$root/judge"; do
    gives 0 ../clean_charge.answer "$command" ../clean_charge.trace
done
for command in ./link "$up/buttmitrel"; do
    gives 0 ../clean_charge.answer "$command" judge ../clean_charge.trace
done
gives 1 ../09_coverage.answer ./short <../09_coverage.trace

# The help: a line for each verb, which the manual page has too, and an example that runs.
"$door" help >"$out/help" && cmp -s "$out/help" <("$door" --help) && cmp -s "$out/help" <("$door" -h) || bad "help, --help and -h differ"
verbs=$(sed -n 's/^  \([a-z]*\) .*/\1/p' "$out/help")
[ "$(wc -w <<<"$verbs")" -ge 10 ] || bad "help lists too few verbs"
for verb in $verbs; do
    line=$(sed -n "s/^  \($verb\( [^ ][^ ]*\)*\)   *\(.*\)/\1\n\3/p" "$out/help")
    manual=$(sed 's/\\-/-/g; s/^\.B //' "$root/docs/man/buttmitrel.1")
    [[ -n $line && $manual == *$'\n'"$line"$'\n'* ]] || bad "the manual page has not what help says of $verb"
    "$door" help "$verb" >"$out/help_verb" && cmp -s "$out/help_verb" <("$door" "$verb" --help) || bad "help $verb and $verb --help differ"
    example=$(sed -n 's/^example: //p' "$out/help_verb")
    run bash -c "${example/'~/'/'"$1"/'}" bash "$out/home"
    [ "$status" -eq 0 ] && [ -s "$out/written" ] && [ -n "$example" ] && continue
    bad "the example of $verb ended with status $status: $example"
    cat "$out/said"
done

echo "front_door: $checks checks, $failed failed"
[ "$failed" -eq 0 ]
