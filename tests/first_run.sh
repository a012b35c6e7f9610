#!/usr/bin/env bash
# What a first call asks of rt and says, in a copy of the repository with a stand-in for rt, which notes what it is asked and proves
# nothing: the program's crate and those below it, once, and then the program; few lines; a proof that fails, and no toolchain at all.
# The copy stands outside the repository, where rt ci refuses a second crates.txt.
set -u
root=$PWD
out=$(mktemp -d) || exit 1
trap 'rm -rf "$out"' EXIT
copy=$out/copy
export NOTES=$out/notes REFUSED='' PROGRAM=$root/crates/judge_trace/out/judge_trace
unset RT_JOBS
trace=$root/examples/clean_charge.trace
failed=0

mkdir -p "$out/bin" "$copy" || exit 1
cp -r buttmitrel judge tools crates.txt "$copy"
awk -F '[: ]' '/^[a-z]/ { print $1 }' crates.txt | while read -r crate; do mkdir -p "$copy/crates/$crate/src"; done
cat >"$out/bin/rt" <<'END'
#!/usr/bin/env bash
# rt all check, and then rt run, in a crate's folder
crate=${PWD##*/} home=../..
echo "$* in $crate" >>"$NOTES"
case $* in
'all check')
    . "$home/tools/prove.sh"
    for each in $(crates_below "$crate" | tac); do
        printf '== %s\nwords of the prover\n' "$each"
        if [ "$each" = "$REFUSED" ]; then
            printf '== summary\n%s: failed (1)\n' "$each"
            exit 1
        fi
        echo 'logic=proved functions=1'
    done
    printf '== summary\nall ok\n'
    ;;
run)
    mkdir -p out && cp "$PROGRAM" "out/$crate" && "out/$crate"
    ;;
*) exit 2 ;;
esac
END
chmod +x "$out/bin/rt"
PATH=$out/bin:$PATH

bad() { # MESSAGE
    failed=1
    echo "first_run: $1"
    cat "$out/said"
}

# Judges in the copy: what it asks of rt, how many lines it says, its status.
judge() {
    : >"$NOTES"
    "$copy/judge" "$trace" >"$out/written" 2>"$out/said"
    status=$?
    asked=$(tr '\n' ';' <"$NOTES") lines=$(wc -l <"$out/said")
}

built='all check in judge_trace;run in judge_trace;'
needed=$(. tools/prove.sh; home=. crates_below judge_trace)
grep -qx states <<<"$needed" && bad "states is named, which the judge does not need"
needed=$(wc -l <<<"$needed")
[ "$needed" -ge 15 ] || bad "only $needed crates are needed"
judge
[ "$status" -eq 0 ] && cmp -s "$out/written" "${trace%.trace}.answer" || bad "the first call: status $status"
[ "$asked" = "$built" ] || bad "it asked: $asked"
[ "$lines" -eq $((needed + 1)) ] || bad "it says $lines lines"
head -n 1 "$out/said" | grep -qF "proving and building judge_trace: $needed crates" || bad "the first line does not say what it does"
tail -n 1 "$out/said" | grep -q "$needed of $needed crates proved, 0:.*: judge_trace$" || bad "the last line is not the last crate's"

judge
[ "$status" -eq 0 ] && [ "$asked" = '' ] && [ "$lines" -eq 0 ] || bad "the second call asked: $asked; $lines lines, status $status"
sleep 0.1
touch "$copy/crates/walk/src/lib.rt"
judge
[ "$status" -eq 0 ] && [ "$asked" = "$built" ] || bad "after a change it asked: $asked; status $status"

touch "$copy/crates/walk/src/lib.rt"
REFUSED=rules
judge
[ "$status" -eq 2 ] && [ ! -s "$out/written" ] && [ "$asked" = 'all check in judge_trace;' ] || bad "a crate that is not proved: status $status"
tail -n 1 "$out/said" | grep -qF 'rules is not proved; target/prove/judge_trace.log says why' || bad "the last line does not name the log"
grep -q 'words of the prover' "$copy/target/prove/judge_trace.log" || bad "the log has not the words of the prover"
REFUSED=''

# Two calls at once: the second waits, and finds the program built.
: >"$NOTES"
"$copy/judge" "$trace" >"$out/other" 2>/dev/null &
"$copy/judge" "$trace" >"$out/written" 2>"$out/said"
wait
cmp -s "$out/written" "${trace%.trace}.answer" && cmp -s "$out/other" "$out/written" && [ "$(tr '\n' ';' <"$NOTES")" = "$built" ] ||
    bad "two calls at once asked: $(tr '\n' ';' <"$NOTES")"

# On a terminal one line is rewritten.
touch "$copy/crates/walk/src/lib.rt"
script -qec "$(printf '%q %q' "$copy/judge" "$trace")" /dev/null </dev/null >"$out/said"
grep -q $'\r.*3 of .* crates proved' "$out/said" && [ "$(wc -l <"$out/said")" -le 6 ] || bad "a terminal is shown something else"

mkdir "$out/few"
for command in bash find sh; do ln -s "$(command -v "$command")" "$out/few"; done
rm "$copy/crates/judge_trace/out/judge_trace"
PATH=$out/few "$copy/judge" "$trace" >"$out/written" 2>"$out/said"
status=$?
[ "$status" -eq 2 ] && [ "$(wc -l <"$out/said")" -eq 1 ] && grep -q 'Rattle toolchain is needed' "$out/said" ||
    bad "no toolchain: status $status"

[ "$failed" -eq 0 ] && echo "first_run: $needed crates in one call of rt; few lines; a failed proof and no toolchain say what to do"
exit "$failed"
