#!/usr/bin/env bash
# The install into a folder: the C examples compile by what pkg-config says and write what they write in the repository, also after the
# tree has moved; the installed command answers with no toolchain in its PATH and from another folder; the libraries have the functions
# of the header.
set -u
root=$PWD
out=$root/target/install
failed=0

temporary=$(mktemp -d) || exit 1
trap 'rm -rf "$temporary"' EXIT
mkdir -p "$out/elsewhere" || exit 1
for command in cc pkg-config rustc; do
    command -v "$command" >/dev/null && continue
    echo "install: there is no $command"
    exit 1
done

bad() { # MESSAGE
    failed=1
    echo "install: $1"
}

# Folders that are there keep their permissions; what is new can be read by all, whatever the caller's umask.
mkdir -p "$temporary/first/lib" && chmod 2771 "$temporary/first/lib" || exit 1
(umask 077 && ./buttmitrel install --prefix "$temporary/first") >"$out/said" 2>&1 || {
    cat "$out/said"
    exit 1
}
[ "$(stat -c %a "$temporary/first/lib")" = 2771 ] || bad "the install changes the permissions of a folder that was there"
closed=$(find "$temporary/first" ! -perm -a+r ! -path "$temporary/first/lib" -print -quit)
[ -z "$closed" ] || bad "not all may read $closed"
names=$(grep -ralF "$root" "$temporary/first")
[ -z "$names" ] || bad "these installed files name the repository's folder: $names"
mv "$temporary/first" "$temporary/moved"
prefix=$temporary/moved

# The C examples, against the shared library by pkg-config's words, and the first against the static one.
export PKG_CONFIG_PATH=$prefix/lib/pkgconfig
cc -std=c99 -Wall -Wextra -Werror -o "$out/shared" examples/c/judge.c $(pkg-config --cflags --libs buttmitrel) || exit 1
cc -std=c99 -Wall -Wextra -Werror -o "$out/static" -I "$prefix/include" examples/c/judge.c "$prefix/lib/libbuttmitrel.a" || exit 1
printf 'accepted\nC 2 D 0 fuse 0\nnet -80304 to 116301\nverdicts 44666\n' >"$out/judged"
printf 'tick 3: alert 1 status 0\ntick 7: alert 2 status 2\nrefused 9 at 7\n' >"$out/fed"
for program in shared static; do
    "$out/$program" examples/hidden_over_voltage.trace | diff "$out/judged" - || bad "the C example, $program, judges otherwise"
    "$out/$program" | diff "$out/fed" - || bad "the C example, $program, feeds otherwise"
done
cc -std=c99 -Wall -Wextra -Werror -o "$out/recorder" examples/c/recorder.c $(pkg-config --cflags --libs buttmitrel) || exit 1
"$out/recorder" 2>/dev/null | cmp - examples/recorder.trace || bad "the recorder in C writes something else"
cc -std=c99 -Wall -Wextra -Werror -o "$out/cells" examples/c/cells.c $(pkg-config --cflags --libs buttmitrel) || exit 1
printf '%s\n' 'highest 3620 mV, lowest 3587 mV, sum 36040 mV, difference 33 mV' '2 cells: refused 3 at 0' '13 cells: refused 3 at 0' |
    diff - <("$out/cells") || bad "the C example of the cells writes something else"
ldd "$out/shared" | grep -qF "$prefix/lib" || bad "the C example runs with a shared library of another place"
[ "$(pkg-config --modversion buttmitrel)" = "$(cat VERSION)" ] || bad "pkg-config's version is not that of VERSION"

# The functions that the header declares, and no other.
sed -n 's/^uint64_t \(buttmitrel_[a-z_]*\)(.*/\1/p' "$prefix/include/buttmitrel.h" | sort >"$out/declared"
for library in '-D libbuttmitrel.so' '-g libbuttmitrel.a'; do
    nm --defined-only ${library% *} "$prefix/lib/${library#* }" | awk 'NF == 3 { print $3 }' | sort | diff "$out/declared" - ||
        bad "${library#* } has not the functions of the header"
done
[ "$(wc -l <"$out/declared")" -ge 13 ] || bad "the header declares too few functions"

# The installed command with /usr/bin alone in its PATH.
installed() { # WORD...
    (cd "$out/elsewhere" && env -i PATH=/usr/bin "$prefix/bin/buttmitrel" "$@")
}
same() { # STATUS FILE WORD...
    local expected=$1 file=$2 status
    shift 2
    installed "$@" >"$out/written" 2>"$out/said"
    status=$?
    [ "$status" -eq "$expected" ] && diff "$file" "$out/written" && return
    bad "buttmitrel $*: status $status and not $expected, or not what $file has"
    cat "$out/said"
}
for name in examples/*.txt; do
    base=$root/${name%.txt}
    same 0 "$base.answer" judge "$base.trace"
    same 0 "$base.explain" explain "$base.trace"
    same 0 "$base.trace" assemble "$base.txt"
done
same 1 examples/refused/09_coverage.answer judge "$root/examples/refused/09_coverage.trace"
same 1 examples/refused/09_coverage.answer feed "$root/examples/refused/09_coverage.trace"
crates/records/out/records <examples/e_bike_trip.trace >"$out/records"
same 0 "$out/records" records "$root/examples/e_bike_trip.trace"
./buttmitrel version >"$out/version"
same 0 "$out/version" version
for verb in bench install; do
    same 2 /dev/null "$verb"
    grep -qF 'works in the repository alone' "$out/said" || bad "$verb does not say that it needs the repository"
done
for verb in judge explain records feed assemble disassemble version help; do
    example=$(installed help "$verb" | sed -n 's/^example: //p')
    (cd "$out/elsewhere" && env -i PATH=/usr/bin bash -c "$example") >"$out/written" && [ -s "$out/written" ] && continue
    bad "the example of $verb: $example"
done
[ "$(head -n 1 "$prefix/man/man1/buttmitrel.1")" = '.TH BUTTMITREL 1' ] || bad "there is no manual page"

[ "$failed" -eq 0 ] && echo "install: the C examples and every verb answer from an installed tree that was moved"
exit "$failed"
