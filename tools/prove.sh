# Proves crates and builds them with rt. Sourced, with `home` the repository's folder.

# Says what is being done, on a terminal in place of how far a proof is.
announce() { # MESSAGE
    if [ -t 2 ]; then printf '\r\e[K' >&2; fi
    printf 'buttmitrel: %s\n' "$1" >&2
}

# A crate and those below it.
crates_below() { # CRATE
    awk -v wanted="$1" '
        function visit(crate,  named, count, i) {
            if (!(crate in names) || seen[crate]++) return
            print crate
            count = split(names[crate], named, " ")
            for (i = 1; i <= count; i++) visit(named[i])
        }
        { sub(/#.*/, "") }
        split($0, part, ":") == 2 { split(part[1], word, " "); names[word[1]] = part[2] }
        END { visit(wanted) }' "$home/crates.txt"
}

# Reads what `rt all check` says, and says of each crate that had to be proved how far the whole is; on a terminal in one line.
follow() { # NUMBER-OF-CRATES
    local line crate='' ended=0 progress
    SECONDS=0
    while IFS= read -r line; do
        case $line in
        '== summary') crate='' ;;
        '== '*) crate=${line#== } ended=$((ended + 1)) ;;
        'logic=proved '*)
            [ -n "$crate" ] || continue
            printf -v progress '%d of %d crates proved, %d:%02d so far: %s' "$ended" "$1" $((SECONDS / 60)) $((SECONDS % 60)) "$crate"
            if [ -t 2 ]; then printf '\r\e[Kbuttmitrel: %s' "${progress:0:67}" >&2; else announce "$progress"; fi
            ;;
        esac
    done
    if [ -t 2 ]; then printf '\r\e[K' >&2; fi
}

# Proves a crate and those below it, and builds its out/FILE: `rt run` a program, which it then runs once, on nothing, and `rt lib` a static
# library. RT_JOBS says how many crates to prove at a time.
build() { # CRATE run|lib FILE
    local log=target/prove/$1.log total failed why="$1 is not built"
    total=$(crates_below "$1" | wc -l)
    announce "proving and building $1: $total crates, which takes minutes the first time; the prover's words go to $log"
    {
        cd "$home/crates/$1" && rm -f "out/$3" &&
            rt all check ${RT_JOBS:+--jobs "$RT_JOBS"} && rt "$2"
    } </dev/null 2>&1 | tee "$home/$log" | follow "$total"
    [ ! -e "$home/crates/$1/out/$3" ] || return 0
    failed=$(sed -n 's/^\([a-z_0-9]*\): failed .*/\1/p' "$home/$log" | head -n 1)
    [ -z "$failed" ] || why="the crate $failed is not proved"
    announce "$why; $log says why"
    return 2
}

# Runs a function while no other call builds; what it was to build may be there by then.
alone() { # FUNCTION WORD...
    if ! command -v rt >/dev/null; then
        announce "the Rattle toolchain is needed: put its command rt in the PATH"
        return 2
    fi
    mkdir -p "$home/target/prove" && (flock 9 && "$@") 9>"$home/target/prove/lock"
}

# Whether a file is missing or older than a source of the crates.
is_old() { # FILE
    [ ! -f "$1" ] || [ "$home/crates.txt" -nt "$1" ] ||
        [ -n "$(find "$home/crates" -mindepth 2 \( -name out -o -name 'must-fail*' \) -prune -o -newer "$1" -print -quit)" ]
}

# Builds the programs crates/CRATE/out/CRATE that are missing or older than a source, as `rt ci` leaves them too.
build_programs() { # CRATE...
    local crate
    for crate; do
        if is_old "$home/crates/$crate/out/$crate"; then alone build_program "$crate" || return 2; fi
    done
}

# A program then counts as being as old as the look at its sources.
build_program() { # CRATE
    local program=$home/crates/$1/out/$1
    is_old "$program" || return 0
    touch "$home/target/prove/begun" && build "$1" run "$1" && touch -c -r "$home/target/prove/begun" "$program"
}
