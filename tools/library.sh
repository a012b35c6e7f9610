# The library for other programs, and the second program, which links it. Sourced.
unset CDPATH
home=$(cd "${BASH_SOURCE[0]%/*}/.." && pwd)
. "$home/tools/prove.sh"

# Builds target/lib/libbuttmitrel.a and libbuttmitrel.so where they are missing or older than a source.
library() {
    if is_old "$home/target/lib/libbuttmitrel.so"; then alone build_library; fi
}

# Judge, live feed and recorder are compiled apart, which keeps the judge fast, and their objects put together.
compiled_apart=(buttmitrel_c buttmitrel_live_c buttmitrel_recorder_c)

build_library() {
    local crate lib=$home/target/lib
    is_old "$lib/libbuttmitrel.so" || return 0
    mkdir -p "$lib" && touch "$lib/begun" || return 2
    for crate in "${compiled_apart[@]}"; do
        build "$crate" lib "lib$crate.a" && (cd "$lib" && ar x "$home/crates/$crate/out/lib$crate.a" "$crate.o") || return 2
    done
    (cd "$lib" && link_library) && touch -c -r "$lib/begun" "$lib/libbuttmitrel.so"
}

# From the objects in the folder; the C library's symbols are all that they take from elsewhere.
link_library() {
    local objects=("${compiled_apart[@]/%/.o}")
    rm -f libbuttmitrel.a
    ar rcs libbuttmitrel.a "${objects[@]}" &&
        cc -shared -Wl,-soname,libbuttmitrel.so -Wl,-z,defs -o libbuttmitrel.so "${objects[@]}" &&
        rm -f "${objects[@]}"
}

# Builds target/tools/second.
second_program() {
    library && "$home/tools/compile" second -L "native=$home/target/lib" -l static=buttmitrel
}
