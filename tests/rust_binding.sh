#!/usr/bin/env bash
# bindings/rust: its tests, the examples of its documentation, how it finds the library, and that it has every function of the
# header and the project's version.
set -u
cd "$(dirname "$0")/.." || exit 1
root=$PWD
out=$root/target/rust_binding
failed=0

for command in cargo rustc pkg-config; do
    command -v "$command" >/dev/null && continue
    echo "rust_binding: there is no $command"
    exit 1
done
. tools/library.sh
library || exit 1
folder="$out/a folder" only_shared="$out/shared" empty="$out/empty"
mkdir -p "$folder" "$only_shared" "$empty" || exit 1
cp target/lib/libbuttmitrel.a "$folder" && cp target/lib/libbuttmitrel.so "$only_shared" || exit 1
printf 'libdir=${pcfiledir}\nName: buttmitrel\nDescription: a test\nVersion: 0\n' >"$folder/buttmitrel.pc"
rustc --edition 2021 -D warnings -o "$out/find_library" bindings/rust/build.rs || exit 1

finds() { # STATUS TEXT NAME=VALUE...: with these variables alone build.rs ends with that status and writes that text
    local status=$1 text=$2
    shift 2
    env -i PATH="$PATH" CARGO_MANIFEST_DIR="$root/bindings/rust" "$@" "$out/find_library" >"$out/found" 2>&1
    [ $? -eq "$status" ] && grep -qF -- "$text" "$out/found" && return
    echo "rust_binding: build.rs with $*: '$text' and status $status expected, and not"
    cat "$out/found"
    failed=1
}
finds 0 "link-search=native=$folder" BUTTMITREL_LIB_DIR="$folder"
finds 0 "link-lib=static=buttmitrel" BUTTMITREL_LIB_DIR="$folder"
finds 0 "link-lib=dylib=buttmitrel" BUTTMITREL_LIB_DIR="$only_shared" PKG_CONFIG_LIBDIR="$folder"
finds 1 "set it to the folder that has one" BUTTMITREL_LIB_DIR="$empty" PKG_CONFIG_LIBDIR="$folder"
finds 1 "set it to a whole path" BUTTMITREL_LIB_DIR=target/lib
finds 0 "link-search=native=$folder" PKG_CONFIG_LIBDIR="$folder"
finds 0 "link-search=native=$root/target/lib" PKG_CONFIG_LIBDIR="$empty"
finds 0 "link-search=native=$root/target/lib" PATH="$empty"
finds 1 "set BUTTMITREL_LIB_DIR to the folder" PKG_CONFIG_LIBDIR="$empty" CARGO_MANIFEST_DIR="$empty"

grep -qxF "version = \"$(cat VERSION)\"" bindings/rust/Cargo.toml || {
    echo "rust_binding: the version in bindings/rust/Cargo.toml is not that of VERSION"
    failed=1
}
functions=$(awk '/^uint64_t / { sub(/\(.*/, "", $2); print $2 }' include/buttmitrel.h)
for function in ${functions:?}; do
    grep -qF "c::$function(" bindings/rust/src/calls.rs && continue
    echo "rust_binding: bindings/rust does not call $function"
    failed=1
done

CARGO_TARGET_DIR=$out BUTTMITREL_LIB_DIR=$root/target/lib RUSTFLAGS='-D warnings' \
    cargo test --offline --quiet --manifest-path bindings/rust/Cargo.toml >"$out/log" 2>&1 || {
    cat "$out/log"
    exit 1
}
[ "$failed" -eq 0 ] && echo "rust_binding: $(awk '/^test result: ok/ { n += $4 } END { print n + 0 }' "$out/log") tests passed"
exit "$failed"
