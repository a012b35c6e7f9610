#!/usr/bin/env bash
# The edits of crates/*/must-fail: each still says something of the code.
# Every `old:` text stands in its file once, the text that replaces it is another, and docs/CLAIMS.md names the edit.
set -u
edits=0 failed=0

bad() { # MESSAGE
    echo "edits_apply: $edit: $1"
    failed=1
}

for edit in crates/*/must-fail/*.edit; do
    crate=${edit%/must-fail/*} file='' old='' pairs=0
    edits=$((edits + 1))
    while IFS= read -r line; do
        case $line in
        'file: '*) file=$crate/${line#file: } ;;
        'old: '*) old=${line#old: } ;;
        'new: '*)
            pairs=$((pairs + 1))
            [ "$(grep -oF -- "$old" "$file" | wc -l)" = 1 ] || bad "'$old' does not stand once in $file"
            [ "$old" != "${line#new: }" ] || bad "it changes nothing"
            ;;
        esac
    done <"$edit"
    [ "$pairs" -gt 0 ] || bad "it has no pair of texts"
    name=${edit##*/}
    grep -qF -- "\`${name%.edit}\`" docs/CLAIMS.md || bad "docs/CLAIMS.md does not name it"
done

echo "edits_apply: $edits edits"
[ "$edits" -gt 0 ] && [ "$failed" -eq 0 ]
