#!/bin/sh
# Refuses each allocation of the programs that print the answers of cases in turn, file by file: the first, the second
# and so on, until a run makes fewer. A run either ends with the line `error: out of memory` and status 1, and what it
# printed before is a beginning of what it prints where memory suffices; or it prints all of that, where it could do
# without. Any other end, as an answer that differs, is a failure. Prints how many runs there were of each.
#
# refuse_memory_in_cases.sh CRATE..: the programs of these crates, as `tests_of_worlds`, over the files that the crate's `args`
# names. Needs `rt` and `cc` in PATH. The programs are proved and built first.
set -eu

top=$(cd "$(dirname "$0")/.." && pwd)
folder=$(mktemp -d)
trap 'rm -rf "$folder"' EXIT
cc -shared -fPIC -O -o "$folder/refuse.so" "$top/tests/refuse.c" -ldl

# is_beginning: whether what was printed is a beginning of what is right
is_beginning() {
    head -c "$(wc -c <"$folder/out")" "$folder/right" | cmp -s - "$folder/out"
}

# refuse_each PROGRAM FILE: runs over this file with one allocation refused, until a run makes fewer.
refuse_each() {
    "$1" "$2" >"$folder/right"
    at=1
    while :; do
        rm -f "$folder/met"
        status=0
        MET=$folder/met REFUSED=$at LD_PRELOAD=$folder/refuse.so "$1" "$2" >"$folder/out" 2>"$folder/said" || status=$?
        if [ "$status" -eq 0 ] && cmp -s "$folder/out" "$folder/right"; then
            [ -e "$folder/met" ] || break
            spared=$((spared + 1))
        elif [ "$status" -eq 1 ] && grep -qx 'error: out of memory' "$folder/said" && is_beginning; then
            refused=$((refused + 1))
        else
            echo "FAILED: $2, allocation $at: status $status, said:"
            cat "$folder/said" "$folder/out"
            exit 1
        fi
        at=$((at + 1))
    done
}

for crate in "$@"; do
    cd "$top/crates/$crate"
    # (this run finds no data beside it, but leaves the program)
    rt run >"$folder/build" 2>&1 || true
    program=$PWD/out/$crate
    [ -x "$program" ] || { cat "$folder/build"; exit 1; }
    refused=0 spared=0
    cd data
    while read -r file; do
        refuse_each "$program" "$file"
    done <../args
    echo "$crate: of the allocations, refused one at a time, $refused were answered as out of memory, and $spared could be spared"
done
