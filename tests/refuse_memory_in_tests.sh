#!/bin/sh
# Refuses each allocation of each test of some crates in turn: the first, the second and so on, until a run
# of the test makes fewer. A run either passes, where the test could do without, or ends in a report that memory
# ran out: at an `expect` (`memory: AllocError`, or `AllocFailed`), or with the fault `error: "memory"`, or with
# that of the allocator. Any other end, as an answer that differs, is a failure. Prints how many runs there were of each.
#
# refuse_memory_in_tests.sh CRATE[::MODULE]..: the tests of a crate, or of one module of it. Needs `rt` and `cc`
# in PATH. The tests are proved and built first.
set -eu

top=$(cd "$(dirname "$0")/.." && pwd)
folder=$(mktemp -d)
trap 'rm -rf "$folder"' EXIT
cc -shared -fPIC -O -o "$folder/refuse.so" "$top/tests/refuse.c" -ldl

# refuse_each CRATE TEST: runs of this test with one allocation refused, until a run makes fewer.
refuse_each() {
    at=1
    while :; do
        rm -f "$folder/met"
        status=0
        MET=$folder/met REFUSED=$at LD_PRELOAD=$folder/refuse.so "out/$1_tests" "$2" >"$folder/said" 2>&1 || status=$?
        if [ "$status" -eq 0 ]; then
            [ -e "$folder/met" ] || break
            spared=$((spared + 1))
        elif grep -Eq '^(memory: Alloc(Error|Failed)|error: ("memory"|AllocError|AllocFailed))' "$folder/said"; then
            reported=$((reported + 1))
        else
            echo "FAILED: $1, $2, allocation $at: status $status, said:"
            cat "$folder/said"
            exit 1
        fi
        at=$((at + 1))
    done
}

for given in "$@"; do
    crate=${given%%::*}
    only=${given#"$crate"}
    only=${only#::}
    cd "$top/crates/$crate"
    rt test >"$folder/build" 2>&1 || { cat "$folder/build"; exit 1; }
    "out/${crate}_tests" --list | sed -n "s/^\(${only:+$only::}.*\): test\$/\1/p" >"$folder/tests"
    reported=0 spared=0
    while read -r test; do
        refuse_each "$crate" "$test"
    done <"$folder/tests"
    echo "$given: $(wc -l <"$folder/tests") tests; of the allocations, refused one at a time, $reported were reported as out of memory, and $spared had no effect"
done
