#!/bin/sh
# That measuring a component takes no memory, and finishing it one buffer: refuses each allocation of three tests of
# unit_tests in turn, which build a component, build and measure it, and build and finish it. The second has to make as many
# allocations as the first, and the third one more. Each run with one refused ends in a report that memory ran out.
#
# measured_growths.sh: needs `cc` in PATH. The tests are those that TESTS names where it is set, as by the test command; otherwise they
# are proved and built first, which needs `rt`.
set -eu

top=$(cd "$(dirname "$0")/.." && pwd)
folder=$(mktemp -d)
trap 'rm -rf "$folder"' EXIT
cc -shared -fPIC -O -o "$folder/refuse.so" "$top/tests/refuse.c" -ldl
tests=${TESTS:-$top/crates/unit_tests/out/unit_tests_tests}
if [ -z "${TESTS:-}" ]; then
    (cd "$top/crates/unit_tests" && rt test >"$folder/build" 2>&1) || { cat "$folder/build"; exit 1; }
fi

# growths TEST: how many allocations the test makes.
growths() {
    at=1
    while :; do
        rm -f "$folder/met"
        status=0
        MET=$folder/met REFUSED=$at LD_PRELOAD=$folder/refuse.so "$tests" "building::$1" >"$folder/said" 2>&1 || status=$?
        [ -e "$folder/met" ] || break
        if [ "$status" -eq 0 ] || ! grep -q '^memory: AllocError' "$folder/said"; then
            echo "FAILED: $1, allocation $at: status $status, said:" >&2
            cat "$folder/said" >&2
            exit 1
        fi
        at=$((at + 1))
    done
    [ "$status" -eq 0 ] || { echo "FAILED: $1: status $status" >&2; exit 1; }
    echo $((at - 1))
}

built=$(growths is_built)
measured=$(growths is_measured)
finished=$(growths is_finished)
said="to build: $built allocations; to measure: $((measured - built)); to finish: $((finished - built))"
if [ "$measured" -eq "$built" ] && [ "$finished" -eq $((built + 1)) ]; then echo "ok: $said"; else echo "FAILED: $said"; exit 1; fi
