#!/bin/sh
# Runs the components of examples/ in Node: those that are kept there, which the program must make of the modules that are
# kept beside them, and those that it makes of modules compiled anew.
#
# Needs Node, clang, wasm-ld and llvm-objcopy, Debian's packages nodejs, clang, lld and llvm: where one is missing it says which, and
# ends with status 77. program.sh says which program it runs.
set -eu

missing=
for tool in node clang wasm-ld llvm-objcopy; do
    command -v "$tool" >/dev/null 2>&1 || missing="$missing $tool"
done
[ -z "$missing" ] || { echo "skipped: not in PATH:$missing"; exit 77; }
here=$(cd "$(dirname "$0")" && pwd)
. "$here/program.sh"
failed=0

# check NAME COMMAND..: the command succeeds
check() {
    name=$1
    shift
    if "$@"; then echo "ok: $name"; else echo "FAILED: $name"; failed=1; fi
}

# The arguments that name the adapters of an example, in this folder.
adapters() {
    case $1 in lines) echo "--adapt lines=$2/adapter.wasm" ;; esac
}

kept="main=$top/examples/component.wasm" anew=
for example in strings log squares people search counters lines store downloads letters; do
    from=$top/examples/$example made=$folder/$example
    mkdir "$made"
    check "$example: the kept module's component is made" "$program" new "$made/kept.wasm" "$from/main.wasm" $(adapters "$example" "$from")
    check "$example: it is the kept one" cmp "$made/kept.wasm" "$from/component.wasm"
    check "$example: its source is compiled" sh "$from/build.sh" "$made"
    check "$example: a component is made of that" "$program" new "$made/component.wasm" "$made/main.wasm" $(adapters "$example" "$made")
    kept="$kept $example=$from/component.wasm" anew="$anew $example=$made/component.wasm"
done

echo "node $(node --version), the loop for asynchronous functions:"
check 'it traps where it must' node "$here/test_event_loop.js"
check 'streams do' node "$here/test_streams.js"
echo 'the components that are kept:'
check 'they run' node "$here/run_components.js" $kept
echo 'those of modules compiled anew:'
check 'they run' node "$here/run_components.js" $anew
exit "$failed"
