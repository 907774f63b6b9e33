#!/bin/sh
# Makes components of the C programs of examples/hello and examples/visitors and of the Rust program of examples/words, which know
# nothing of components but by the adapters of WASI, and runs them in Node: of the modules that are kept, and of those compiled anew.
# What they print is compared with what the components print that Rust's linker of components makes of the same modules.
#
# Needs Node (Debian's package nodejs), and adapters: those in the folder that WASI_ADAPTERS names, command.wasm and reactor.wasm, or
# else those of a Rust toolchain (wasi_adapters.py). Compiling needs clang, wasm-ld, llvm-objcopy and wasi-libc, Debian's packages
# clang, lld, llvm, wasi-libc and libclang-rt-14-dev-wasm32; WASI_CFLAGS may say where wasi-libc is. The Rust program needs a compiler with
# a target for WASI's first preview, `rustc` or RUSTC. What can't be done is said, and the status is then 77. program.sh says which
# program is run.
set -eu

here=$(cd "$(dirname "$0")" && pwd)
command -v node >/dev/null 2>&1 || { echo 'skipped: there is no `node` in PATH'; exit 77; }
. "$here/program.sh"
failed=0 skipped=0

# check NAME COMMAND..: the command succeeds
check() {
    name=$1
    shift
    if "$@"; then echo "ok: $name"; else echo "FAILED: $name"; failed=1; fi
}
skip() {
    echo "skipped: $1"
    skipped=77
}

# The linker of components of a Rust toolchain, if there is one.
linker=
if linker=$(python3 "$here/wasi_adapters.py" "$folder" 2>"$folder/lacking"); then
    adapters=${WASI_ADAPTERS:-$folder}
else
    adapters=${WASI_ADAPTERS:-}
    [ -n "$adapters" ] || { echo "skipped: $(cat "$folder/lacking")"; exit 77; }
fi
# It calls another linker. This one copies the module $CORE to the file behind -o.
cat >"$folder/copy" <<'COPY'
#!/bin/sh
while [ "$1" != -o ]; do shift; done
cp "$CORE" "$2"
COPY
chmod +x "$folder/copy"

# linked KIND MODULE FILE: Rust's component of a module
linked() {
    CORE=$2 "$linker" --wasm-ld-path "$folder/copy" -o "$3" --wasi-adapter "$1"
}

# what an example is: a command or a reactor
kind_of() {
    case $1 in visitors) echo reactor ;; *) echo command ;; esac
}

# lacks EXAMPLE: what there is not to compile it
lacks() {
    case $1 in words) echo "$lacking_rust" ;; *) echo "$lacking" ;; esac
}

lacking=
for tool in clang wasm-ld llvm-objcopy; do
    command -v "$tool" >/dev/null 2>&1 || lacking="$lacking $tool"
done
if [ -z "$lacking" ]; then
    echo 'int main(void) { return 0; }' >"$folder/empty.c"
    clang --target=wasm32-wasi ${WASI_CFLAGS:-} -o "$folder/empty.wasm" "$folder/empty.c" 2>/dev/null || lacking=' wasi-libc'
fi
[ -z "$lacking" ] || skip "no C is compiled, since there is no$lacking"
lacking_rust=
sh "$top/examples/words/build.sh" "$folder" >/dev/null 2>&1 || lacking_rust='target of rustc for WASI'
[ -z "$lacking_rust" ] || skip "no Rust is compiled, since there is no $lacking_rust"
[ -n "$linker" ] || skip 'nothing is compared with the components of Rust, since it has no linker of them here'

kept= anew= theirs=
for example in hello visitors words; do
    kind=$(kind_of "$example") from=$top/examples/$example made=$folder/$example
    adapter=wasi_snapshot_preview1=$adapters/$kind.wasm
    mkdir "$made"
    check "$example: the kept module's component is made" "$program" new "$made/kept.wasm" "$from/main.wasm" --adapt "$adapter"
    kept="$kept $example=$made/kept.wasm"
    if [ -n "$linker" ]; then
        check "$example: Rust makes one" linked "$kind" "$from/main.wasm" "$made/theirs.wasm"
        theirs="$theirs $example=$made/theirs.wasm"
    fi
    if [ -z "$(lacks "$example")" ]; then
        check "$example: its source is compiled" sh "$from/build.sh" "$made"
        check "$example: a component is made of that" "$program" new "$made/component.wasm" "$made/main.wasm" --adapt "$adapter"
        anew="$anew $example=$made/component.wasm"
    fi
done

echo "node $(node --version), the components of kept modules:"
check 'they run' node "$here/run_programs.js" $kept
if [ -n "$anew" ]; then
    echo 'those of modules compiled anew:'
    check 'they run' node "$here/run_programs.js" $anew
fi
if [ -n "$theirs" ]; then
    echo 'those of Rust:'
    check 'they run alike' node "$here/run_programs.js" $theirs
fi
[ "$failed" -eq 0 ] || exit 1
exit "$skipped"
