#!/bin/sh
# Compiles main.c and adapter.c and attaches their records: main.wasm and adapter.wasm, in the folder that is given, or else in this one.
set -eu

here=$(cd "$(dirname "$0")" && pwd)
into=${1:-$here}

# build SOURCE MODULE RECORD FLAG..
build() {
    source=$1 module=$2 record=$3
    shift 3
    clang --target=wasm32 -O1 -fno-builtin -nostdlib -Wl,--no-entry,--strip-all "$@" -o "$into/$module" "$here/$source"
    llvm-objcopy --add-section "component-type=$here/$record" "$into/$module"
}

build main.c main.wasm record.json
# The adapter has no data and needs no stack.
build adapter.c adapter.wasm adapter_record.json -Wl,--import-memory -Wl,-z,stack-size=0
