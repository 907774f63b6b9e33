#!/bin/sh
# Compiles letters.c and attaches its record: main.wasm, in the folder that is given, or else in this one.
set -eu

here=$(cd "$(dirname "$0")" && pwd)
main=${1:-$here}/main.wasm
clang --target=wasm32 -O1 -fno-builtin -nostdlib -Wl,--no-entry,--strip-all -o "$main" "$here/letters.c"
llvm-objcopy --add-section "component-type=$here/record.json" "$main"
