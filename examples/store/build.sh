#!/bin/sh
# Compiles store.c and attaches its WIT package: main.wasm, in the folder that is given, or else in this one.
set -eu

here=$(cd "$(dirname "$0")" && pwd)
main=${1:-$here}/main.wasm
clang --target=wasm32 -O1 -fno-builtin -nostdlib -Wl,--no-entry,--strip-all -o "$main" "$here/store.c"
llvm-objcopy --add-section "component-type:store=$here/package.wasm" "$main"
