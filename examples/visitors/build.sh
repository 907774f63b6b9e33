#!/bin/sh
# Compiles visitors.c with wasi-libc and attaches its WIT package: main.wasm, in the folder that is given, or else in this one.
# WASI_CFLAGS may say where wasi-libc is.
set -eu

here=$(cd "$(dirname "$0")" && pwd)
main=${1:-$here}/main.wasm
clang --target=wasm32-wasi ${WASI_CFLAGS:-} -mexec-model=reactor -O2 -Wl,--strip-all -o "$main" "$here/visitors.c"
llvm-objcopy --add-section "component-type:book=$here/package.wasm" "$main"
