#!/bin/sh
# Compiles hello.c with wasi-libc: main.wasm, in the folder that is given, or else in this one. WASI_CFLAGS may say where wasi-libc is.
set -eu

here=$(cd "$(dirname "$0")" && pwd)
clang --target=wasm32-wasi ${WASI_CFLAGS:-} -O2 -Wl,--strip-all -o "${1:-$here}/main.wasm" "$here/hello.c"
