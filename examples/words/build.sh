#!/bin/sh
# Compiles words.rs: main.wasm, in the folder that is given, or else in this one. RUSTC names the compiler, where it isn't `rustc`. Its
# target for the first preview of WASI is `wasm32-wasip1`, or `wasm32-wasi` before Rust 1.78.
set -eu

here=$(cd "$(dirname "$0")" && pwd)
rustc=${RUSTC:-rustc}
for target in wasm32-wasip1 wasm32-wasi; do
    [ -d "$("$rustc" --print sysroot)/lib/rustlib/$target/lib" ] && break
done
"$rustc" --edition 2021 --target "$target" -C opt-level=z -C panic=abort -C lto=fat -C strip=symbols -o "${1:-$here}/main.wasm" "$here/words.rs"
