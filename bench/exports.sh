#!/bin/sh
# Times encoding worlds that export 1,000 and 10,000 functions, at the root, in one interface, and in an interface each, in one run,
# and prints the times and their ratios; beside them those of Rust's `wit-component`, where the machine has it in
# `wasm-component-ld`. Needs `rt` in PATH and python3.
set -eu

. "$(dirname "$0")/../tests/program.sh"
python3 "$top/bench/exports.py" "$program" "$folder"
