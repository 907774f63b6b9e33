#!/bin/sh
# Times encoding modules with WIT packages in binary form, whose worlds export 1,000 and 10,000 functions, interfaces, types and resources,
# in one run, and prints the times and their ratios; beside them those of Rust's `wit-component` for the same bytes, where the machine has
# it in `wasm-component-ld`. Needs `rt` in PATH and python3.
set -eu

. "$(dirname "$0")/../tests/program.sh"
python3 "$top/bench/package.py" "$program" "$folder"
