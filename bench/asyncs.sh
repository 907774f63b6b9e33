#!/bin/sh
# Times encoding worlds with 1,000 and 10,000 functions that are called asynchronously, with shims and without, or implemented with a
# callback, with its `task.return` too, or on a stack of their own, in one run, and prints the times and their ratios; beside them those
# of Rust's `wit-component`, where the machine has it in `wasm-component-ld`. Needs `rt` in PATH and python3.
set -eu

. "$(dirname "$0")/../tests/program.sh"
python3 "$top/bench/asyncs.py" "$program" "$folder"
