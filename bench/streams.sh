#!/bin/sh
# Times encoding worlds with 1,000 and 10,000 streams or futures, of one function, of many and of many interfaces, each of which the core
# module makes, reads and writes, in one run, and prints the times and their ratios; beside them those of Rust's `wit-component`, where the
# machine has it in `wasm-component-ld`. Needs `rt` in PATH and python3.
set -eu

. "$(dirname "$0")/../tests/program.sh"
python3 "$top/bench/streams.py" "$program" "$folder"
