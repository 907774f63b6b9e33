#!/bin/sh
# Times reading and checking of components, in one run, and prints the times and their ratios. Needs `rt`
# in PATH, python3, and /usr/bin/time.
set -eu

. "$(dirname "$0")/../tests/program.sh"
python3 "$top/bench/read.py" "$program" "$top/examples/main.wasm" "$folder"
