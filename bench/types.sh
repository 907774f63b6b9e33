#!/bin/sh
# Times encoding worlds with 1,000 and 10,000 types and functions, in one run, and prints the times and their ratios. Needs `rt`
# in PATH and python3.
set -eu

. "$(dirname "$0")/../tests/program.sh"
python3 "$top/bench/types.py" "$program" "$folder"
