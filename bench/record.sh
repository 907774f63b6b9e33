#!/bin/sh
# Times reading records and preparing their worlds, in one run, and prints the times and their ratios. Needs `rt`
# in PATH and python3.
set -eu

. "$(dirname "$0")/../tests/program.sh"
python3 "$top/bench/record.py" "$program" "$folder"
