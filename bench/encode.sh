#!/bin/sh
# Times the program on modules of 1, 8, 64 and 256 MiB beside `cp` of the same files and beside `wit-component`, in one run, and prints
# the times and the peak memory. Needs `rt` in PATH, python3, and /usr/bin/time.
set -eu

. "$(dirname "$0")/../tests/program.sh"
python3 "$top/bench/encode.py" "$program" "$folder"
