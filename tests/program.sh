# For scripts beside this one and in bench/: finds the program, or builds it. It sets `top`, the top of the repository; `folder`, a
# temporary folder that goes away in the end; and `program`: what PROGRAM names where it is set, as by the test command, which
# has just built it, and otherwise the program that `rt run` builds. That needs `rt` in PATH.
top=$(cd "$(dirname "$0")/.." && pwd)
folder=$(mktemp -d)
trap 'rm -rf "$folder"' EXIT
program=${PROGRAM:-$top/crates/component_new/out/component_new}
if [ -z "${PROGRAM:-}" ]; then
    (cd "$top/crates/component_new" && rt run >"$folder/build" 2>&1) || true
fi
[ -x "$program" ] || { echo "FAILED: there is no program $program"; cat "$folder/build" 2>/dev/null; exit 1; }

# of_digits: the bytes of the hexadecimal digits on standard input
of_digits() {
    python3 -c 'import sys; sys.stdout.buffer.write(bytes.fromhex(sys.stdin.read()))'
}
