#!/bin/sh
# Runs the generated core modules of crates/generated_modules/stdout in Node's engine. The gate sees that the writers
# make exactly these modules; here they are called, and their answers and calls compared. Where there is no Node it says
# so, and ends with status 77. The modules that call through references need Node 20 or later.
set -eu

if ! command -v node >/dev/null 2>&1; then
    echo 'skipped: there is no `node` in PATH'
    exit 77
fi
here=$(cd "$(dirname "$0")" && pwd)
# Older engines want a flag for typed references, and newer ones know no such flag.
flag=--experimental-wasm-typed-funcref
node "$flag" -e '' 2>/dev/null || flag=
echo "node $(node --version) $flag"
if node $flag "$here/run_modules.js"; then echo "ok: generated modules run as they should"; else echo "FAILED: generated modules"; exit 1; fi
