"""The times of `new` for worlds of two sizes, and beside them those of Rust's `wit-component`.

A world is made by a function of a count, which answers the core module, the record, and the world and the interfaces as WIT; or a module
with a WIT package, and nothing for the others. Modules
for 1,000 and 10,000 are timed, each as the time of `new` and as the ratio of the two; ten times as many should take about ten times
as long. The crate is in `wasm-component-ld` of Rust's own toolchain: it is given the same module, the world as WIT in place of a
record where there is one, and a linker that links nothing. It has no time where it isn't there, or where it refuses the world, as it does with more
than 1,000 instances. Each time is the least of five.
"""
import glob
import os
import subprocess

from modules import with_record
from timing import timed

LINKER = """#!/bin/sh
out=
while [ $# -gt 0 ]; do case "$1" in -o) out=$2; shift 2 ;; -o*) out=${1#-o}; shift ;; *) shift ;; esac; done
ln -f "$CORE" "$out" 2>/dev/null || cp "$CORE" "$out"
"""


def written(folder, name, contents):
    path = os.path.join(folder, name)
    with open(path, "wb") as file:
        file.write(contents)
    return path


def component_linker():
    """Rust's program that has `wit-component` in it, or nothing."""
    try:
        root = subprocess.run(["rustc", "--print", "sysroot"], capture_output=True, text=True, check=True).stdout.strip()
    except (OSError, subprocess.CalledProcessError):
        return None
    return next(iter(glob.glob(f"{glob.escape(root)}/lib/rustlib/*/bin/wasm-component-ld")), None)


def crate_command(folder, core, world, interfaces):
    """The command that has `wit-component` encode a module for a world."""
    linker = written(folder, "linker", LINKER.encode())
    os.chmod(linker, 0o755)
    os.environ["CORE"] = written(folder, "core.wasm", core)
    words = ["--wasm-ld-path", linker, "--wasi-adapter", "none", "--validate-component", "false"]
    if world is not None:
        words += ["--component-type", written(folder, "world.wit", f"package a:b;\n{interfaces}world w {{\n{world}}}\n".encode())]
    return [component_linker(), *words, "-o", os.path.join(folder, "other.wasm")]


def seconds_of(program, folder, make, count):
    """The seconds of the program, and those of the crate where it is there."""
    core, record, world, interfaces = make(count)
    main = written(folder, "main.wasm", core if record is None else with_record(core, record))
    seconds = timed([program, "new", os.path.join(folder, "made.wasm"), main])
    if component_linker():
        command = crate_command(folder, core, world, interfaces)
        if not subprocess.run(command, capture_output=True, check=False).returncode:
            return seconds, timed(command)
    return seconds, None


def row(times):
    """Two times and their ratio."""
    if None in times:
        return f"{'-':>9} {'-':>10} {'-':>7}"
    return f"{times[0]:9.4f} {times[1]:10.4f} {times[1] / times[0]:7.1f}"


def table(program, folder, makes):
    """Prints a line of times for each of these worlds."""
    print(f"{'world of':28}   1,000 s   10,000 s   ratio   crate: 1,000 s   10,000 s   ratio")
    for make in makes:
        few, many = (seconds_of(program, folder, make, count) for count in (1000, 10000))
        print(f"{make.__name__.replace('_', ' '):28} {row((few[0], many[0]))}          {row((few[1], many[1]))}", flush=True)
