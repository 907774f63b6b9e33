"""Times reading and checking: read.py PROGRAM EXAMPLE FOLDER.

First `defs` on the component of a module of 64 MiB, beside `cp` of it. Then modules with many imports, of
that many root functions: `new`, `new --validate` (which checks indices and names too) and `defs` of the
component, as times and as ratios. Each time is the least of five.
"""
import json
import os
import sys

from timing import number, padded, peak, timed

program, example, folder = sys.argv[1:]
main = os.path.join(folder, "main.wasm")
made = os.path.join(folder, "made.wasm")
copied = os.path.join(folder, "copied.wasm")


def section(identifier, contents):
    return bytes([identifier]) + number(len(contents)) + contents


def text(name):
    return number(len(name)) + name.encode()


def importing(count):
    """A core module that imports this many functions of the root, with its record."""
    names = [f"f{n}" for n in range(count)]
    imports = b"".join(text("$root") + text(name) + b"\0\0" for name in names)
    record = {
        "version": 1,
        "imports": [{"func": {"name": name}} for name in names],
        "core-imports": [
            {"module": "$root", "field": name, "role": ["world-func", name, "sync"]} for name in names
        ],
    }
    return (
        b"\0asm\1\0\0\0"
        + section(1, b"\1\x60\0\0")
        + section(2, number(count) + imports)
        + section(0, text("component-type") + json.dumps(record).encode())
    )


with open(example, "rb") as file:
    core = file.read()
with open(main, "wb") as file:
    file.write(padded(core, 64))
timed([program, "new", made, main])
defs, copy = [program, "defs", made], ["cp", made, copied]
seconds, copy_seconds = timed(defs), timed(copy)
print(f"64 MiB: defs {seconds:.4f} s, cp {copy_seconds:.4f} s, ratio {seconds / copy_seconds:.1f}", end="")
print(f", peak {peak(defs, folder):.1f} MiB")
print("imports      new s  validated s    defs s   validated/new   defs/new")
for count in (1000, 10000):
    with open(main, "wb") as file:
        file.write(importing(count))
    new = timed([program, "new", made, main])
    checked = timed([program, "new", made, main, "--validate"])
    printed = timed([program, "defs", made])
    print(f"{count:7} {new:10.4f} {checked:12.4f} {printed:9.4f} {checked / new:15.2f} {printed / new:10.2f}")
