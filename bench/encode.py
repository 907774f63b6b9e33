"""Times PROGRAM on large modules beside `cp` and the crate (beside.py): encode.py PROGRAM FOLDER.

The modules import a function and export one, and have a custom section of the wanted size, which has to be carried over byte for
byte. Each time is the least of five.
"""
import os
import sys

from beside import component_linker, crate_command
from modules import core_module, with_record
from timing import padded, peak, timed

WORLD = "import f: func();\nexport g: func();\n"
RECORD = {
    "imports": [{"func": {"name": "f"}}],
    "exports": [{"func": {"name": "g"}}],
    "core-imports": [{"module": "$root", "field": "f", "role": ["world-func", "f", "sync"]}],
    "core-exports": [{"field": "g", "role": ["world-func", "g", "sync"]}],
}

program, folder = sys.argv[1:]
main = os.path.join(folder, "main.wasm")
made = os.path.join(folder, "made.wasm")
core = core_module([("$root", "f")], exports=["g"])


def commands(mebibytes):
    """The three commands, on files of this size; the last is missing where the crate isn't there."""
    large = padded(core, mebibytes)
    with open(main, "wb") as file:
        file.write(with_record(large, RECORD))
    crate = [crate_command(folder, large, WORLD, "")] if component_linker() else []
    return [[program, "new", made, main], ["cp", main, made], *crate]


print(f"{'MiB':>3} {'new s':>9} {'cp s':>9} {'crate s':>9} {'new/cp':>8} {'new/crate':>10}   peak MiB: new, cp, crate")
for mebibytes in (1, 8, 64, 256):
    runs = commands(mebibytes)
    seconds = [timed(command) for command in runs]
    texts = [f"{time:9.4f}" for time in seconds] + ["        -"] * (3 - len(runs))
    ratios = [f"{seconds[0] / time:9.2f}" for time in seconds[1:]]
    peaks = ", ".join(f"{peak(command, folder):.1f}" for command in runs)
    print(f"{mebibytes:3} {' '.join(texts + ratios)}   {peaks}", flush=True)
