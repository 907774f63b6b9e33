#!/usr/bin/env python3
"""Takes the adapters from WASI's first preview to WASI 0.2 out of an installed Rust toolchain, for tests/run_programs.sh.

    wasi_adapters.py FOLDER    writes command.wasm and reactor.wasm into FOLDER, and prints the program that has them

Rust's linker of components, `wasm-component-ld`, has them in it, as Wasmtime publishes them: each is a core module, whose WIT package
has the name of its world. Where there is no such program, or it has them not, it says so, and the exit status is 1.
"""
import glob
import os
import re
import subprocess
import sys

PREAMBLE = b"\0asm\x01\0\0\0"
MOST_ID = 13
# the last section that a linker writes
LAST = "target_features"
WORLDS = {"command": re.compile(r"component-type:.*:wasi:cli@[^:]*:command:"), "reactor": re.compile(r"component-type:.*:wasi:cli@[^:]*:imports:")}


def number(data, at):
    """A number in its encoding with 7 bits a byte, and what follows it."""
    value = shift = 0
    while True:
        byte = data[at]
        value |= (byte & 127) << shift
        at, shift = at + 1, shift + 7
        if byte < 128:
            return value, at


def module_at(data, start):
    """The module that begins there, up to its last section, and the names of its custom sections; or nothing."""
    names, at = [], start + len(PREAMBLE)
    while at < len(data) and data[at] <= MOST_ID:
        section = data[at]
        size, begin = number(data, at + 1)
        at = begin + size
        if at > len(data):
            return None
        if section:
            continue
        length, begin = number(data, begin)
        name = data[begin : begin + length]
        if begin + length > at or not name.isascii():
            return None
        names.append(name.decode())
        if names[-1] == LAST:
            return data[start:at], names
    return None


def modules_in(data):
    at = data.find(PREAMBLE)
    while at >= 0:
        found = module_at(data, at)
        if found:
            yield found
        at = data.find(PREAMBLE, at + 1)


def program():
    """The newest toolchain's linker of components, or nothing."""
    try:
        root = subprocess.run(["rustc", "--print", "sysroot"], capture_output=True, text=True, check=True).stdout.strip()
    except (OSError, subprocess.CalledProcessError):
        return None
    found = glob.glob(f"{glob.escape(root)}/lib/rustlib/*/bin/wasm-component-ld")
    return found[0] if found else None


def main():
    if len(sys.argv) != 2:
        sys.exit(__doc__)
    linker = program()
    if linker is None:
        sys.exit("wasi_adapters: there is no Rust toolchain with wasm-component-ld")
    with open(linker, "rb") as file:
        data = file.read()
    found = {}
    for module, names in modules_in(data):
        for world, pattern in WORLDS.items():
            if any(map(pattern.match, names)):
                found[world] = module
    lacking = [world for world in WORLDS if world not in found]
    if lacking:
        sys.exit(f"wasi_adapters: {linker} has no adapter for {' and '.join(lacking)}")
    for world, module in found.items():
        with open(os.path.join(sys.argv[1], f"{world}.wasm"), "wb") as file:
            file.write(module)
    print(linker)


if __name__ == "__main__":
    main()
