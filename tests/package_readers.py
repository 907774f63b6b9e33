#!/usr/bin/env python3
"""Changes WIT packages at random, and says where the program and Rust's own reader differ in what they refuse.

    package_readers.py [--seed N] [--count N] [--jobs N] [--show N]

The program is what PROGRAM names, or crates/component_new/out/component_new; Rust's reader is in `wasm-component-ld` of a Rust toolchain. The
packages are those of the adapters in that program, and of the examples; each is changed at one to four positions by bytes (fuzz.py), and
stands alone in a core module that has nothing else. So where it can be read, both may still miss an export. The package with the
number N of a seed is always the same.

A run of the program fails where it ends as none may (fuzz.py), or where Rust's reader refuses the package for a reason that is not in
LISTED, and the program takes it. Printed are the counts of packages that both take, both refuse, and one refuses, by what that one
says; --show prints the first so many numbers of each. The last line is 'N passed, M failed'. Without a Rust toolchain it does nothing.
"""
import argparse
import collections
import glob
import os
import random
import re
import subprocess
import sys
import tempfile
from concurrent.futures import ProcessPoolExecutor

sys.dont_write_bytecode = True
HERE = os.path.dirname(os.path.realpath(__file__))
TOP = os.path.dirname(HERE)
sys.path[:0] = [HERE, f"{TOP}/bench"]
from beside import crate_command  # noqa: E402
from fuzz import LINE, PREAMBLE, SECONDS, changed_bytes, read, with_record  # noqa: E402
from wasi_adapters import modules_in, number  # noqa: E402
from wasi_adapters import program as component_linker  # noqa: E402

SKIPPED = 77
# What Rust's reader says where it can't read a package, and the codes of faults by which the program refuses one.
THERE, HERE_REFUSED = re.compile(r"decoding custom section \S+\s*(?:1: )?(.*)", re.DOTALL), re.compile(r"error: E3 Lower: (P4|P5|P8) ")
NUMBERS = re.compile(r" *\(at offset [^)]*\)|0x[0-9a-f]+|\d+|`[^`]*`|\"[^\"]*\"")
# Reasons of Rust's reader for which the program refuses nothing (docs/DIFFERENCES.md): what a validator of components demands of types and
# names, and what is passed over without being read.
LISTED = [
    "is not in kebab case",
    "is not a valid extern name",
    "is not valid function",
    "is not a defined type",
    "function result cannot contain a",
]


def packages_in(module):
    """The packages of a module, in whatever sections they are."""
    at, found = len(PREAMBLE), []
    while at < len(module):
        section = module[at]
        size, begin = number(module, at + 1)
        at = begin + size
        if section == 0:
            length, begin = number(module, begin)
            name, begin = module[begin : begin + length], begin + length
            if name.startswith(b"component-type") and module[begin : begin + 4] == b"\0asm":
                found.append(module[begin:at])
    return found


def corpus():
    with open(component_linker(), "rb") as file:
        linker = file.read()
    modules = [module for module, _ in modules_in(linker)] + [read(it) for it in sorted(glob.glob(f"{TOP}/examples/*/*main.wasm"))]
    return sorted({package for module in modules for package in packages_in(module)}, key=lambda it: (len(it), it))


def changed(packages, seed, number_of):
    """The package with this number."""
    chance = random.Random(f"{seed} {number_of}")
    package = chance.choice(packages)
    for _ in range(chance.choice((1, 1, 1, 2, 4))):
        package = changed_bytes(package, chance, packages)
    return package


def reason_of(text):
    """A message in one line, without its numbers and names."""
    return NUMBERS.sub("_", " ".join(text.split()))


def refused_here(program, folder):
    """The program's fault of the package, if it has one, and what is wrong with the run, if anything."""
    words = [program, "new", "out.wasm", "core.wasm"]
    try:
        ran = subprocess.run(words, cwd=folder, stdin=subprocess.DEVNULL, capture_output=True, timeout=SECONDS)
    except subprocess.TimeoutExpired:
        return "", f"it did not end in {SECONDS} seconds"
    if ran.returncode not in (0, 1) or ran.returncode and not LINE.fullmatch(ran.stderr):
        return "", f"it ended with status {ran.returncode}, and said {ran.stderr[:200]!r}"
    said = ran.stderr.decode()
    return (reason_of(said) if HERE_REFUSED.match(said) else ""), None


def refused_there(folder, core):
    """What Rust's reader says of the package, if it can't read it."""
    ran = subprocess.run(crate_command(folder, core, None, None), capture_output=True, text=True, errors="replace", check=False)
    found = THERE.search(ran.stderr) if ran.returncode else None
    return reason_of(found[1]) if found else ""


def run(job):
    """The verdicts of the packages with these numbers: which reader refuses it for which reason, and what is wrong."""
    program, seed, numbers = job
    packages, found = corpus(), []
    with tempfile.TemporaryDirectory(prefix="readers-", dir="/dev/shm" if os.path.isdir("/dev/shm") else None) as folder:
        for it in numbers:
            core = with_record(PREAMBLE, changed(packages, seed, it))
            there = refused_there(folder, core)
            here, wrong = refused_here(program, folder)
            if there and not here and not wrong and not any(part in there for part in LISTED):
                wrong = f"Rust's reader says {there}"
            found.append((it, here, there, wrong))
    return found


def verdict(here, there):
    if here and there:
        return "both refuse"
    return f"here alone: {here}" if here else f"there alone: {there}" if there else "both take"


def main():
    parser = argparse.ArgumentParser(description=__doc__, formatter_class=argparse.RawDescriptionHelpFormatter)
    parser.add_argument("--seed", default="1")
    parser.add_argument("--count", type=int, default=20_000)
    parser.add_argument("--jobs", type=int, default=len(os.sched_getaffinity(0)))
    parser.add_argument("--show", type=int, default=3)
    given = parser.parse_args()
    program = os.path.abspath(os.environ.get("PROGRAM") or f"{TOP}/crates/component_new/out/component_new")
    if component_linker() is None:
        print("package_readers: there is no Rust toolchain with wasm-component-ld")
        return SKIPPED
    jobs = [(program, given.seed, range(at, min(at + 100, given.count))) for at in range(0, given.count, 100)]
    tally, failed = collections.defaultdict(list), 0
    with ProcessPoolExecutor(given.jobs) as pool:
        for it, here, there, wrong in (one for found in pool.map(run, jobs) for one in found):
            tally[verdict(here, there)].append(it)
            failed += wrong is not None
            if wrong:
                print(f"FAILED: package {it} of seed {given.seed}: {wrong}", flush=True)
    for said, numbers in sorted(tally.items(), key=lambda entry: -len(entry[1])):
        print(f"{len(numbers)} {said}{f' (such as {numbers[: given.show]})' if given.show else ''}")
    print(f"{given.count - failed} passed, {failed} failed")
    return 1 if failed else 0


if __name__ == "__main__":
    sys.exit(main())
