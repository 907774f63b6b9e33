#!/usr/bin/env python3
"""Runs the programs of cases before any proof, by `rt try`, and says which case has another answer than the expected one.

    cases.py                     all programs of cases, side by side
    cases.py CRATE [FILE..]      one program, over its files of these names, as in `cases.py record_cases versions.txt`

A program of cases is a crate that depends on test_cases and has the file `args`, with the names of its files in data/. Each of
these has one case a line (crates/test_cases says how). Printed are the cases with another answer, by file and name, with the
answer and the expected one. The last line is 'N passed, M failed', in cases; the exit status is 1 where M is not 0.
"""
import os
import re
import subprocess
import sys
from concurrent.futures import ThreadPoolExecutor

sys.dont_write_bytecode = True
TOP = os.path.dirname(os.path.dirname(os.path.realpath(__file__)))
sys.path.insert(0, f"{TOP}/tests")
from crate_graph import read_graph  # noqa: E402

OTHERWISE = re.compile(r"(\S+): \d+ as expected, (\d+) otherwise")


def text_of(path):
    with open(path, encoding="utf-8") as file:
        return file.read()


def programs(top):
    """The crates that are programs of cases."""
    return [name for name, names in read_graph(f"{top}/crates.txt").items() if "test_cases" in names and os.path.isfile(f"{top}/crates/{name}/args")]


def files_of(top, crate):
    return text_of(f"{top}/crates/{crate}/args").split()


def count_of(top, crate, file):
    """How many cases a file has."""
    lines = text_of(f"{top}/crates/{crate}/data/{file}").splitlines()
    return sum(not it.startswith(("#", "given: ")) for it in lines)


def judged(top, crate, files, printed):
    """How many cases passed and failed by what a program printed, and what is to be said of those that failed."""
    passed, said, sums = 0, [], dict.fromkeys(files)
    for line in printed.splitlines():
        file = line.split(": ")[0]
        if found := OTHERWISE.fullmatch(line):
            sums[file] = int(found[2])
        elif line == f"{file}: as expected":
            sums[file] = 0
        else:
            said.append(f"{crate}: {line}")
    failed = 0
    for file in files:
        count = count_of(top, crate, file)
        others = count if sums[file] is None else sums[file]
        if sums[file] is None or not count:
            said.append(f"{crate}: {file} was not answered to its end")
            others = max(others, 1)
        passed, failed = passed + max(count - others, 0), failed + others
    return passed, failed, said


def tried(top, crate, files):
    """Runs a program over some of its files."""
    data = [word for it in files for word in ("--data", f"{it}=data/{it}")]
    ran = subprocess.run(["rt", "try", *data, "--", *files], cwd=f"{top}/crates/{crate}", stdin=subprocess.DEVNULL, capture_output=True, encoding="utf-8", errors="replace")
    passed, failed, said = judged(top, crate, files, ran.stdout)
    if failed or ran.returncode:
        said += [f"{crate}: {it}" for it in ran.stderr.splitlines()[-8:]]
    return passed, failed or int(ran.returncode != 0), said


def main(words):
    known = programs(TOP)
    if words and words[0] not in known:
        sys.exit(f"cases: {words[0]} is none of the programs of cases, which are {' '.join(known)}")
    chosen = {words[0]: words[1:] or files_of(TOP, words[0])} if words else {it: files_of(TOP, it) for it in known}
    for crate, files in chosen.items():
        if lacking := [it for it in files if not os.path.isfile(f"{TOP}/crates/{crate}/data/{it}")]:
            sys.exit(f"cases: there is no crates/{crate}/data/{lacking[0]}")
    passed = failed = 0
    with ThreadPoolExecutor(len(os.sched_getaffinity(0))) as pool:
        for ran in pool.map(lambda it: tried(TOP, *it), chosen.items()):
            passed, failed = passed + ran[0], failed + ran[1]
            print("\n".join(ran[2]), end="\n" if ran[2] else "", flush=True)
    print(f"{passed} passed, {failed} failed")
    return 1 if failed else 0


if __name__ == "__main__":
    sys.exit(main(sys.argv[1:]))
