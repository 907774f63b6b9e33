#!/usr/bin/env python3
"""The tests of this repository.

    all.py                  all steps, with the wrong bodies of the crates that changed, and of a part of the others
    all.py --all            all steps, with all wrong bodies
    all.py --quick          what needs no proof, in minutes: the steps before `ci`, and the programs of cases by `rt try`
    all.py --from STEP      the steps from this one on, over what an earlier run of the same files left

The steps, in order:

    graph        docs/ARCHITECTURE.md is compared with crates.txt
    documents    what the documents say of files, codes and cases is compared with the code
    tools        the tests of the programs that test
    edits        all wrong bodies are read: one that fits the code no longer is found
    ci           `rt ci` proves each crate from nothing, tries the wrong bodies of must-fail/, and runs tests and programs
    wrong        the wrong bodies of wrong/ are tried: which, tests/verdicts.py says, and as far as the time suffices
    program      the built program on real files
    components   the components of examples/ in Node, and those that are compiled anew
    programs     C programs over the adapters of WASI in Node, beside the components that Rust makes of them
    growths      a component is measured without memory, and finished in one buffer
    memory       each allocation of the built program is refused in turn, for some inputs
    modules      generated core modules in Node
    fuzz         the built program on inputs that are changed at random, the same ones each time

It stops at the first step that fails. Where the checkout holds nothing of earlier commands, as a fresh clone, the steps run
in it; otherwise in a copy of its files, so that they neither trip over what is there nor change it. Before the last line,
'N passed, M failed', with ', K skipped' where a step lacks a program of the system or had no time for some wrong bodies, it prints
the processor seconds of each crate, of which bench/gate_costs.py makes a table.
"""
import argparse
import contextlib
import fcntl
import glob
import hashlib
import os
import re
import shutil
import subprocess
import sys
import tempfile
import time

sys.dont_write_bytecode = True
HERE = os.path.dirname(os.path.realpath(__file__))
TOP = os.path.dirname(HERE)
sys.path.insert(0, HERE)
from costs import Sampler  # noqa: E402
from verdicts import NAME as REFUSED  # noqa: E402

SUM = re.compile(r"(\d+) passed, (\d+) failed(?:, (\d+) skipped)?")
# The minutes of their step, and of the whole run, after which no further crate's wrong bodies are begun.
MINUTES = 30
WHOLE = 140
BEGAN = time.time()
SKIPPED = 77
PYTHON = [sys.executable, "-u"]
QUICK = ["graph", "documents", "tools", "edits", "cases"]
STEPS = ["graph", "documents", "tools", "edits", "ci", "wrong", "program", "components", "programs", "growths", "memory", "modules", "fuzz"]


class Sums:
    """How many checks passed and failed, and how many steps were skipped."""

    def __init__(self):
        self.passed = self.failed = self.skipped = 0

    def add(self, passed, failed, skipped=0):
        self.passed, self.failed, self.skipped = self.passed + passed, self.failed + failed, self.skipped + skipped

    def line(self):
        return f"{self.passed} passed, {self.failed} failed" + (f", {self.skipped} skipped" if self.skipped else "")


def lines_of(words, folder, env):
    """The lines that a command prints, as it prints them, and at last its exit status."""
    with subprocess.Popen(words, cwd=folder, env=env, stdin=subprocess.DEVNULL, stdout=subprocess.PIPE, text=True, errors="replace") as process:
        for line in process.stdout:
            yield line.rstrip("\n")
    yield process.returncode


def run_program(words, folder, env):
    """Runs a command whose last line is its sum, and prints its other lines."""
    last, status = "", 1
    for line in lines_of(words, folder, env):
        if isinstance(line, int):
            status = line
            continue
        if last:
            print(last, flush=True)
        last = line
    found = SUM.fullmatch(last)
    if not found:
        print(last)
    passed, failed, skipped = (int(it or 0) for it in found.groups()) if found else (0, 1, 0)
    return passed, failed if failed or not status else 1, skipped


def run_script(words, folder, env):
    """Runs a script that prints a line `ok: ..` or `FAILED: ..` for each check, or is skipped by its status."""
    passed = failed = status = 0
    for line in lines_of(words, folder, env):
        if isinstance(line, int):
            status = line
            continue
        print(line, flush=True)
        passed, failed = passed + line.startswith("ok: "), failed + line.startswith("FAILED")
    if status == SKIPPED:
        return passed, failed, 1
    return passed, failed if failed or not status else 1, 0


def commit_of(top):
    """The commit that is tested, or, outside of a repository, nothing."""
    ran = subprocess.run(["git", "rev-parse", "HEAD"], cwd=top, capture_output=True, text=True)
    return ran.stdout.strip() if not ran.returncode else "none"


def is_fresh(top):
    """Whether a checkout holds nothing of earlier commands of the toolchain."""
    return not glob.glob(f"{glob.escape(top)}/crates/*/out") and not os.path.isdir(f"{top}/.git/rt-aside")


def copy_files(top, room):
    """Copies the files that git knows or would take, as they are."""
    listed = subprocess.run(["git", "ls-files", "-z", "--cached", "--others", "--exclude-standard"], cwd=top, capture_output=True, check=True)
    for name in filter(None, listed.stdout.decode().split("\0")):
        if os.path.isfile(f"{top}/{name}"):
            os.makedirs(os.path.dirname(f"{room}/{name}"), exist_ok=True)
            shutil.copy2(f"{top}/{name}", f"{room}/{name}")


def is_copied(top, room):
    """Whether a folder has the files of a checkout as they are now, apart from what the tests write."""
    with tempfile.TemporaryDirectory() as now:
        copy_files(top, now)
        for at, _, files in os.walk(now):
            for name in files:
                path = os.path.relpath(f"{at}/{name}", now)
                with contextlib.suppress(OSError):
                    with open(f"{now}/{path}", "rb") as one, open(f"{room}/{path}", "rb") as other:
                        if one.read() == other.read() or path == REFUSED:
                            continue
                return False
    return True


@contextlib.contextmanager
def place(top, begins):
    """The folder in which the steps run: the checkout itself, or a copy, which stays until the next run of the same checkout."""
    if begins == "ci" and is_fresh(top):
        yield top
        return
    room = f"{tempfile.gettempdir()}/gate-{hashlib.sha256(top.encode()).hexdigest()[:12]}"
    with open(f"{room}.lock", "w", encoding="utf-8") as lock:
        fcntl.flock(lock, fcntl.LOCK_EX)
        if begins == "ci":
            shutil.rmtree(room, ignore_errors=True)
            os.makedirs(room)
            copy_files(top, room)
            print(f"the steps from ci on run in a copy, {room}", flush=True)
        elif is_copied(top, top if is_fresh(room) else room):
            room = top if is_fresh(room) else room
        else:
            sys.exit(f"all: no run of these files left what {begins} needs: begin with ci")
        yield room
        if room != top and os.path.exists(f"{room}/{REFUSED}"):
            shutil.copyfile(f"{room}/{REFUSED}", f"{top}/{REFUSED}")


def minutes_left(now):
    """The minutes in which crates' wrong bodies are begun."""
    return max(0, min(MINUTES, WHOLE - int((now - BEGAN) / 60)))


def call_of(step, room, commit, tries_all):
    """The command of a step, and how its lines are read."""
    due = [] if tries_all else ["--due", commit, "--minutes", str(minutes_left(time.time()))]
    return {
        "graph": ([*PYTHON, "tests/crate_graph.py", "--check"], run_program),
        "documents": ([*PYTHON, "tests/docs.py", "--check"], run_program),
        "tools": ([*PYTHON, "tests/test_tools.py"], run_program),
        "edits": ([*PYTHON, "tests/wrong_bodies.py", "--edits"], run_program),
        "cases": ([*PYTHON, "tests/cases.py"], run_program),
        "ci": ([*PYTHON, "tests/prove.py"], run_program),
        "wrong": ([*PYTHON, "tests/wrong_bodies.py", "--after-ci", *due], run_program),
        "program": (["sh", "tests/built_program.sh"], run_script),
        "components": (["sh", "tests/run_components.sh"], run_script),
        "programs": (["sh", "tests/run_programs.sh"], run_script),
        "growths": (["sh", "tests/measured_growths.sh"], run_script),
        "memory": (["sh", "tests/refuse_memory.sh"], run_script),
        "modules": (["sh", "tests/run_modules.sh"], run_script),
        "fuzz": ([*PYTHON, "tests/fuzz.py", "--seed", "gate", "--count", "20000"], run_program),
    }[step]


def run_step(step, room, commit, tries_all, sums):
    """Runs a step, and prints what it took."""
    words, reader = call_of(step, room, commit, tries_all)
    env = {**os.environ, "PROGRAM": f"{room}/crates/component_new/out/component_new", "TESTS": f"{room}/crates/unit_tests/out/unit_tests_tests"}
    start = time.time()
    with Sampler(room) as sampler:
        ran = reader(words, room, env)
    sums.add(*ran)
    if step == "ci":
        print("\n".join(sampler.lines()))
    took = f"{time.time() - start:.0f} seconds on {len(os.sched_getaffinity(0))} processors"
    print(f"cost of all: {step} {took}, {ran[0]} passed, {ran[1]} failed{', skipped' if ran[2] else ''}", flush=True)
    return not ran[1]


def main():
    parser = argparse.ArgumentParser(description=__doc__, formatter_class=argparse.RawDescriptionHelpFormatter)
    which = parser.add_mutually_exclusive_group()
    which.add_argument("--all", action="store_true", help="try all wrong bodies")
    which.add_argument("--quick", action="store_true", help="only what needs no proof")
    parser.add_argument("--from", dest="begins", choices=STEPS, default=STEPS[0], metavar="STEP", help="begin with this step")
    given = parser.parse_args()
    steps = QUICK if given.quick else STEPS[STEPS.index(given.begins) :]
    os.chdir(TOP)
    sums, commit = Sums(), commit_of(TOP)
    before = [it for it in steps if given.quick or STEPS.index(it) < STEPS.index("ci")]
    is_well = all(run_step(it, TOP, commit, given.all, sums) for it in before)
    rest = [it for it in steps if it not in before]
    if is_well and rest:
        with place(TOP, rest[0]) as room:
            is_well = all(run_step(it, room, commit, given.all, sums) for it in rest)
    print(sums.line())
    return 1 if sums.failed else 0


if __name__ == "__main__":
    sys.exit(main())
