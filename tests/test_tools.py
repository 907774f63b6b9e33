#!/usr/bin/env python3
"""The tests of the programs that test: each test_*.py beside this one, side by side."""
import glob
import os
import re
import subprocess
import sys
from concurrent.futures import ThreadPoolExecutor

HERE = os.path.dirname(os.path.realpath(__file__))
SUM = re.compile(r"(\d+) passed, (\d+) failed")


def tried(path):
    """What a test program prints, and its numbers of what passed and failed."""
    ran = subprocess.run([sys.executable, path], capture_output=True, text=True, stdin=subprocess.DEVNULL)
    found = SUM.fullmatch(ran.stdout.rstrip("\n").split("\n")[-1])
    passed, failed = (int(found[1]), int(found[2])) if found else (0, 1)
    return ran.stdout + ran.stderr * bool(failed or ran.returncode), passed, failed if failed or not ran.returncode else 1


def main():
    paths = sorted(set(glob.glob(f"{glob.escape(HERE)}/test_*.py")) - {f"{HERE}/test_tools.py"})
    passed = failed = 0
    with ThreadPoolExecutor(len(os.sched_getaffinity(0))) as pool:
        for said, *sums in pool.map(tried, paths):
            print(said, end="", flush=True)
            passed, failed = passed + sums[0], failed + sums[1]
    print(f"{passed} passed, {failed} failed")
    return 1 if failed else 0


if __name__ == "__main__":
    sys.exit(main())
