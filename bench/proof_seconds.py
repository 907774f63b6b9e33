#!/usr/bin/env python3
"""Prints the functions of a crate whose proofs take longest, with their seconds.

proof_seconds.py CRATE [LINES]: CRATE is a folder of crates/. The seconds are the gaps between the times of the
files that a check keeps in out/incremental, so they hold after a first check on one job with nothing beside it.
With WORD in place of LINES it prints each part of the functions whose names have WORD.
"""
import collections
import os
import re
import sys


def kept(crate):
    """The kept files of the crate: when each was written, and its name."""
    files = []
    for at, _, names in os.walk(os.path.join(crate, "out", "incremental")):
        files += [(os.stat(os.path.join(at, name)).st_mtime, name) for name in names if name.endswith(".oantt")]
    return sorted(files)


def function_of(name):
    """The function that a kept file belongs to."""
    name = re.sub(r"^Rattle-\w+?-(proofs|specs)\.", "", name)
    name = re.sub(r"(\.decls)?\.oantt$", "", name)
    return re.sub(r"\.(Lts|Proof|Statement|Invariants|Measure|Answers|Goals|Types|TheVariants)\b.*$", "", name)


def main():
    crate, what = sys.argv[1], (sys.argv[2:] or ["20"])[0]
    files = kept(crate)
    gaps = [(after[0] - before[0], after[1]) for before, after in zip(files, files[1:])]
    if not what.isdigit():
        parts = [(gap, name) for gap, name in gaps if what in name and gap > 0.2]
        for gap, name in parts:
            print(f"{gap:8.1f}  {name}")
        return
    seconds = collections.Counter()
    for gap, name in gaps:
        seconds[function_of(name)] += gap
    print(f"{sum(seconds.values()):8.1f}  in all")
    for name, gap in seconds.most_common(int(what)):
        print(f"{gap:8.1f}  {name}")


main()
