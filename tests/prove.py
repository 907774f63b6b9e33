#!/usr/bin/env python3
"""Runs the kit's `rt` with these words, and without any `rt ci`: all is the kit's own, but two functions do less work.

    prove.py                    at the top of the repository, as the gate does
    ../../tests/prove.py check  in a crate's folder

The kit asks for the crates below a crate, and for the sum of all that a crate is made from, once for each way that leads to a
crate in crates.txt. To the lowest crates there are hundreds of thousands of ways, and each reads the crate's files: that took an
hour of the gate, and some minutes of each check of a high crate. Here each call of these two functions goes to each crate once, and gives the same answer. All else, and so what
is proved and how, is the kit's.
"""
import importlib.machinery
import importlib.util
import os
import shutil
import sys
import threading

sys.dont_write_bytecode = True


def each_once(method):
    """A method of crates that calls itself for the crates below: during one call from outside, once for each crate."""
    here = threading.local()

    def called(crate):
        if hasattr(here, "known"):
            if crate.folder not in here.known:
                here.known[crate.folder] = method(crate)
            return here.known[crate.folder]
        here.known = {}
        try:
            return method(crate)
        finally:
            del here.known

    return called


def improve(crate_class):
    """Has the class of a kit's crates go to each crate once a call, where that is not what it does anyway."""
    crate_class.stamp = each_once(crate_class.stamp)
    crate_class.below = each_once(crate_class.below)


def program(path):
    """A program of the kit, as a module."""
    loader = importlib.machinery.SourceFileLoader("rt", path)
    module = importlib.util.module_from_spec(importlib.util.spec_from_loader("rt", loader))
    loader.exec_module(module)
    return module


def main():
    rt = program(os.path.realpath(shutil.which("rt") or sys.exit("prove: there is no rt on the PATH")))
    improve(rt.rtlib.Crate)
    return rt.main(sys.argv[1:] or ["ci"])


if __name__ == "__main__":
    sys.exit(main())
