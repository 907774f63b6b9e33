#!/usr/bin/env python3
"""Tests of prove.py: its functions give what those of the kit give, and go to each crate once."""
import os
import sys
import unittest

sys.dont_write_bytecode = True
sys.path.insert(0, os.path.dirname(os.path.realpath(__file__)))
from prove import each_once  # noqa: E402


def crates(depth, method):
    """A tower of crates, each above two of the storey below, with this method; and how often the method was called."""
    calls = []

    class Crate:
        def __init__(self, folder, deps):
            self.folder, self.deps, self.text = folder, deps, folder

        def made_from(self):
            calls.append(self.folder)
            return self.text + "".join(f"({it.made_from()})" for it in self.deps)

    Crate.made_from = method(Crate.made_from)
    storey = []
    for at in range(depth):
        storey = [Crate(f"{at}{side}", storey) for side in "ab"]
    return storey[0], calls


class EachOnce(unittest.TestCase):
    """A method that calls itself for the crates below."""

    def test_the_answer_is_the_same(self):
        plain, _ = crates(6, lambda method: method)
        once, _ = crates(6, each_once)
        self.assertEqual(once.made_from(), plain.made_from())

    def test_each_crate_is_asked_once(self):
        top, calls = crates(6, each_once)
        top.made_from()
        self.assertEqual(sorted(calls), sorted(set(calls)))
        self.assertEqual(len(calls), 11)

    def test_a_later_call_sees_a_change(self):
        top, _ = crates(3, each_once)
        before = top.made_from()
        top.deps[0].text = "changed"
        self.assertNotEqual(top.made_from(), before)

    def test_a_call_that_fails_leaves_nothing(self):
        top, calls = crates(3, each_once)
        lowest = top.deps[0].deps[0]
        lowest.text = None
        with self.assertRaises(TypeError):
            top.made_from()
        lowest.text = "mended"
        self.assertIn("mended", top.made_from())


if __name__ == "__main__":
    ran = unittest.main(argv=sys.argv[:1], exit=False).result
    failed = len(ran.failures) + len(ran.errors)
    print(f"{ran.testsRun - failed} passed, {failed} failed")
    sys.exit(1 if failed else 0)
