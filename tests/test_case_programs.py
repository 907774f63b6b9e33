#!/usr/bin/env python3
"""Tests of cases.py: what is said of the lines that a program of cases prints."""
import os
import sys
import tempfile
import unittest

sys.dont_write_bytecode = True
sys.path.insert(0, os.path.dirname(os.path.realpath(__file__)))
from cases import count_of, judged, programs  # noqa: E402

DATA = "# A comment.\none: 1 <- a\ngiven: x\ntwo: 2 <- b\nthree: 3 <- c\n"


class Judging(unittest.TestCase):
    def setUp(self):
        self.room = tempfile.TemporaryDirectory(prefix="cases-")
        self.top = self.room.name
        os.makedirs(f"{self.top}/crates/numbers/data")
        for path, text in (("crates.txt", "test_cases:\nnumbers: test_cases\n"), ("crates/numbers/args", "a.txt\nb.txt\n")):
            self.write(path, text)
        for name in ("a.txt", "b.txt"):
            self.write(f"crates/numbers/data/{name}", DATA)

    def tearDown(self):
        self.room.cleanup()

    def write(self, path, text):
        with open(f"{self.top}/{path}", "w", encoding="utf-8") as file:
            file.write(text)

    def judged(self, printed):
        return judged(self.top, "numbers", ["a.txt", "b.txt"], printed)

    def test_programs_and_their_cases(self):
        self.assertEqual(programs(self.top), ["numbers"])
        self.assertEqual(count_of(self.top, "numbers", "a.txt"), 3)

    def test_all_as_expected(self):
        self.assertEqual(self.judged("a.txt: as expected\nb.txt: as expected\n"), (6, 0, []))

    def test_a_spoilt_case_is_named(self):
        printed = "a.txt: two: 5 (expected: 2)\na.txt: 2 as expected, 1 otherwise\nb.txt: as expected\n"
        self.assertEqual(self.judged(printed), (5, 1, ["numbers: a.txt: two: 5 (expected: 2)"]))

    def test_a_file_that_was_not_answered(self):
        self.assertEqual(self.judged("a.txt: as expected\n"), (3, 3, ["numbers: b.txt was not answered to its end"]))

    def test_a_file_without_cases(self):
        self.write("crates/numbers/data/b.txt", "# A comment.\n")
        self.assertEqual(self.judged("a.txt: as expected\nb.txt: no case\n")[1], 1)


if __name__ == "__main__":
    ran = unittest.main(argv=sys.argv[:1], exit=False).result
    bad = len(ran.failures) + len(ran.errors)
    print(f"{ran.testsRun - bad} passed, {bad} failed")
    sys.exit(1 if bad else 0)
