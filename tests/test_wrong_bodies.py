#!/usr/bin/env python3
"""Tests of wrong_bodies.py: a small crate with wrong bodies of each kind, and what has to be printed of each."""
import os
import re
import subprocess
import sys
import tempfile

HERE = os.path.dirname(os.path.realpath(__file__))

SOURCE = """//! Functions with wrong bodies.
#![tactic(auto)]

ghost use Rattle.std.specs.Prelude.{◌≡◌, ◌+◌, ◌<◌};

pub fn double(x: u32) -> u32
    requires { x < 1000 }
    ensures { result ≡ x + x }
{
    x + x
}

pub fn next(x: u32) -> u32
    requires { x < 1000 }
    ensures { result ≡ x + 1 }
{
    x + 1
}

pub struct Pair {
    pub first: u32,
    pub second: u32,
}

impl Pair {
    pub fn doubled_first(&self) -> u32
        requires { self.now.first < 1000 }
        ensures { result ≡ self.now.first + self.now.first }
    {
        double(self.first)
    }

    pub fn second(&self) -> u32
        ensures { result ≡ self.now.second }
    {
        self.second
    }
}

pub fn the_odd_number_that_comes_next_behind_twice_the_given_number(x: u32) -> u32
    requires { x < 400 }
    ensures { result ≡ (x + x) + 1 }
{
    let twice = double(x);
    let the_number_that_comes_next_behind_the_even_one = next(twice);
    the_number_that_comes_next_behind_the_even_one
}

impl From<u32> for Pair {
    fn from(x: u32) -> Pair
        ensures { result.first ≡ x }
    {
        Pair { first: x, second: 0 }
    }
}

impl From<u8> for Pair {
    fn from(x: u8) -> Pair
        ensures { result.second ≡ x }
    {
        let second = u32::from(x);
        Pair { first: 0, second }
    }
}
"""

# A proof that names a step and a goal of a call. The names are long, so that what the prover says of them has two lines.
ANSWERS = """use Rattle.std.proofs.Common.{arith}
use Rattle.small.proofs.the_odd_number_that_comes_next_behind_twice_the_given_number.Goals as goal

pub next-the_number_that_comes_next_behind_the_even_one-requires : goal.next-the_number_that_comes_next_behind_the_even_one-requires
next-the_number_that_comes_next_behind_the_even_one-requires c = omega (arith, c.double-twice.ensures, c.requires)
"""

# Wrong bodies by name: what is replaced, by what, and how the line of each begins.
OF_SHAPE = "NOT TRIED: it is refused for its shape"
EDITS = {
    "double_is_one_more": ("    x + x", "    x + x + 1", "refused: "),
    "double_turns_round": ("    x + x", "    let y = x; y + x", "NOT REFUSED"),
    "next_is_of_no_type": ("    x + 1", "    let y: u8 = true; x + 1", "BAD EDIT"),
    "the_second_is_the_first": ("        self.second", "        self.first", "refused: "),
    "a_moved_text_is_used": ("        double(self.first)", "        let s: &mut u32 = &mut self.first; double(*s)", "BAD EDIT"),
    "double_takes_no_argument": ("pub fn double(x: u32)", "pub fn double()", "BAD EDIT"),
    "nothing_is_there": ("    x * x", "    x + x", "BAD EDIT"),
    "pair_of_another": ("        Pair { first: x, second: 0 }", "        Pair { first: 0, second: x }", "refused: "),
    "pair_of_another_byte": ("        Pair { first: 0, second }", "        Pair { first: second, second: 0 }", "refused: "),
    "double_by_another_way": ("    x + x", "    2 * x", "NOT REFUSED"),
    "a_step_is_taken_away": ("    let twice = double(x);", "    let twice = x + x;", OF_SHAPE),
    "a_goal_is_taken_away": (" = next(twice);", " = twice + 1;", OF_SHAPE),
    "a_step_has_another_value": (" = next(twice);", " = next(x);", "refused: it is not proved"),
}


# These are in must-fail/, the others in wrong/.
TRIED_BY_CI = {"double_is_one_more"}


def printed_of(root, words):
    """The line of each wrong body, by its name, and the last line."""
    ran = subprocess.run([sys.executable, f"{HERE}/wrong_bodies.py", *words], cwd=root, capture_output=True, text=True, stdin=subprocess.DEVNULL)
    lines = ran.stdout.rstrip("\n").split("\n")
    return dict(re.findall(r"^small/(\w+)\.edit: (.*)$", ran.stdout, re.M)), lines[-1], ran.stdout + ran.stderr


def main():
    passed = failed = 0
    with tempfile.TemporaryDirectory(prefix="small-") as root:
        crate = f"{root}/crates/small"
        os.makedirs(f"{crate}/src")
        os.makedirs(f"{crate}/wrong")
        os.makedirs(f"{crate}/must-fail")
        proof = f"{crate}/proofs/the_odd_number_that_comes_next_behind_twice_the_given_number"
        os.makedirs(proof)
        subprocess.run(["git", "init", "-q", root], check=True)
        of_crate = ((f"{crate}/src/lib.rt", SOURCE), (f"{proof}/Answers.antt", ANSWERS))
        for path, text in ((f"{root}/crates.txt", "small:\n"), (f"{root}/HANDLES", "Handles allowed: none.\n"), *of_crate):
            with open(path, "w", encoding="utf-8") as file:
                file.write(text)
        for name, (old, new, _) in EDITS.items():
            part = "must-fail" if name in TRIED_BY_CI else "wrong"
            with open(f"{crate}/{part}/{name}.edit", "w", encoding="utf-8") as file:
                file.write(f"file: src/lib.rt\nold: {old}\nnew: {new}\n")
        for words in ([], ["--after-ci"]):
            said, last, whole = printed_of(root, words)
            expected = {name: it[2] for name, it in EDITS.items() if not (words and name in TRIED_BY_CI)}
            refused = sum(it.startswith("refused: ") for it in expected.values())
            wrong = [f"{name}: {said.get(name)}" for name, start in expected.items() if not said.get(name, "").startswith(start)]
            if said.keys() != expected.keys():
                wrong.append(f"tried were {', '.join(said)}")
            if last != f"{refused} passed, {len(expected) - refused} failed":
                wrong.append(f"the last line: {last}")
            print("\n".join(wrong + [whole] * bool(wrong)) or f"wrong_bodies.py {' '.join(words)}: all as expected")
            passed, failed = passed + (not wrong), failed + bool(wrong)
    print(f"{passed} passed, {failed} failed")
    return 1 if failed else 0


if __name__ == "__main__":
    sys.exit(main())
