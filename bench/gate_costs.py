#!/usr/bin/env python3
"""Makes the table of docs/PROVING.md from what the tests printed.

gate_costs.py FILE: FILE holds the output of tests/all.py, run to its end at the top of this repository. Printed are the
seconds of processor time of each crate, the chain of crates that takes longest to prove, and how long the whole would
take on four and on two processors if each task took one processor, as it did here, and the memory held all of them.
"""
import collections
import os
import re
import sys

TASKS = ("proof", "tests", "must-fail", "wrong bodies")
COST = re.compile(r"^cost of (proof|tests|must-fail|wrong bodies): (\w+) (\d+) processor seconds(?:, (\d+) wrong bodies)?", re.M)
SECTION = re.compile(r"^== (\w+)\n(.*?)(?=^== |^rt: \w+ proved)", re.M | re.S)


def dependencies(file):
    """The crates of this repository that each crate uses."""
    uses = {}
    with open(file, encoding="utf-8") as rows:
        for row in rows:
            name, colon, named = row.partition("#")[0].partition(":")
            if colon:
                uses[name.split()[0]] = named.split()
    return {name: [it for it in named if it in uses] for name, named in uses.items()}


def longest_chain(uses, seconds):
    """The crates of the chain that takes longest, lowest first, and its seconds."""
    ends = {}

    def end_of(name):
        if name not in ends:
            below = max((end_of(it) for it in uses[name]), default=(0.0, ()))
            ends[name] = below[0] + seconds[name], (*below[1], name)
        return ends[name]

    return max((end_of(it) for it in uses), default=(0.0, ()))


def wall(tasks, processors):
    """The seconds that tasks take, as `rt ci` runs them: of those that can begin, first the one with most work behind it."""
    behind = {}

    def work_behind(key):
        if key not in behind:
            after = [it for it in tasks if key in tasks[it][0]]
            behind[key] = tasks[key][1] + max((work_behind(it) for it in after), default=0.0)
        return behind[key]

    left, running, ended, now = sorted(tasks, key=lambda it: -work_behind(it)), [], set(), 0.0
    while left or running:
        for key in [it for it in left if ended.issuperset(tasks[it][0])][: processors - len(running)]:
            left.remove(key)
            running.append((now + tasks[key][1], key))
        running.sort()
        now, key = running.pop(0)
        ended.add(key)
    return now


def tasks_of_ci(uses, cost):
    """What `rt ci` does: by task, those that it waits for, and its seconds."""
    tasks = {}
    for name, below in uses.items():
        waits = [(it, "proof") for it in below]
        tasks[name, "proof"] = waits, cost["proof"][name]
        tasks[name, "tests"] = waits, cost["tests"][name]
        tasks[name, "must-fail"] = [(name, "proof"), (name, "tests")], cost["must-fail"][name]
    return tasks


def main():
    top = os.path.dirname(os.path.dirname(os.path.realpath(__file__)))
    uses = dependencies(f"{top}/crates.txt")
    with open(sys.argv[1], encoding="utf-8", errors="replace") as file:
        text = file.read()
    cost, counts = {it: collections.Counter() for it in TASKS}, collections.Counter()
    for task, name, seconds, bodies in COST.findall(text):
        cost[task][name] += int(seconds)
        counts[name] += int(bodies or 0)
    functions = {name: found[1] for name, said in SECTION.findall(text) if (found := re.search(r"^logic=proved functions=(\d+)", said, re.M))}
    print("| Crate | Functions | Proof | Tests | must-fail/ | Wrong bodies | in seconds | In all |")
    print("|---|---|---|---|---|---|---|---|")
    for name in uses:
        row = [cost[it][name] for it in TASKS]
        shown = [str(it) if it else "" for it in (*row[:3], counts[name], row[3])]
        print(f"| `{name}` | {functions.get(name, '')} | {' | '.join(shown)} | {sum(row)} |")
    sums = [sum(cost[it].values()) for it in TASKS]
    print(f"| all | {sum(map(int, functions.values()))} | {sums[0]} | {sums[1]} | {sums[2]} | {sum(counts.values())} | {sums[3]} | {sum(sums)} |")
    seconds, chain = longest_chain(uses, cost["proof"])
    print(f"\nThe longest chain: {seconds / 60:.0f} minutes, {' → '.join(f'`{it}`' for it in chain)}.")
    for processors in (4, 2):
        ci = wall(tasks_of_ci(uses, cost), processors)
        rest = wall({it: ([], seconds) for it, seconds in cost["wrong bodies"].items()}, processors)
        print(f"Simulated on {processors} processors: `rt ci` {ci / 60:.0f} minutes, all tests {(ci + rest) / 60:.0f}.")
    for line in re.findall(r"^cost of all: (.*)$", text, re.M):
        print(f"Measured: {line}.")


main()
