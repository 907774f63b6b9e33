"""Times encoding worlds with many types and functions: types.py PROGRAM FOLDER.

Modules whose world has 1,000 and 10,000 of something, each as the time of `new` and as the ratio of the two; ten times as many
should take about ten times as long. Each time is the least of five.
"""
import itertools
import os
import sys

from modules import module
from timing import timed

program, folder = sys.argv[1:]
main = os.path.join(folder, "main.wasm")
made = os.path.join(folder, "made.wasm")
I32 = b"\x7f"
SMALL = ["bool", "s8", "u8", "s16", "u16", "s32", "u32", "char"]


def imported(functions, types=(), params=b"\0", results=b"\0"):
    """A module that imports these functions of its world, which imports these types."""
    roles = [{"module": "$root", "field": f["name"], "role": ["world-func", f["name"], "sync"]} for f in functions]
    items = [{"type": t} for t in types] + [{"func": f} for f in functions]
    return module({"imports": items, "core-imports": roles}, [("$root", f["name"]) for f in functions], params, results)


def functions_of_one_type(count):
    return imported([{"name": f"f{n}", "params": [["a", "u32"]]} for n in range(count)], (), b"\1" + I32)


def functions_of_types_of_their_own(count):
    tuples = itertools.islice(itertools.product(SMALL, repeat=5), count)
    functions = [{"name": f"f{n}", "params": [["a", {"tuple": list(parts)}]]} for n, parts in enumerate(tuples)]
    return imported(functions, (), b"\5" + I32 * 5)


def types_of_the_world(count):
    types = [{"name": f"t{n}", "type": {"record": [["x", "u32"], ["y", "u8"]]}} for n in range(count)]
    return imported([{"name": "f", "params": [["a", {"ref": [None, "t0"]}]]}], types, b"\2" + I32 * 2)


def types_that_name_another(count):
    types = [{"name": "t0", "type": "u32"}]
    types += [{"name": f"t{n}", "type": {"ref": [None, f"t{n // 2}"]}} for n in range(1, count)]
    return imported([{"name": "f", "params": [["a", {"ref": [None, "t0"]}]]}], types, b"\1" + I32)


def exported_functions(count):
    names = [f"g{n}" for n in range(count)]
    function = {"params": [["a", "u32"]]}
    record = {
        "imports": [{"func": {"name": "f", **function}}],
        "exports": [{"func": {"name": name, **function}} for name in names],
        "core-imports": [{"module": "$root", "field": "f", "role": ["world-func", "f", "sync"]}],
        "core-exports": [{"field": name, "role": ["world-func", name, "sync"]} for name in names],
    }
    return module(record, [("$root", "f")], b"\1" + I32, b"\0", names)


def resources_that_are_dropped(count):
    names = [f"r{n}" for n in range(count)]
    record = {
        "imports": [{"type": {"name": name, "type": {"resource": True}}} for name in names],
        "core-imports": [{"module": "$root", "field": name, "role": ["imported-drop", None, name]} for name in names],
    }
    return module(record, [("$root", name) for name in names], b"\1" + I32)


RECORD = {"record": [["x", "u32"], ["y", "u8"]]}


def interface(name, types, functions):
    return {
        "id": name,
        "types": [{"name": name, "type": ty} for name, ty in types],
        "functions": [{"name": name, "params": [["a", ty]]} for name, ty in functions],
    }


def of_interfaces(interfaces, used):
    """A module that imports these interfaces, and these functions of them, by their numbers and names."""
    fields = [(f"m{number}", name) for number, name in used]
    roles = [["interface-func", number, name, "sync"] for number, name in used]
    record = {
        "interfaces": interfaces,
        "imports": [{"interface": number} for number in range(len(interfaces))],
        "core-imports": [{"module": m, "field": f, "role": role} for (m, f), role in zip(fields, roles)],
    }
    return module(record, fields, b"\2" + I32 * 2)


def types_of_an_interface(count):
    types = [(f"t{n}", RECORD) for n in range(count)]
    functions = [(f"f{n}", {"ref": [0, f"t{n}"]}) for n in range(count)]
    return of_interfaces([interface("a:b/i", types, functions)], [(0, f"f{n}") for n in range(count)])


def functions_of_an_interface(count):
    functions = [(f"f{n}", {"ref": [0, "t"]}) for n in range(count)]
    return of_interfaces([interface("a:b/i", [("t", RECORD)], functions)], [(0, f"f{n}") for n in range(count)])


def interfaces_with_a_type(count):
    each = [interface(f"a:b/i{n}", [("t", RECORD)], [("f", {"ref": [n, "t"]})]) for n in range(count)]
    return of_interfaces(each, [(n, "f") for n in range(count)])


def interfaces_that_use_one_type(count):
    first = interface("a:b/t", [("t", RECORD)], [])
    others = [interface(f"a:b/i{n}", [("u", {"ref": [0, "t"]})], [("f", {"ref": [n, "u"]})]) for n in range(1, count)]
    return of_interfaces([first, *others], [(n, "f") for n in range(1, count)])


print("world of                               1,000 s   10,000 s   ratio")
for make in (
    functions_of_one_type,
    functions_of_types_of_their_own,
    types_of_the_world,
    types_that_name_another,
    exported_functions,
    resources_that_are_dropped,
    types_of_an_interface,
    functions_of_an_interface,
    interfaces_with_a_type,
    interfaces_that_use_one_type,
):
    seconds = []
    for count in (1000, 10000):
        with open(main, "wb") as file:
            file.write(make(count))
        seconds.append(timed([program, "new", made, main]))
    name = make.__name__.replace("_", " ")
    print(f"{name:36} {seconds[0]:9.4f} {seconds[1]:10.4f} {seconds[1] / seconds[0]:7.1f}")
