"""Times reading records and preparing their worlds: record.py PROGRAM FOLDER.

Modules whose record has 1,000, 10,000 and 100,000 of something, each as the time of `new`, with the ratio of each to the one before:
ten times as many should take about ten times as long. The last column is the peak memory of the greatest, in sizes of its module. Most
of these worlds are not encoded yet: then `new` ends with the fault `P8 LeftOut`, after all of the record was met. Each time is the
least of five.
"""
import itertools
import os
import subprocess
import sys

from modules import core_module, module, with_record
from timing import peak, timed

program, folder = sys.argv[1:]
main = os.path.join(folder, "main.wasm")
made = os.path.join(folder, "made.wasm")
PRIMITIVES = ["bool", "s8", "u8", "s16", "u16", "s32", "u32", "s64", "u64", "f32", "f64", "char"]


def interface(name, functions=(), types=()):
    return {"id": name, "types": list(types), "functions": list(functions)}


def functions_of_the_world(count):
    names = [f"f{n}" for n in range(count)]
    roles = [{"module": "$root", "field": name, "role": ["world-func", name, "sync"]} for name in names]
    record = {"imports": [{"func": {"name": name}} for name in names], "core-imports": roles}
    return module(record, [("$root", name) for name in names])


def functions_of_an_interface(count):
    names = [f"f{n}" for n in range(count)]
    roles = [{"module": "a:b/c", "field": name, "role": ["interface-func", 0, name, "sync"]} for name in names]
    record = {
        "interfaces": [interface("a:b/c", [{"name": name} for name in names])],
        "imports": [{"interface": 0}],
        "core-imports": roles,
    }
    return module(record, [("a:b/c", name) for name in names])


def resources_of_named_interfaces(count):
    """Interfaces that have no id, each with a resource that the core module drops."""
    names = [f"i{n}" for n in range(count)]
    resource = {"name": "r", "type": {"resource": True}}
    roles = [{"module": name, "field": "r", "role": ["imported-drop", n, "r"]} for n, name in enumerate(names)]
    record = {
        "interfaces": [interface(None, (), [resource]) for _ in names],
        "imports": [{"interface": n, "name": name} for n, name in enumerate(names)],
        "core-imports": roles,
    }
    return module(record, [(name, "r") for name in names], b"\1\x7f")


def interfaces_with_a_function(count):
    interfaces = [interface(f"a:b/i{n}", [{"name": "f"}]) for n in range(count)]
    return module({"interfaces": interfaces, "imports": [{"interface": n} for n in range(count)]})


def named_types(count):
    types = [{"name": f"t{n}", "type": {"record": [["f", "u32"]]}} for n in range(count)]
    return module({"interfaces": [interface("a:b/c", (), types)], "imports": [{"interface": 0}]})


def unnamed_types(count):
    tuples = itertools.islice(itertools.product(PRIMITIVES, repeat=5), count)
    functions = [{"name": f"f{n}", "params": [["p", {"tuple": list(parts)}]]} for n, parts in enumerate(tuples)]
    return module({"interfaces": [interface("a:b/c", functions)], "imports": [{"interface": 0}]})


def compatible_versions(count):
    """Interfaces that name a type of an old version, of which a newer one follows."""
    old = {"name": "t", "type": "u32"}
    using = [{"name": "f", "params": [["p", {"ref": [0, "t"]}]]}]
    interfaces = [interface("a:b/c@1.0.0", (), [old])]
    interfaces += [interface(f"a:b/i{n}@1.0.0", using) for n in range(count)]
    interfaces += [interface("a:b/c@1.0.1", (), [old])]
    imports = [{"interface": index} for index in range(len(interfaces))]
    return module({"interfaces": interfaces, "imports": imports})


def roles_of_streams(count):
    """A function with this many streams, each of which the core module drops."""
    names = [f"s{n}" for n in range(count)]
    roles = [
        {
            "module": "a:b/c",
            "field": name,
            "role": ["stream-drop-readable", {"imported": True, "interface": 0, "function": "f", "index": n}],
        }
        for n, name in enumerate(names)
    ]
    function = {"name": "f", "params": [[name, {"stream": "u8"}] for name in names]}
    record = {"interfaces": [interface("a:b/c", [function])], "imports": [{"interface": 0}], "core-imports": roles}
    return module(record, [("a:b/c", name) for name in names], b"\1\x7f")


def functions_that_name_a_long_id(count):
    """An interface whose id has 10,000 bytes, with functions that name a type of it."""
    functions = [{"name": f"f{n}", "params": [["p", {"ref": [0, "t"]}]]} for n in range(count)]
    types = [{"name": "t", "type": "u32"}]
    record = {"interfaces": [interface("a:b/" + "c" * 9996, functions, types)], "imports": [{"interface": 0}]}
    return module(record)


def joined_records(count):
    """A module with this many records, each of which imports a function."""
    joined = core_module()
    for n in range(count):
        joined = with_record(joined, {"imports": [{"func": {"name": f"f{n}"}}]})
    return joined


def printed_fault(command):
    """What a run prints on standard error."""
    return subprocess.run(command, capture_output=True, text=True, check=False).stderr.strip()


COUNTS = (1000, 10000, 100000)
print(f"{'record of':36}" + "".join(f" {count:>9,}" for count in COUNTS) + "    ratios   peak")
for make in (
    functions_of_the_world,
    functions_of_an_interface,
    interfaces_with_a_function,
    resources_of_named_interfaces,
    named_types,
    unnamed_types,
    compatible_versions,
    joined_records,
    roles_of_streams,
    functions_that_name_a_long_id,
):
    seconds = []
    for count in COUNTS:
        with open(main, "wb") as file:
            file.write(make(count))
        command = [program, "new", made, main]
        said = printed_fault(command)
        if said and not said.startswith("error: E3 Lower: P8 LeftOut"):
            sys.exit(f"{make.__name__}: {said}")
        seconds.append(timed(command, check=False))
    sizes = peak(command, folder, check=False) * 2**20 / os.path.getsize(main)
    times = "".join(f" {it:9.3f}" for it in seconds)
    ratios = "".join(f" {later / earlier:5.1f}" for earlier, later in zip(seconds, seconds[1:]))
    print(f"{make.__name__.replace('_', ' '):36}{times}{ratios} {sizes:6.0f}", flush=True)
