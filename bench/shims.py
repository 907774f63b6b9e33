"""Times encoding worlds with functions that need a memory, beside the crate (beside.py): shims.py PROGRAM FOLDER."""
import sys

from beside import table
from modules import with_memory

I32 = b"\x7f"
TEXT = [["s", "string"]]


def func_role(name):
    return ["world-func", name, "sync"]


MEMORY = [{"field": "memory", "role": ["memory"]}, {"field": "cabi_realloc", "role": ["realloc"]}]


def functions_of_the_root(count):
    names = [f"h{n}" for n in range(count)]
    record = {
        "imports": [{"func": {"name": name, "params": TEXT}} for name in names],
        "core-imports": [{"module": "$root", "field": name, "role": func_role(name)} for name in names],
        "core-exports": MEMORY,
    }
    world = "".join(f"import {name}: func(s: string);\n" for name in names)
    return with_memory([("$root", name) for name in names], b"\2" + I32 * 2), record, world, ""


def functions_of_an_interface(count):
    names = [f"h{n}" for n in range(count)]
    record = {
        "interfaces": [{"id": "a:b/i", "types": [], "functions": [{"name": name, "params": TEXT} for name in names]}],
        "imports": [{"interface": 0}],
        "core-imports": [{"module": "a:b/i", "field": name, "role": ["interface-func", 0, name, "sync"]} for name in names],
        "core-exports": MEMORY,
    }
    functions = "".join(f"{name}: func(s: string);\n" for name in names)
    interface = f"interface i {{\n{functions}}}\n"
    return with_memory([("a:b/i", name) for name in names], b"\2" + I32 * 2), record, "import i;", interface


def functions_that_return_texts(count):
    names = [f"h{n}" for n in range(count)]
    record = {
        "imports": [{"func": {"name": name, "result": "string"}} for name in names],
        "core-imports": [{"module": "$root", "field": name, "role": func_role(name)} for name in names],
        "core-exports": MEMORY,
    }
    world = "".join(f"import {name}: func() -> string;\n" for name in names)
    return with_memory([("$root", name) for name in names], b"\1" + I32), record, world, ""


def interfaces_with_a_function(count):
    names = [f"i{n}" for n in range(count)]
    record = {
        "interfaces": [{"id": f"a:b/{name}", "types": [], "functions": [{"name": "f", "params": TEXT}]} for name in names],
        "imports": [{"interface": n} for n in range(count)],
        "core-imports": [
            {"module": f"a:b/{name}", "field": "f", "role": ["interface-func", n, "f", "sync"]} for n, name in enumerate(names)
        ],
        "core-exports": MEMORY,
    }
    interfaces = "".join(f"interface {name} {{ f: func(s: string); }}\n" for name in names)
    world = "".join(f"import {name};\n" for name in names)
    return with_memory([(f"a:b/{name}", "f") for name in names], b"\2" + I32 * 2), record, world, interfaces


WORLDS = [
    functions_of_the_root,
    functions_of_an_interface,
    functions_that_return_texts,
    interfaces_with_a_function,
]

table(*sys.argv[1:], WORLDS)
