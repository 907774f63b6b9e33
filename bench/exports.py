"""Times encoding worlds that export functions and interfaces, beside the crate (beside.py): exports.py PROGRAM FOLDER."""
import sys

from beside import table
from modules import with_memory

I32 = b"\x7f"
TEXT = [["s", "string"]]
MEMORY = [{"field": "memory", "role": ["memory"]}, {"field": "cabi_realloc", "role": ["realloc"]}]


def exporting(names):
    """A module whose exports of these names take a text. It imports a function that does too."""
    return with_memory([("$root", "f")], b"\2" + I32 * 2, b"\0", names)


IMPORTED = {
    "imports": [{"func": {"name": "f", "params": TEXT}}],
    "core-imports": [{"module": "$root", "field": "f", "role": ["world-func", "f", "sync"]}],
}
IMPORT = "import f: func(s: string);\n"


def exported_functions(count):
    names = [f"g{n}" for n in range(count)]
    record = {
        **IMPORTED,
        "exports": [{"func": {"name": name, "params": TEXT}} for name in names],
        "core-exports": MEMORY + [{"field": name, "role": ["world-func", name, "sync"]} for name in names],
    }
    return exporting(names), record, IMPORT + "".join(f"export {name}: func(s: string);\n" for name in names), ""


def functions_of_an_interface(count):
    names = [f"g{n}" for n in range(count)]
    record = {
        **IMPORTED,
        "interfaces": [{"id": "a:b/i", "types": [], "functions": [{"name": name, "params": TEXT} for name in names]}],
        "exports": [{"interface": 0}],
        "core-exports": MEMORY + [{"field": f"a:b/i#{name}", "role": ["interface-func", 0, name, "sync"]} for name in names],
    }
    functions = "".join(f"{name}: func(s: string);\n" for name in names)
    return exporting([f"a:b/i#{name}" for name in names]), record, IMPORT + "export i;", f"interface i {{\n{functions}}}\n"


def interfaces_with_a_function(count):
    names = [f"i{n}" for n in range(count)]
    record = {
        **IMPORTED,
        "interfaces": [{"id": f"a:b/{name}", "types": [], "functions": [{"name": "f", "params": TEXT}]} for name in names],
        "exports": [{"interface": n} for n in range(count)],
        "core-exports": MEMORY + [{"field": f"a:b/{name}#f", "role": ["interface-func", n, "f", "sync"]} for n, name in enumerate(names)],
    }
    interfaces = "".join(f"interface {name} {{ f: func(s: string); }}\n" for name in names)
    world = IMPORT + "".join(f"export {name};\n" for name in names)
    return exporting([f"a:b/{name}#f" for name in names]), record, world, interfaces


def types_of_an_interface(count):
    """Each function of the interface takes a record of its own."""
    names = [f"g{n}" for n in range(count)]
    types = [{"name": f"t{n}", "type": {"record": [["s", "string"]]}} for n in range(count)]
    functions = [{"name": name, "params": [["a", {"ref": [0, f"t{n}"]}]]} for n, name in enumerate(names)]
    record = {
        **IMPORTED,
        "interfaces": [{"id": "a:b/i", "types": types, "functions": functions}],
        "exports": [{"interface": 0}],
        "core-exports": MEMORY + [{"field": f"a:b/i#{name}", "role": ["interface-func", 0, name, "sync"]} for name in names],
    }
    texts = "".join(f"record t{n} {{ s: string }}\n{name}: func(a: t{n});\n" for n, name in enumerate(names))
    return exporting([f"a:b/i#{name}" for name in names]), record, IMPORT + "export i;", f"interface i {{\n{texts}}}\n"


def types_of_another_interface(count):
    """Each function of the interface takes a type of an imported one."""
    names = [f"g{n}" for n in range(count)]
    types = [{"name": f"t{n}", "type": {"record": [["s", "string"]]}} for n in range(count)]
    functions = [{"name": name, "params": [["a", {"ref": [0, f"t{n}"]}]]} for n, name in enumerate(names)]
    record = {
        **IMPORTED,
        "interfaces": [{"id": "a:b/t", "types": types, "functions": []}, {"id": "a:b/i", "types": [], "functions": functions}],
        "imports": [{"interface": 0}, *IMPORTED["imports"]],
        "exports": [{"interface": 1}],
        "core-exports": MEMORY + [{"field": f"a:b/i#{name}", "role": ["interface-func", 1, name, "sync"]} for name in names],
    }
    used = ", ".join(f"t{n}" for n in range(count))
    texts = "".join(f"{name}: func(a: t{n});\n" for n, name in enumerate(names))
    records = "".join(f"record t{n} {{ s: string }}\n" for n in range(count))
    interfaces = f"interface t {{\n{records}}}\ninterface i {{\nuse t.{{{used}}};\n{texts}}}\n"
    return exporting([f"a:b/i#{name}" for name in names]), record, "import t;\n" + IMPORT + "export i;", interfaces


def interfaces_that_use_a_type(count):
    """An imported one."""
    return using_interfaces(count, "imports")


def interfaces_that_use_an_exported_type(count):
    return using_interfaces(count, "exports")


def using_interfaces(count, side):
    """Each exports a function that takes a type of another one, which is among the `imports` or the `exports`."""
    used = {"imports": [], "exports": [], side: [{"interface": 0}]}
    names = [f"i{n}" for n in range(count)]
    first = {"id": "a:b/t", "types": [{"name": "t", "type": {"record": [["s", "string"]]}}], "functions": []}
    function = {"name": "f", "params": [["a", {"ref": [0, "t"]}]]}
    record = {
        **IMPORTED,
        "interfaces": [first, *({"id": f"a:b/{name}", "types": [], "functions": [function]} for name in names)],
        "imports": used["imports"] + IMPORTED["imports"],
        "exports": used["exports"] + [{"interface": n + 1} for n in range(count)],
        "core-exports": MEMORY + [{"field": f"a:b/{name}#f", "role": ["interface-func", n + 1, "f", "sync"]} for n, name in enumerate(names)],
    }
    interfaces = "interface t { record t { s: string } }\n" + "".join(f"interface {name} {{ use t.{{t}}; f: func(a: t); }}\n" for name in names)
    world = f"{side[:-1]} t;\n" + IMPORT + "".join(f"export {name};\n" for name in names)
    return exporting([f"a:b/{name}#f" for name in names]), record, world, interfaces


def resources_of_an_interface(count):
    """Each has a destructor, and the module drops its handles."""
    names = [f"r{n}" for n in range(count)]
    record = {
        "interfaces": [{"id": "a:b/i", "types": [{"name": name, "type": {"resource": True}} for name in names], "functions": []}],
        "exports": [{"interface": 0}],
        "core-imports": [{"module": "[export]a:b/i", "field": f"[resource-drop]{name}", "role": ["exported-drop", 0, name]} for name in names],
        "core-exports": [{"field": f"a:b/i#[dtor]{name}", "role": ["dtor", 0, name]} for name in names],
    }
    core = with_memory([("[export]a:b/i", f"[resource-drop]{name}") for name in names], b"\1" + I32, b"\0", [f"a:b/i#[dtor]{name}" for name in names])
    resources = "".join(f"resource {name};\n" for name in names)
    return core, record, "export i;", f"interface i {{\n{resources}}}\n"


WORLDS = [
    exported_functions,
    functions_of_an_interface,
    interfaces_with_a_function,
    types_of_an_interface,
    types_of_another_interface,
    interfaces_that_use_a_type,
    interfaces_that_use_an_exported_type,
    resources_of_an_interface,
]

if __name__ == "__main__":
    table(*sys.argv[1:], WORLDS)
