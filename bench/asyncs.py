"""Times encoding worlds whose functions are called and implemented asynchronously, beside the crate (beside.py): asyncs.py PROGRAM FOLDER."""
import sys

from beside import table
from modules import PREAMBLE, REALLOC, core_module, imports_of, section, text, with_memory
from timing import number

I32 = b"\x7f"
TEXT = [["s", "string"]]
MEMORY = [{"field": "memory", "role": ["memory"]}, {"field": "cabi_realloc", "role": ["realloc"]}]
CALLBACK = b"\x60\3" + I32 * 3 + b"\1" + I32


def functions(names, params=TEXT, result=None):
    return [{"name": name, "params": params, "result": result, "async": True} for name in names]


def texts(names, before="", type="(s: string)"):
    return "".join(f"{before}{name}: async func{type};\n" for name in names)


def implementing(entries, callbacks, results, returns=()):
    """A module that exports a function of a text under the first names, and a callback under the others, and imports functions that take
    a text."""
    places = [number(len(returns) + it) for it in range(3)]
    exports = [text(name) + b"\0" + places[0] for name in entries] + [text(name) + b"\0" + places[1] for name in callbacks]
    exports += [text("cabi_realloc") + b"\0" + places[2], text("memory") + b"\2\0"]
    return (
        PREAMBLE
        + section(1, b"\4\x60\2" + I32 * 2 + b"\0\x60\2" + I32 * 2 + results + CALLBACK + REALLOC)
        + imports_of(returns)
        + section(3, b"\3\1\2\3")
        + section(5, b"\1\0\1")
        + section(7, number(len(exports)) + b"".join(exports))
        + section(10, b"\3" + b"\3\0\0\x0b" * 3)
    )


def direct_calls_at_the_root(count):
    """Calls that need no memory, and so no shim."""
    names = [f"h{n}" for n in range(count)]
    record = {
        "imports": [{"func": it} for it in functions(names, [["n", "u32"]])],
        "core-imports": [{"module": "$root", "field": f"[async-lower]{it}", "role": ["world-func", it, "async"]} for it in names],
    }
    core = core_module([("$root", f"[async-lower]{name}") for name in names], b"\1" + I32, b"\1" + I32)
    return core, record, texts(names, "import ", "(n: u32)"), ""


def direct_calls_of_an_interface(count):
    names = [f"h{n}" for n in range(count)]
    record = {
        "interfaces": [{"id": "a:b/i", "types": [], "functions": functions(names, [["n", "u32"]])}],
        "imports": [{"interface": 0}],
        "core-imports": [{"module": "a:b/i", "field": f"[async-lower]{it}", "role": ["interface-func", 0, it, "async"]} for it in names],
    }
    core = core_module([("a:b/i", f"[async-lower]{name}") for name in names], b"\1" + I32, b"\1" + I32)
    return core, record, "import i;", f"interface i {{\n{texts(names, type='(n: u32)')}}}\n"


def calls_at_the_root(count):
    names = [f"h{n}" for n in range(count)]
    record = {
        "imports": [{"func": it} for it in functions(names)],
        "core-imports": [{"module": "$root", "field": f"[async-lower]{it}", "role": ["world-func", it, "async"]} for it in names],
        "core-exports": MEMORY,
    }
    core = with_memory([("$root", f"[async-lower]{name}") for name in names], b"\2" + I32 * 2, b"\1" + I32)
    return core, record, texts(names, "import "), ""


def calls_of_an_interface(count):
    names = [f"h{n}" for n in range(count)]
    record = {
        "interfaces": [{"id": "a:b/i", "types": [], "functions": functions(names)}],
        "imports": [{"interface": 0}],
        "core-imports": [{"module": "a:b/i", "field": f"[async-lower]{it}", "role": ["interface-func", 0, it, "async"]} for it in names],
        "core-exports": MEMORY,
    }
    core = with_memory([("a:b/i", f"[async-lower]{name}") for name in names], b"\2" + I32 * 2, b"\1" + I32)
    return core, record, "import i;", f"interface i {{\n{texts(names)}}}\n"


def callbacks_at_the_root(count):
    names = [f"g{n}" for n in range(count)]
    entries = [f"[async-lift]{name}" for name in names]
    callbacks = [f"[callback]{name}" for name in entries]
    record = {
        "exports": [{"func": it} for it in functions(names)],
        "core-exports": MEMORY
        + [{"field": entry, "role": ["world-func", name, "async"]} for entry, name in zip(entries, names)]
        + [{"field": callback, "role": ["world-callback", name]} for callback, name in zip(callbacks, names)],
    }
    return implementing(entries, callbacks, b"\1" + I32), record, texts(names, "export "), ""


def callbacks_of_an_interface(count):
    names = [f"g{n}" for n in range(count)]
    entries = [f"[async-lift]a:b/i#{name}" for name in names]
    callbacks = [f"[callback]{name}" for name in entries]
    record = {
        "interfaces": [{"id": "a:b/i", "types": [], "functions": functions(names)}],
        "exports": [{"interface": 0}],
        "core-exports": MEMORY
        + [{"field": entry, "role": ["interface-func", 0, name, "async"]} for entry, name in zip(entries, names)]
        + [{"field": callback, "role": ["interface-callback", 0, name]} for callback, name in zip(callbacks, names)],
    }
    return implementing(entries, callbacks, b"\1" + I32), record, "export i;", f"interface i {{\n{texts(names)}}}\n"


def stacks_of_their_own(count):
    names = [f"g{n}" for n in range(count)]
    entries = [f"[async-lift-stackful]{name}" for name in names]
    record = {
        "exports": [{"func": it} for it in functions(names)],
        "core-exports": MEMORY + [{"field": entry, "role": ["world-func", name, "stackful"]} for entry, name in zip(entries, names)],
    }
    return implementing(entries, [], b"\0"), record, texts(names, "export "), ""


def stacks_of_an_interface(count):
    names = [f"g{n}" for n in range(count)]
    entries = [f"[async-lift-stackful]a:b/i#{name}" for name in names]
    record = {
        "interfaces": [{"id": "a:b/i", "types": [], "functions": functions(names)}],
        "exports": [{"interface": 0}],
        "core-exports": MEMORY + [{"field": entry, "role": ["interface-func", 0, name, "stackful"]} for entry, name in zip(entries, names)],
    }
    return implementing(entries, [], b"\0"), record, "export i;", f"interface i {{\n{texts(names)}}}\n"


def results_at_the_root(count):
    """Callbacks, and the `task.return` of each function."""
    names = [f"g{n}" for n in range(count)]
    entries = [f"[async-lift]{name}" for name in names]
    callbacks = [f"[callback]{name}" for name in entries]
    returns = [("[export]$root", f"[task-return]{name}") for name in names]
    record = {
        "exports": [{"func": it} for it in functions(names, result="string")],
        "core-imports": [{"module": at, "field": it, "role": ["task-return", None, name]} for (at, it), name in zip(returns, names)],
        "core-exports": MEMORY
        + [{"field": entry, "role": ["world-func", name, "async"]} for entry, name in zip(entries, names)]
        + [{"field": callback, "role": ["world-callback", name]} for callback, name in zip(callbacks, names)],
    }
    core = implementing(entries, callbacks, b"\1" + I32, returns)
    return core, record, texts(names, "export ", "(s: string) -> string"), ""


WORLDS = [
    direct_calls_at_the_root,
    direct_calls_of_an_interface,
    calls_at_the_root,
    calls_of_an_interface,
    callbacks_at_the_root,
    callbacks_of_an_interface,
    stacks_of_their_own,
    stacks_of_an_interface,
    results_at_the_root,
]

if __name__ == "__main__":
    table(*sys.argv[1:], WORLDS)
