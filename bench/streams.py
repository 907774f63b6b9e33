"""Times encoding worlds whose functions have streams and futures, which the core module makes, reads and writes, beside the crate (beside.py):
streams.py PROGRAM FOLDER."""
import itertools
import sys

from beside import table
from modules import PREAMBLE, REALLOC, section, text
from timing import number

I32, I64 = b"\x7f", b"\x7e"
PRIMITIVES = ["bool", "s8", "u8", "s16", "u16", "s32", "u32", "s64", "u64", "f32", "f64", "char"]
MEMORY = [{"field": "memory", "role": ["memory"]}, {"field": "cabi_realloc", "role": ["realloc"]}]
# The core types of a module, by their numbers: of `new`, of the other operations, of realloc, and of functions that are exported.
NEW, OF_END, OF_FUTURE, OF_STREAM, ALLOCATING, EXPORTED = range(6)
TYPES = b"\x60\0\1" + I64 + b"".join(b"\x60" + number(n) + I32 * n + b"\1" + I32 for n in (1, 2, 3)) + REALLOC + b"\x60\1" + I32 + b"\0"
ACCESSES = {"stream": OF_STREAM, "future": OF_FUTURE}


def module_of(imports, exports=()):
    """A core module that imports functions of these fields and types, and exports functions of these names, a memory and a realloc."""
    bodies = [ALLOCATING] + [EXPORTED] * len(exports)
    names = [text("memory") + b"\2\0"] + [text(name) + b"\0" + number(len(imports) + n) for n, name in enumerate(["cabi_realloc", *exports])]
    return (
        PREAMBLE
        + section(1, number(6) + TYPES)
        + section(2, number(len(imports)) + b"".join(text(module) + text(field) + b"\0" + number(type) for module, field, type in imports))
        + section(3, number(len(bodies)) + b"".join(map(number, bodies)))
        + section(5, b"\1\0\1")
        + section(7, number(len(names)) + b"".join(names))
        + section(10, number(len(bodies)) + b"\3\0\0\x0b" * len(bodies))
    )


def role_of(operation, interface, function, index, imported, rest):
    return [operation, {"imported": imported, "interface": interface, "function": function, "index": index}, *rest]


def used(module, interface, function, index=0, kind="stream", imported=True, asynchronous=0):
    """The roles by which a module makes a stream or a future, reads it and writes it, with the core types of its imports."""
    before = "[async-lower]" if asynchronous else ""
    named = [(f"[{kind}-new-{index}]", "new", NEW, [])]
    named += [(f"{before}[{kind}-{it}-{index}]", it, ACCESSES[kind], [asynchronous]) for it in ("read", "write")]
    return [
        (type, {"module": module, "field": name + function, "role": role_of(f"{kind}-{it}", interface, function, index, imported, rest)})
        for name, it, type, rest in named
    ]


def core_of(uses, exports=()):
    return module_of([(it["module"], it["field"], type) for type, it in uses], exports)


def record_of(uses, entries=(), **world):
    return {**world, "core-imports": [it for _, it in uses], "core-exports": MEMORY + list(entries)}


def element(parts):
    """A type of elements of its own, as a record has it and as WIT."""
    return {"tuple": list(parts)}, f"tuple<{', '.join(parts)}>"


def streams_of_a_function(count):
    """Each of elements of a type of its own."""
    elements = [element(it) for it in itertools.islice(itertools.product(PRIMITIVES, repeat=4), count)]
    uses = [it for n in range(count) for it in used("$root", None, "f", n)]
    function = {"name": "f", "params": [[f"p{n}", {"stream": it}] for n, (it, _) in enumerate(elements)]}
    params = ", ".join(f"p{n}: stream<{it}>" for n, (_, it) in enumerate(elements))
    return core_of(uses), record_of(uses, imports=[{"func": function}]), f"import f: func({params});\n", ""


def streams_of_bytes(count):
    """Of one function too, which has one type for all of them."""
    uses = [it for n in range(count) for it in used("$root", None, "f", n)]
    function = {"name": "f", "params": [[f"p{n}", {"stream": "u8"}] for n in range(count)]}
    return core_of(uses), record_of(uses, imports=[{"func": function}]), None, None


def functions_of(names, value):
    return [{"name": name, "params": [["s", value]]} for name in names]


def functions_with_a_stream(count, kind="stream", value="u8", asynchronous=0):
    names = [f"h{n}" for n in range(count)]
    uses = [it for name in names for it in used("$root", None, name, 0, kind, True, asynchronous)]
    imports = [{"func": it} for it in functions_of(names, {kind: value})]
    world = "".join(f"import {name}: func(s: {kind}<{value}>);\n" for name in names)
    return core_of(uses), record_of(uses, imports=imports), world, ""


def functions_with_a_future(count):
    return functions_with_a_stream(count, "future")


def streams_of_texts(count):
    """They are read with a realloc."""
    return functions_with_a_stream(count, "stream", "string")


def asynchronous_reads_and_writes(count):
    return functions_with_a_stream(count, asynchronous=1)


def functions_of_an_interface(count):
    names = [f"h{n}" for n in range(count)]
    uses = [it for name in names for it in used("a:b/i", 0, name)]
    interfaces = [{"id": "a:b/i", "types": [], "functions": functions_of(names, {"stream": "u8"})}]
    texts = "".join(f"{name}: func(s: stream<u8>);\n" for name in names)
    return core_of(uses), record_of(uses, interfaces=interfaces, imports=[{"interface": 0}]), "import i;", f"interface i {{\n{texts}}}\n"


def interfaces_with_a_stream(count):
    """Their functions have one name."""
    names = [f"i{n}" for n in range(count)]
    uses = [it for n, name in enumerate(names) for it in used(f"a:b/{name}", n, "f")]
    interfaces = [{"id": f"a:b/{name}", "types": [], "functions": functions_of(["f"], {"stream": "u8"})} for name in names]
    texts = "".join(f"interface {name} {{ f: func(s: stream<u8>); }}\n" for name in names)
    record = record_of(uses, interfaces=interfaces, imports=[{"interface": n} for n in range(count)])
    return core_of(uses), record, "".join(f"import {name};\n" for name in names), texts


def exported_functions(count):
    names = [f"g{n}" for n in range(count)]
    uses = [it for name in names for it in used("[export]$root", None, name, imported=False)]
    entries = [{"field": name, "role": ["world-func", name, "sync"]} for name in names]
    record = record_of(uses, entries, exports=[{"func": it} for it in functions_of(names, {"stream": "u8"})])
    return core_of(uses, names), record, "".join(f"export {name}: func(s: stream<u8>);\n" for name in names), ""


WORLDS = [
    streams_of_a_function,
    streams_of_bytes,
    functions_with_a_stream,
    functions_with_a_future,
    streams_of_texts,
    asynchronous_reads_and_writes,
    functions_of_an_interface,
    interfaces_with_a_stream,
    exported_functions,
]

if __name__ == "__main__":
    table(*sys.argv[1:], WORLDS)
