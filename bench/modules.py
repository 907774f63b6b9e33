"""Core modules with a record, for the scripts here."""
import json

from timing import number

PREAMBLE = b"\0asm\1\0\0\0"
# The type of a function that allocates: four i32 to one.
REALLOC = b"\x60\4\x7f\x7f\x7f\x7f\1\x7f"


def section(identifier, contents):
    return bytes([identifier]) + number(len(contents)) + contents


def text(name):
    return number(len(name)) + name.encode()


def with_record(core, record):
    """A core module with its record."""
    return core + section(0, text("component-type") + json.dumps({"version": 1, **record}).encode())


def imports_of(fields):
    """The section that imports these fields as functions of the first type."""
    return section(2, number(len(fields)) + b"".join(text(name) + text(field) + b"\0\0" for name, field in fields))


def core_module(imports=(), params=b"\0", results=b"\0", exports=()):
    """A core module, without a record, that imports these fields as functions of these parameters and results, and exports the first
    of them under these names."""
    names = b"".join(text(name) + b"\0\0" for name in exports)
    core = PREAMBLE + section(1, b"\1\x60" + params + results) + imports_of(imports)
    return core + (section(7, number(len(exports)) + names) if exports else b"")


def module(record, *core):
    """The same with its record."""
    return with_record(core_module(*core), record)


def with_memory(imports, params, results=b"\0", exports=()):
    """A core module, without a record, like `core_module`'s, that has a memory and an allocating function too: its exports `memory` and
    `cabi_realloc`."""
    names = b"".join(text(name) + b"\0\0" for name in exports)
    own = text("memory") + b"\2\0" + text("cabi_realloc") + b"\0" + number(len(imports))
    return (
        PREAMBLE
        + section(1, b"\2\x60" + params + results + REALLOC)
        + imports_of(imports)
        + section(3, b"\1\1")
        + section(5, b"\1\0\1")
        + section(7, number(len(exports) + 2) + names + own)
        + section(10, b"\1\3\0\0\x0b")
    )
