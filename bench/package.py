"""Times encoding modules with WIT packages, beside the crate (beside.py), which is given the same bytes: package.py PROGRAM FOLDER.

The worlds are those of exports.py."""
import functools
import sys

from beside import table
from exports import WORLDS
from packages import with_package


def with_its_package(make):
    """The module of such a world with its package, and neither a record nor a text."""

    @functools.wraps(make)
    def made(count):
        core, record, _, _ = make(count)
        return with_package(core, record), None, None, None

    return made


table(*sys.argv[1:], [with_its_package(make) for make in WORLDS])
