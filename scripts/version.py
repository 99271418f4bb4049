"""The version of the project. Its one place is VERSION of crates/pl_command, which the program prints; where else it has to be written,
it is compared with that."""

import pathlib
import re
import sys

ROOT = pathlib.Path(__file__).resolve().parent.parent
SOURCE = "crates/pl_command/src/options.rt", r'^const VERSION: &str = "(\S+)";$'
# What says the same.
ALSO = [
    ("crates/pagelog_verify/src/arguments.rt", SOURCE[1]),
    ("clients/pages/main.c", r'^static const char VERSION\[\] = "(\S+)";$'),
    ("clients/python/src/pagelog/__init__.py", r'^__version__ = "(.*)"$'),
    ("CHANGELOG.md", r"^## (\d\S*)$"),
]


def found_in(name, pattern):
    """The part of the pattern in the first line of the file that is like it."""
    found = re.search(pattern, (ROOT / name).read_text(), flags=re.M)
    if not found:
        sys.exit(f"version: {name} has no line {pattern}")
    return found[1]


def version():
    """The version. It ends the process if a place says another one."""
    version = found_in(*SOURCE)
    for name, pattern in ALSO:
        if (other := found_in(name, pattern)) != version:
            sys.exit(f"version: {name} says {other}, and {SOURCE[0]} says {version}")
    return version
