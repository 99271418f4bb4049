"""The end mark of SQLite's VFS, by which page 0 shows that the pages are those of a SQLite database."""

from __future__ import annotations

from pagelog.errors import HoldsSqlite

MAGIC = b"plfile01"
_NAME = 40
"""Where the name is: a byte with its length, and then so many bytes."""


def sqlite_in(page: bytes) -> HoldsSqlite | None:
    """What is to be raised where page 0 has an end mark, and these pages are to be written; None where it has none."""
    if not page.startswith(MAGIC):
        return None
    name = page[_NAME + 1 : _NAME + 1 + page[_NAME]].decode(errors="replace")
    return HoldsSqlite(int.from_bytes(page[8:16], "big"), name)
