"""SQLite on a named database, with the VFS of clients/c; as a program a writer in a process of its own.

Usage: sqlite_named.py KEEPERS COUNT [FIRST [FOLDER]]     (makes the table t, and enters so many numbers, each in a durable commit)
"""

from __future__ import annotations

import fcntl
import sqlite3
import subprocess
import sys
from contextlib import closing
from pathlib import Path
from typing import Sequence

sys.path.insert(0, str(Path(__file__).resolve().parent.parent / "src"))

from service import PATIENCE, token

C = Path(__file__).resolve().parents[2] / "c"
_loaded: list[Path] = []


def load(folder: Path = C) -> None:
    """Builds the VFS, and loads it, once in a process."""
    if not _loaded:
        with (folder / "Makefile").open() as held:  # another part of the tests may build it, too
            fcntl.flock(held, fcntl.LOCK_EX)
            hasty = [] if folder == C else ["CFLAGS=-O0"]  # of another version it is used once
            subprocess.run(["make", "-s", "-C", str(folder), *hasty, "pagelog_vfs.so"], check=True)
        with closing(sqlite3.connect(":memory:")) as first:
            first.enable_load_extension(True)
            first.load_extension(str(folder / "pagelog_vfs.so"))
        _loaded.append(folder)


def connected(
    keepers: Sequence[str],
    level: str = "full",
    id: int = 2,
    name: str = "shop",
    file: str = "",
    **more: object,
) -> sqlite3.Connection:
    """A connection that may write, at this level; with a `mode` it reads."""
    load()
    operator = "" if "mode" in more else f"&op=1&optoken={token(1)}"
    words = "".join(f"&{key}={value}" for key, value in more.items())
    uri = f"file:{file or name}?vfs=pagelog&where={','.join(keepers)}&name={name}&id={id}&token={token(id)}{operator}{words}"
    made = sqlite3.connect(uri, uri=True, isolation_level=None, timeout=PATIENCE)
    if "mode" not in more:
        made.execute(f"pragma synchronous = {level}")
    return made


def error_of(connection: sqlite3.Connection) -> str:
    """Why its last statement failed."""
    return str(connection.execute("pragma pagelog_error").fetchone()[0])


def enter(keepers: Sequence[str], count: int, first: int = 0, folder: Path = C) -> None:
    """Another process enters numbers, with the VFS of this folder."""
    subprocess.run(
        [sys.executable, "-B", __file__, ",".join(keepers), str(count), str(first), str(folder)],
        check=True,
    )


def main(keepers: str, count: str, first: str = "0", folder: str = "") -> None:
    load(Path(folder) if folder else C)
    with closing(connected(keepers.split(","))) as made:
        made.execute("create table if not exists t(n integer primary key)")
        for number in range(int(first), int(first) + int(count)):
            made.execute("insert into t values(?)", (number,))


if __name__ == "__main__":
    main(*sys.argv[1:])
