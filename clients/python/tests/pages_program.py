"""Builds pagelog-pages for the tests, with sanitizers, and starts it."""

from __future__ import annotations

import fcntl
import subprocess
from pathlib import Path

import service  # noqa: F401  (finds the library)
from pagelog.pages.process import PagesProcess

FOLDER = Path(__file__).resolve().parents[2] / "pages"
_built: list[Path] = []


def program() -> Path:
    """The program, built once in a process of the tests."""
    if not _built:
        with (FOLDER / "Makefile").open() as held:  # another part of the tests may build it, too
            fcntl.flock(held, fcntl.LOCK_EX)
            subprocess.run(["make", "-s", "-C", str(FOLDER), "checked"], check=True)
        _built.append(FOLDER / "out" / "checked" / "pagelog-pages")
    return _built[0]


def started(folder: Path, *options: str) -> PagesProcess:
    return PagesProcess(
        program(), folder, "127.0.0.1:0", "--cache", "8", "--memtable", "1", *options
    )
