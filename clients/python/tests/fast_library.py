"""Builds the library of a keeper's fast path beside its source, by setup.py, where it is not there or older. Whoever starts keepers of
this checkout calls `build`, and several may at the same time. Run by itself, this does no more; it fails where nothing is lacking, and
the library was not built."""

from __future__ import annotations

import fcntl
import functools
import os
import re
import subprocess
import sys
from pathlib import Path

CLIENT = Path(__file__).resolve().parent.parent
KEEPER = CLIENT / "src" / "pagelog" / "keeper"
SOURCES = (*KEEPER.glob("fast_path*.[ch]"), CLIENT / "setup.py")
LIBRARY = KEEPER / "_fast_path.abi3.so"
OUT = CLIENT / "out"
# What the compiler, the linker or Python says where something is not installed.
LACKING = re.compile(
    r"fatal error: (?!fast_path)\S+: No such file|cannot find -l|No module named 'setuptools'|gcc' failed: No such file"
)
WITHOUT = "the compiled part of keepers is not built, and none starts without it"
INSTALL = (
    "apt-get install gcc libc6-dev libpq-dev libb2-dev libssl-dev zlib1g-dev python3-setuptools"
)


class NotBuilt(Exception):
    """With what was printed."""

    @property
    def is_lacking(self) -> bool:
        """Whether something is not installed that it needs."""
        return LACKING.search(str(self)) is not None


def _is_fresh() -> bool:
    return LIBRARY.exists() and all(
        each.stat().st_mtime <= LIBRARY.stat().st_mtime for each in SOURCES
    )


def _make() -> None:
    """Builds it elsewhere, and then puts it in its place, where it may be loaded at any time."""
    made, objects = OUT / "fast_path", OUT / "objects"
    words = [
        sys.executable,
        "-B",
        "setup.py",
        "-q",
        "build_ext",
        "--build-lib",
        made,
        "--build-temp",
        objects,
        "--force",
    ]
    done = subprocess.run(
        list(map(str, words)),
        cwd=CLIENT,
        env={**os.environ, "CFLAGS": "-Werror", "LC_ALL": "C.UTF-8"},
        stdin=subprocess.DEVNULL,
        stdout=subprocess.PIPE,
        stderr=subprocess.STDOUT,
        text=True,
    )
    built = made / LIBRARY.relative_to(CLIENT / "src")
    if done.returncode or not built.exists():
        raise NotBuilt(done.stdout)
    built.replace(LIBRARY)


def _make_if_older() -> None:
    """One process at a time; the next ones find it built."""
    OUT.mkdir(exist_ok=True)
    with (OUT / "fast_path.lock").open("w") as lock:
        fcntl.flock(lock, fcntl.LOCK_EX)
        if not _is_fresh():
            _make()


@functools.cache
def build() -> bool:
    """Whether it is there now. If not, it says so, once."""
    try:
        if not _is_fresh():
            _make_if_older()
    except (NotBuilt, OSError) as error:
        print(
            f"{WITHOUT}: {INSTALL if isinstance(error, NotBuilt) and error.is_lacking else 'clients/python/test says why'}",
            flush=True,
        )
        return False
    return True


def main() -> int:
    try:
        _make_if_older()
    except NotBuilt as error:
        print(f"{WITHOUT}: {INSTALL}" if error.is_lacking else f"{error}{WITHOUT}")
        return 0 if error.is_lacking else 1
    return 0


if __name__ == "__main__":
    sys.exit(main())
