"""Runs a part of the tests, or the torture, with the fast path's library under sanitizers, on a copy. What they report of it is printed,
and fails the run; what they report of Python's own, as of psycopg, is counted.

Usage: python3 -B clients/python/tests/sanitized.py address|thread PART [TEST]
       python3 -B clients/python/tests/sanitized.py address|thread torture [--require-standby] [SECONDS [SEED]]

`address` is the one of addresses, of leaks and of undefined behaviour, `thread` that of races.
"""

from __future__ import annotations

import os
import re
import shutil
import subprocess
import sys
import tempfile
from pathlib import Path

PYTHON = Path(__file__).resolve().parent.parent
TOP = PYTHON.parent.parent
LIBRARY = Path("src/pagelog/keeper/_fast_path.abi3.so")
OURS = re.compile(r"fast_path|libpq(?!.*libffi)", re.DOTALL)
"""What is in each report of the library. Of what libpq has made for it the stack may end in libpq; psycopg calls that by libffi."""
_UNDEFINED = "-fno-wrapv -fsanitize=undefined -fno-sanitize-recover=undefined -static-libubsan"
KINDS = {
    "address": (
        "libasan.so",
        f"-fsanitize=address {_UNDEFINED}",
        "ASAN_OPTIONS",
        "exitcode=0:handle_abort=1",
    ),
    "thread": (
        "libtsan.so",
        "-fsanitize=thread",
        "TSAN_OPTIONS",
        "exitcode=0:history_size=4:io_sync=0",
    ),
}
"""What is loaded first, how the library is compiled, and what the sanitizer is told: a leak of Python's own ends nothing with a status,
and what goes through a socket orders nothing."""
STRIP = '__attribute__((constructor)) static void strip(void) { unsetenv("LD_PRELOAD"); }\n'
"""Loaded beside it, so that PostgreSQL and the services are started without it."""
PYTHON_OF_THE_COPY = """#!/bin/bash
export LD_PRELOAD='{preload}' {options}='{said}' UBSAN_OPTIONS='print_stacktrace=1:log_path={log}.undefined' PYTHONMALLOC=malloc
exec -a "$0" {python} "$@"
"""
"""What a test starts as Python begins in the same way."""


def path_of(library: str) -> str:
    return subprocess.run(
        ["gcc", f"-print-file-name={library}"], check=True, capture_output=True, text=True
    ).stdout.strip()


def make(folder: Path, kind: str) -> Path:
    """The copy in this folder, with a library and a Python of its own. Returns that one's folder."""
    library, flags, options, said = KINDS[kind]
    copy, bin = folder / "clients" / "python", folder / "bin"
    shutil.copytree(
        PYTHON,
        copy,
        ignore=shutil.ignore_patterns("__pycache__", ".mypy_cache", "out", LIBRARY.name),
    )
    shutil.copytree(PYTHON.parent / "pages", copy.parent / "pages")  # with what was built
    (copy.parent / "c").symlink_to(PYTHON.parent / "c")
    tables = folder / "crates" / "pagelog" / "data"
    tables.mkdir(parents=True)
    shutil.copy(TOP / "crates" / "pagelog" / "data" / "t0.toml", tables)
    environment = {**os.environ, "CFLAGS": f"{flags} -fno-omit-frame-pointer -g -Werror"}
    subprocess.run(
        [sys.executable, "-B", "setup.py", "-q", "build_ext", "--inplace"],
        cwd=copy,
        env=environment,
        check=True,
    )
    if not (copy / LIBRARY).exists():
        raise SystemExit("the fast path was not built")
    bin.mkdir()
    (folder / "said").mkdir()
    (folder / "strip.c").write_text(f"#include <stdlib.h>\n{STRIP}")
    subprocess.run(
        ["gcc", "-shared", "-fPIC", "-o", folder / "strip.so", folder / "strip.c"], check=True
    )
    log = folder / "said" / kind
    text = PYTHON_OF_THE_COPY.format(
        preload=f"{path_of(library)} {folder / 'strip.so'}",
        options=options,
        said=f"{said}:log_path={log}",
        log=log,
        python=sys.executable,
    )
    (bin / "python3").write_text(text)
    (bin / "python3").chmod(0o755)
    return bin


def reports(folder: Path) -> list[str]:
    """Each on its own: an error, a race, or one leak of many."""
    texts = [file.read_text(errors="replace") for file in sorted(folder.iterdir())]
    pieces = [
        piece
        for text in texts
        for piece in re.split(r"\n={10,}\n|\n(?=(?:Direct|Indirect) leak of)", text)
    ]
    return [piece for piece in pieces if re.search(r"^\s+#\d|runtime error", piece, re.MULTILINE)]


def main(words: list[str]) -> int:
    if len(words) < 2 or words[0] not in KINDS:
        print(__doc__)
        return 2
    with tempfile.TemporaryDirectory(prefix="pagelog-sanitized-") as name:
        folder = Path(name)
        bin = make(folder, words[0])
        copy = folder / "clients" / "python"
        command = (
            [copy / "torture", *words[2:]] if words[1] == "torture" else [copy / "test", *words[1:]]
        )
        environment = {
            "PAGELOG": str(TOP / "crates" / "pagelog" / "out" / "pagelog"),
            **os.environ,
            "PATH": f"{bin}:{os.environ['PATH']}",
        }
        done = subprocess.run(list(map(str, command)), env=environment).returncode
        found = reports(folder / "said")
        ours = [report for report in found if OURS.search(report)]
    for report in ours:
        print(report)
    print(f"sanitized: {len(ours)} reports of the fast path, {len(found) - len(ours)} of others")
    return 1 if ours or done else 0


if __name__ == "__main__":
    sys.exit(main(sys.argv[1:]))
