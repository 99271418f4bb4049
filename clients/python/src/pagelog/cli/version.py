"""What `--version` says: the version, the commit that it was packed from, and what it works with."""

from __future__ import annotations

from importlib.resources import files

import pagelog

_FITS = (
    "It works with services, keepers and clients of 0.1.0 and 0.2.0; keepers are upgraded first."
)


def commit() -> str:
    """That of the packages, which have it in a file."""
    file = files("pagelog") / "COMMIT"
    return f"commit {file.read_text().strip()}" if file.is_file() else "from a source tree"


def message() -> str:
    return f"pagelogctl, version {pagelog.__version__}, {commit()}\n{_FITS}"
